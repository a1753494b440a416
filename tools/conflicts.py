"""The rows in which a contradiction shows: with what is decided, no choice of their open terms agrees with the thresholds. Worked out
from a job and its listing, apart from the planner."""

import collections
import math

# Up to this window each sum is tried.
TRIED = 2**18

# What a row's sum must reach, or stay below, and the guard that asks it: the row in which it is and its node, none if only the figures say so.
Need = collections.namedtuple("Need", "bound row node")
# A row with what is certain and possible of its sum; `upper` is none where nothing bounds it.
Conflict = collections.namedtuple("Conflict", "row known possible lower upper")


def conflicts(rows, figures, value):
    """The rows in which no sum fits. `value` gives a node's value, none if it is open."""
    lowers, uppers = [], []
    for number, (row, (_, _, lower, upper)) in enumerate(zip(rows, figures)):
        said = [Need(bound, number, node) for bound, node in row.guards if value(node) is True]
        lowers.append(max([*said, Need(lower, number, None)], key=bound_of))
        said = [Need(bound, number, node) for bound, node in row.guards if value(node) is False]
        uppers.append(min(said + [Need(upper, number, None)] * (upper is not None), key=bound_of, default=None))
    lowers, uppers = handed_on(beginnings(rows), lowers, uppers)
    found = (conflict(number, row, value, lowers[number], uppers[number]) for number, row in enumerate(rows))
    return [one for one in found if one]


def bound_of(need):
    return need.bound


def beginnings(rows):
    """For each row those whose terms begin its own: itself and those with equal terms too."""
    places, ends, paths = {}, collections.defaultdict(list), []
    for number, row in enumerate(rows):
        path = [0]
        for term in row.terms:
            path.append(places.setdefault((path[-1], term), len(places) + 1))
        ends[path[-1]].append(number)
        paths.append(path)
    return [[other for place in path for other in ends[place]] for path in paths]


def handed_on(begin, lowers, uppers):
    """A row reaches what those that begin it reach, and stays below what those that it begins stay below."""
    below = list(uppers)
    for number, others in enumerate(begin):
        for other in others if uppers[number] else []:
            below[other] = min(filter(None, (below[other], uppers[number])), key=bound_of)
    return [max((lowers[other] for other in [number, *others]), key=bound_of) for number, others in enumerate(begin)], below


def conflict(number, row, value, lower, upper):
    known = sum(weight for node, weight in row.terms if value(node) is True)
    open_ = [weight for node, weight in row.terms if value(node) is None]
    high = sum(open_) if upper is None else upper.bound - 1 - known
    return None if fits(open_, lower.bound - known, high) else Conflict(number, known, known + sum(open_), lower, upper)


def fits(weights, low, high):
    """Whether some of the weights add up to a number within these; true where that is too long to try."""
    total = sum(weights)
    low, high = max(low, 0), min(high, total)
    if low > high or low == 0 or high == total:
        return low <= high
    divisor = math.gcd(*weights)
    weights, low, high, total = [weight // divisor for weight in weights], -(-low // divisor), high // divisor, total // divisor
    # Choosing some is leaving the others.
    low, high = min((low, high), (total - high, total - low), key=lambda window: window[1])
    if low > high or high > TRIED:
        return low <= high and not misses(weights, low, high)
    sums, every = 1, (1 << high + 1) - 1
    for weight in weights:
        if weight <= high:
            sums |= sums << weight & every
    return sums >> low != 0


def misses(weights, low, high):
    """Whether for one of the weights, chosen or not, the divisor of the others tells that no sum is within the window."""
    before = [0]
    for weight in weights:
        before.append(math.gcd(before[-1], weight))
    after = 0
    for weight, first in zip(reversed(weights), reversed(before[:-1])):
        divisor = math.gcd(first, after) or 1
        if not any(end // divisor * divisor >= max(start, 0) for start, end in ((low, high), (low - weight, high - weight)) if end >= 0):
            return True
        after = math.gcd(after, weight)
    return False
