"""The form of vectors.txt: job files as records in words, listings as lines, and
runs that repeat with even steps written once. Shared by make and check."""

import re
import struct

BODY = {1: "<H", 2: "<Hq", 3: "<HI", 4: "<", 5: "<HB", 6: "<", 7: "<", 8: "<HI"}
NAMES = {1: "header", 2: "threshold", 3: "term", 4: "seal",
         5: "mark", 6: "settle", 7: "sift", 8: "area"}
KINDS = {name: kind for kind, name in NAMES.items()}
FIELD = re.compile(r"(-?\d+)([+-]\d+)?")
LONGEST_GROUP = 6
WIDTH = 110


def records(data):
    """Bytes as records; what does not read as records follows as hex."""
    items, at = [], 0
    while at < len(data):
        form = BODY.get(data[at])
        if form is None or at + 1 + struct.calcsize(form) > len(data):
            break
        fields = struct.unpack_from(form, data, at + 1)
        items.append((NAMES[data[at]], *fields))
        at += 1 + struct.calcsize(form)
    rest = data[at:]
    if len(rest) > 32:
        items += [("hex", "%02x" % byte) for byte in rest]
    elif rest:
        items.append(("hex", rest.hex()))
    return items


def data_of(items):
    out = bytearray()
    for name, *fields in items:
        if name == "hex":
            out += bytes.fromhex(str(fields[0]))
        else:
            kind = KINDS[name]
            out += bytes([kind]) + struct.pack(BODY[kind], *fields)
    return bytes(out)


def lines(text):
    """A listing as items, figures as numbers."""
    assert text.endswith("\n")
    return [tuple(number(word) for word in line.split(" ")) for line in text[:-1].split("\n")]


def text_of(items):
    return "".join(" ".join(map(str, item)) + "\n" for item in items)


def number(word):
    return int(word) if re.fullmatch(r"0|-?[1-9]\d*", word) else word


def step_between(old, new):
    """Steps of the fields from one item to the next, or none if words differ."""
    if len(old) != len(new) or old[0] == "hex" and old != new:
        return None
    steps = []
    for a, b in zip(old, new):
        if isinstance(a, int) and isinstance(b, int):
            steps.append(b - a)
        elif a == b:
            steps.append(0)
        else:
            return None
    return steps


def repeats(items, at, size):
    """How often the group at this place repeats with even steps, and the steps."""
    def steps_at(place):
        if place + 2 * size > len(items):
            return None
        found = [step_between(items[place + k], items[place + size + k]) for k in range(size)]
        return None if None in found else found
    steps, count = steps_at(at), 1
    while steps is not None and steps_at(at + (count - 1) * size) == steps:
        count += 1
    return count, steps


def pack(items):
    """Items as words, runs as `[N: ...]` with `first+step` for moving fields."""
    out, at = [], 0
    while at < len(items):
        best = (0, 1, 1, None)
        for size in range(1, LONGEST_GROUP + 1):
            count, steps = repeats(items, at, size)
            if count >= 4 and (count - 1) * size > best[0]:
                best = ((count - 1) * size, size, count, steps)
        _, size, count, steps = best
        group = []
        for k in range(size):
            fields = [str(field) if not steps or not steps[k][f] else "%d%+d" % (field, steps[k][f])
                      for f, field in enumerate(items[at + k])]
            group.append(" ".join(fields))
        out.append(group[0] if count == 1 else "[%d: %s]" % (count, "; ".join(group)))
        at += size * count
    return out


def unpack(text):
    items = []
    for part in re.findall(r"\[[^\]]*\]|[^;\[\]]+", text):
        part = part.strip()
        if not part:
            continue
        count, group = 1, part
        if part.startswith("["):
            count, group = part[1:-1].split(":", 1)
        templates = [one.split() for one in group.split(";")]
        for turn in range(int(count)):
            items += [tuple(field(word, turn) for word in one) for one in templates]
    return items


def field(word, turn):
    found = FIELD.fullmatch(word)
    if not found or number(found[1]) == found[1]:
        return word
    return int(found[1]) + turn * int(found[2] or 0)


def wrap(mark, words):
    """Items joined by semicolons, on lines that begin with the mark."""
    rows, row = [], ""
    for word in words:
        if row and len(row) + len(word) > WIDTH:
            rows.append(row)
            row = ""
        row += word + "; "
    rows.append(row)
    return "".join(("%s %s" % (mark, row.strip().rstrip(";"))).rstrip() + "\n" for row in rows)


def write(vectors):
    """Vectors are (name, bytes, listing)."""
    out = []
    for name, data, listing in vectors:
        block = "= %s\n%s%s" % (name, wrap("<", pack(records(data))), wrap(">", pack(lines(listing))))
        back = read(block)
        assert back == [(name, data, listing)], "not read back: " + name
        out.append(block)
    return "".join(out)


def read(text):
    vectors = []
    for block in re.split(r"^= ", text, flags=re.M)[1:]:
        name, *rest = block.split("\n")
        given = "; ".join(line[1:] for line in rest if line.startswith("<"))
        listed = "; ".join(line[1:] for line in rest if line.startswith(">"))
        vectors.append((name, data_of(unpack_hex(given)), text_of(unpack(listed))))
    return vectors


def unpack_hex(text):
    """As unpack, with the digits of hex kept as they stand."""
    guarded = re.sub(r"hex ([0-9a-f]+)", r"hex x\1", text)
    return [(item[0], item[1][1:]) if item[0] == "hex" else item for item in unpack(guarded)]
