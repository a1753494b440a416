"""Job files as document 01 has them: records, the job and marks that they give, its rows, the planner's listing. Areas of one
condition under one threshold are joined first (document 02, section 1).
Shared by job, opb, judge and show. Nothing here is taken from the planner but the listing that it prints."""

import collections
import dataclasses
import importlib.machinery
import importlib.util
import itertools
import pathlib
import re
import struct
import subprocess

from command import Failed

ROOT = pathlib.Path(__file__).resolve().parent.parent
PROGRAM = ROOT / "crates/planner_main/out/planner_main"
LONGEST = 65_536

Kind = collections.namedtuple("Kind", "number name fields body")
Record = collections.namedtuple("Record", "at kind values")
Row = collections.namedtuple("Row", "terms guards total")

KINDS = {kind.number: kind for kind in (
    Kind(0x01, "header", ("nodes",), struct.Struct("<H")),
    Kind(0x02, "threshold", ("node", "bound"), struct.Struct("<Hq")),
    Kind(0x03, "term", ("condition", "weight"), struct.Struct("<HI")),
    Kind(0x04, "seal", (), struct.Struct("<")),
    Kind(0x05, "mark", ("node", "value"), struct.Struct("<HB")),
    Kind(0x06, "settle", (), struct.Struct("<")),
    Kind(0x07, "sift", (), struct.Struct("<")),
    Kind(0x08, "area", ("condition", "area"), struct.Struct("<HI")),
)}
NAMED = {kind.name: kind for kind in KINDS.values()}

REASONS = {
    1: "the file ends inside this record",
    2: "there is no record of this kind",
    5: "its node is not below the node count",
    6: "its node is not above that of the threshold before it",
    7: "its bound is outside -2^52 to 2^52",
    8: "its value is neither 0 nor 1",
    9: "a record before it left no layout",
    10: "the file is longer than 65,536 bytes",
}
LIMITS = {
    "header": "a job has at most 4,096 nodes",
    "threshold": "a job has at most 1,024 thresholds",
    "term": "a threshold has at most 1,024 terms, each area counted, and a job 4,096",
    "area": "a threshold has at most 1,024 terms, each area counted, and a job 4,096",
    "settle": "a file has at most 64 settles and sifts",
    "sift": "a file has at most 64 settles and sifts",
}


def split(data):
    """The whole records of a file, and the offset from which on none can be read."""
    found, at = [], 0
    while at < len(data) and data[at] in KINDS:
        kind = KINDS[data[at]]
        end = at + 1 + kind.body.size
        if end > len(data):
            break
        found.append(Record(at, kind, kind.body.unpack_from(data, at + 1)))
        at = end
    return found, at


def words(record):
    return " ".join(map(str, (record.kind.name, *record.values)))


@dataclasses.dataclass
class Threshold:
    """A threshold with its terms and areas as their records have them: (name, condition, number)."""
    node: int
    bound: int
    listed: list = dataclasses.field(default_factory=list)

    @property
    def terms(self):
        return joined(self.listed)


def joined(listed):
    """The raw list of a threshold's terms and areas: areas of one condition are added in hundredths, the sum is rounded
    once, a half going up, and comes where the first of them was."""
    sums = collections.Counter()
    for name, condition, number in listed:
        if name == "area":
            sums[condition] += number
    out = []
    for name, condition, number in listed:
        if name == "term":
            out.append((condition, number))
        elif condition in sums:
            out.append((condition, (sums.pop(condition) + 50) // 100))
    return out


@dataclasses.dataclass
class Job:
    """What a file's records give, up to the first that is refused."""
    nodes: int = None
    thresholds: list = dataclasses.field(default_factory=list)
    terms: int = 0
    sealed: bool = False
    marks: list = dataclasses.field(default_factory=list)
    asked: int = 0
    taken: list = dataclasses.field(default_factory=list)
    refusal: tuple = None


def read(data, before=None):
    """The job of a file, or of its records before an offset. All checks of document 01 are made but that of
    refusal 9, which hangs on what the planner answers: where it gave 9, `before` is that record's offset."""
    job = Job()
    if len(data) > LONGEST:
        job.refusal = 10, 0
        return job
    found, end = split(data[:before])
    for record in found:
        number = refused(job, record)
        if number:
            job.refusal = number, record.at
            return job
        take(job, record)
    if end < len(data[:before]):
        job.refusal = (1 if data[end] in KINDS else 2), end
    return job


def refused(job, record):
    """The number by which a whole record is refused, 0 if it is taken."""
    name, values = record.kind.name, dict(zip(record.kind.fields, record.values))
    node = values.get("node", values.get("condition"))
    checks = (
        (3, out_of_turn(job, name)),
        (5, node is not None and node >= (job.nodes or 0)),
        (6, name == "threshold" and job.thresholds and node <= job.thresholds[-1].node),
        (7, abs(values.get("bound", 0)) > 2**52),
        (8, values.get("value", 0) > 1),
        (4, too_many(job, name, values.get("nodes", 0))),
    )
    return next((number for number, applies in checks if applies), 0)


def out_of_turn(job, name):
    if name == "header" or job.nodes is None:
        return name != "header" or job.nodes is not None
    if name in ("term", "area"):
        return job.sealed or not job.thresholds
    return job.sealed == (name in ("threshold", "seal"))


def too_many(job, name, nodes):
    if name in ("term", "area"):
        return job.terms >= 4096 or job.thresholds and len(job.thresholds[-1].listed) >= 1024
    if name in ("settle", "sift"):
        return job.asked >= 64
    return nodes > 4096 or name == "threshold" and len(job.thresholds) >= 1024


def reason(number, job, name):
    """Why a record of this name is refused, in words; the job is what the records before it give."""
    if number == 4:
        return LIMITS[name]
    if number != 3:
        return REASONS[number]
    if name == "header" or job.nodes is None:
        return "the header comes first, and nowhere else"
    if job.sealed:
        return "the job is sealed, and nothing can join it"
    return "no threshold is open" if name in ("term", "area") else "the job is not sealed yet"


def take(job, record):
    name, values = record.kind.name, record.values
    job.taken.append(record)
    if name == "header":
        job.nodes = values[0]
    elif name == "threshold":
        job.thresholds.append(Threshold(*values))
    elif name in ("term", "area"):
        job.thresholds[-1].listed.append((name, *values))
        job.terms += 1
    elif name == "seal":
        job.sealed = True
    elif name == "mark":
        job.marks.append(values)
    else:
        job.asked += 1


def merged(terms):
    """Terms of one row: equal conditions added up, no zeros, by weight falling, then condition rising."""
    sums = collections.Counter()
    for condition, weight in terms:
        sums[condition] += weight
    return sorted(((node, weight) for node, weight in sums.items() if weight), key=lambda term: (-term[1], term[0]))


def rows(job):
    """Rows by first use: thresholds whose raw lists are equal share one. Guards are (bound, node), rising."""
    shared = {}
    for threshold in job.thresholds:
        shared.setdefault(tuple(threshold.terms), []).append((threshold.bound, threshold.node))
    return [Row(merged(terms), sorted(guards), sum(weight for _, weight in terms)) for terms, guards in shared.items()]


class Unlisted(Exception):
    """Why what a program printed is not the listing of its file."""


STEP = "(?:unchanged|changed|contradiction)"
FORM = re.compile(rf"(?:settle {STEP}\n|sift {STEP} \d+\n)*(?:node \d+ (?:sure|never)\n)*(?:row \d+(?: -?\d+){{3}} (?:-?\d+|-)\n)*"
                  r"(?:end \d+ \d+|refused \d+ at \d+)\n", re.ASCII)


@dataclasses.dataclass
class Listing:
    """What the planner printed of a file: answers in words, nodes by value, rows by their four figures."""
    answers: list = dataclasses.field(default_factory=list)
    nodes: dict = dataclasses.field(default_factory=dict)
    rows: list = dataclasses.field(default_factory=list)
    refusal: tuple = None


def listing(text):
    if not FORM.fullmatch(text):
        raise Unlisted("this is not a listing")
    listed = Listing()
    for line in text.splitlines():
        word, *rest = line.split(" ")
        if word in ("settle", "sift"):
            listed.answers.append((word, *rest))
        elif word == "node":
            listed.nodes[int(rest[0])] = rest[1] == "sure"
        elif word == "row":
            listed.rows.append(tuple(None if figure == "-" else int(figure) for figure in rest[1:]))
        elif word == "refused":
            listed.refusal = int(rest[0]), int(rest[2])
    return listed


def run(program, data):
    """What a program prints of a file."""
    try:
        done = subprocess.run([program], input=data, stdout=subprocess.PIPE, stderr=subprocess.DEVNULL)
    except OSError as error:
        raise Failed(f"{program}: {error.strerror}; ./plan builds the planner, and --program names another program")
    if done.returncode:
        raise Unlisted(f"the program ended with status {done.returncode}")
    return done.stdout.decode("ascii", "replace")


def job_of(data, listed):
    """The job and marks of a file that the planner took, by its listing."""
    job = read(data, listed.refusal and listed.refusal[1])
    asked = [record.kind.name for record in job.taken if record.kind.name in ("settle", "sift")]
    refused_alike = listed.refusal and listed.refusal[0] == 9 or read(data).refusal == listed.refusal
    if not refused_alike or [what for what, *_ in listed.answers] != asked or len(listed.rows) != len(rows(job)) * job.sealed \
            or any(node >= (job.nodes or 0) for node in listed.nodes):
        raise Unlisted("the listing is not that of this file")
    return job


def waiting(job):
    """How many marks no settle or sift came after."""
    return sum(1 for _ in itertools.takewhile(lambda record: record.kind.name == "mark", reversed(job.taken)))


def contradicted(job, listed):
    """Whether the listing shows that no layout is left: by an answer, by refusal 9, or by a last mark that did not hold."""
    marked = job.taken and job.taken[-1].kind.name == "mark" and job.taken[-1].values
    return (any(answer[1] == "contradiction" for answer in listed.answers) or bool(listed.refusal and listed.refusal[0] == 9)
            or bool(marked and listed.nodes.get(marked[0]) != (marked[1] == 1)))


def tool(name):
    """Another tool as a module, by its path from this folder."""
    loader = importlib.machinery.SourceFileLoader(name, str(pathlib.Path(__file__).parent / name))
    module = importlib.util.module_from_spec(importlib.util.spec_from_loader(name, loader))
    loader.exec_module(module)
    return module
