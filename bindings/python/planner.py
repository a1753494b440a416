"""The threshold planner: a job file in, forced nodes, row figures and answers out, or that no layout is left.

    job = planner.Job(2)
    job.threshold(1, 2).term(0, 3)      # node 1 holds exactly if 3 times node 0 reaches 2
    job.seal().mark_sure(1).settle()    # it is marked sure
    planner.plan(job).forced()          # {0: True, 1: True}

The shared library does the work: that in the folder which PLANNER_LIB names, else an installed one (bindings/install), else that of
this repository (bindings/shared makes it). docs/FORMAT.md has the job file, record by record, and the listing, line by line.
"""

import collections
import ctypes
import enum
import os
import pathlib
import struct

VERSION = "0.3.0"
LISTING = 262_144


class Failure(Exception):
    """Nodes of a plan are not to be used; one of the three below."""


class Contradicted(Failure):
    """No layout agrees with the marks."""


class Refused(Failure):
    """A record was refused; `refusal` says which, and why."""

    def __init__(self, refusal):
        super().__init__(f"refused at byte {refusal.offset}: {refusal.reason.words}")
        self.refusal = refusal


class Unsettled(Failure):
    """Marks come after the last settle or sift: what they force, and whether a layout is left, is not worked out."""


class Reason(enum.IntEnum):
    """Why a record is refused, by number."""
    CUT_OFF = 1, "the input ends inside the record"
    UNKNOWN_KIND = 2, "there is no such kind of record"
    OUT_OF_TURN = 3, "the record is not in its turn"
    TOO_MANY = 4, "the record is beyond a limit"
    NO_SUCH_NODE = 5, "the job has no such node"
    NOT_RISING = 6, "the threshold's node is not above the one before"
    BOUND_OUTSIDE = 7, "the bound is outside -2^52 to 2^52"
    NO_VALUE = 8, "the mark's value is neither 0 nor 1"
    CONTRADICTED = 9, "an earlier record found a contradiction"
    TOO_LONG = 10, "the input has more than 65,536 bytes"

    def __new__(cls, number, words):
        reason = int.__new__(cls, number)
        reason._value_, reason.words = number, words
        return reason


class Step(enum.IntEnum):
    """What a record did, the strongest last."""
    UNCHANGED = 0
    CHANGED = 1
    CONTRADICTION = 2


Kind = collections.namedtuple("Kind", "number name fields body")
Refusal = collections.namedtuple("Refusal", "reason offset")
Row = collections.namedtuple("Row", "known possible lower upper")  # upper is None where there is no such limit
Answer = collections.namedtuple("Answer", "name step visits")  # of a settle or a sift, by its name; a settle has visits 0

KINDS = {kind.number: kind for kind in (
    Kind(0x01, "header", ("nodes",), struct.Struct("<H")),
    Kind(0x02, "threshold", ("node", "bound"), struct.Struct("<Hq")),
    Kind(0x03, "term", ("condition", "weight"), struct.Struct("<HI")),
    Kind(0x04, "seal", (), struct.Struct("<")),
    Kind(0x05, "mark", ("node", "value"), struct.Struct("<HB")),
    Kind(0x06, "settle", (), struct.Struct("<")),
    Kind(0x07, "sift", (), struct.Struct("<")),
    Kind(0x08, "area", ("condition", "area"), struct.Struct("<HI")),
)}
NAMED = {kind.name: kind for kind in KINDS.values()}


class Job:
    """A job file. Each method writes one record; the planner makes every check, and refuses the first record that fails one."""

    def __init__(self, nodes):
        """The header: a job of so many nodes, at most 4,096."""
        self._bytes = bytearray()
        self._put("header", nodes)

    def _put(self, name, *values):
        kind = NAMED[name]
        try:
            body = kind.body.pack(*values)
        except struct.error as error:
            said = ", ".join(f"{field} {value!r}" for field, value in zip(kind.fields, values))
            raise ValueError(f"{name}: a number does not fit its field: {said}") from error
        self._bytes.append(kind.number)
        self._bytes += body
        return self

    def threshold(self, node, bound):
        """Opens a threshold: its node is true exactly if the weights of its true conditions reach the bound. Nodes rise."""
        return self._put("threshold", node, bound)

    def term(self, condition, weight):
        """A term of the open threshold."""
        return self._put("term", condition, weight)

    def area(self, condition, hundredths):
        """A term of the open threshold in hundredths; those of one condition are added before they are rounded."""
        return self._put("area", condition, hundredths)

    def seal(self):
        """Closes the job. Marks, settles and sifts come after it."""
        return self._put("seal")

    def mark_sure(self, node):
        """Marks a node sure; the next settle or sift works out what follows."""
        return self._put("mark", node, 1)

    def mark_never(self, node):
        """Marks a node never; the next settle or sift works out what follows."""
        return self._put("mark", node, 0)

    def settle(self):
        """Works out what follows from all that is decided by now."""
        return self._put("settle")

    def sift(self):
        """Settles, and looks closer at rows that are bounded on both sides."""
        return self._put("sift")

    def __bytes__(self):
        return bytes(self._bytes)


class Plan:
    """What came of a file: `refusal` (None if every record was taken), `contradicted`, `unsettled_marks`, `sealed`, `last` (the step of the
    last seal, mark, settle or sift), `nodes` (True for sure, False for never, None for undecided), `rows` and `answers`."""

    def __init__(self, data, given, work):
        self._data = data
        self.refusal = Refusal(Reason(given.refused), given.at) if given.refused else None
        self.last = Step(given.last)
        self.sealed = bool(given.sealed)
        self.contradicted = self.last == Step.CONTRADICTION
        self.unsettled_marks = _unsettled_marks(data[:given.at])
        self.nodes = [_value(work, node) for node in range(given.nodes)]
        figures, cursors, answers = work["figures"], work["cursors"], work["answers"]
        self.rows = [Row(*figures[row][:3], figures[row][3] if cursors[row][4] else None) for row in range(given.rows)]
        self.answers = [Answer("sift" if number >= 4 else "settle", Step(number % 4), visits)
                        for number, visits in answers[:given.answered]]

    def forced(self):
        """The nodes that are sure (True) or never (False), where that can be relied on; else a Failure is raised."""
        if self.contradicted:
            raise Contradicted("no layout is left")
        if self.refusal:
            raise Refused(self.refusal)
        if self.unsettled_marks:
            raise Unsettled(f"marks after the last settle or sift: {self.unsettled_marks}")
        return {node: value for node, value in enumerate(self.nodes) if value is not None}

    def listing(self):
        """The listing, as text. It does not show every contradiction: ask `contradicted`."""
        out = (ctypes.c_uint8 * LISTING)()
        length = _library().planner_list(self._data, len(self._data), out, LISTING)
        return bytes(out[:length]).decode("ascii")

    def __repr__(self):
        return (f"<Plan refusal={self.refusal} contradicted={self.contradicted} unsettled_marks={self.unsettled_marks} "
                f"answers={self.answers}>")


def plan(job):
    """Runs a whole job file: a Job, or bytes."""
    data = bytes(job if isinstance(job, Job) else memoryview(job))
    work = {name: (element * length)() for name, element, length in _BUFFERS}
    lent = [argument for buffer in work.values() for argument in (buffer, len(buffer))]
    return Plan(data, _library().planner_run(data, len(data), *lent), work)


def version():
    """The version of the library."""
    return _library().planner_version().decode("ascii")


# ---- the library

_U16, _U64, _I64, _SIZE = ctypes.c_uint16, ctypes.c_uint64, ctypes.c_int64, ctypes.c_size_t
# Every lent buffer: name, element and listed length, in the order of planner_run.
_BUFFERS = (
    ("raw_conditions", _U16, 4096), ("raw_weights", _U64, 4096), ("thresholds", _U16 * 2, 1024), ("bounds", _I64, 1024),
    ("row_conditions", _U16, 4096), ("row_weights", _U64, 4096), ("rows", _U16 * 3, 1024), ("guard_bounds", _I64, 1024),
    ("guard_nodes", _U16, 1024), ("nodes", _U16 * 3, 4096), ("edges", _U64 * 2, 4096), ("links", _U16, 2048),
    ("figures", _I64 * 4, 1024), ("cursors", _SIZE * 5, 1024), ("sure", _U64, 64), ("never", _U64, 64), ("search", _U64, 4096),
    ("gcds", _U64, 1025), ("node_queue", _U16, 4096), ("row_queues", _U16 * 4, 1024), ("answers", _U16 * 2, 64),
)


class _Given(ctypes.Structure):
    _fields_ = [("refused", ctypes.c_uint8), ("last", ctypes.c_uint8), ("sealed", ctypes.c_uint8), ("at", _SIZE),
                ("nodes", _SIZE), ("rows", _SIZE), ("answered", _SIZE)]


_loaded = None


def _library():
    """The shared library of this version, loaded once."""
    global _loaded
    if _loaded is None:
        library = _found()
        lent = [argument for _, element, _ in _BUFFERS for argument in (ctypes.POINTER(element), _SIZE)]
        library.planner_version.restype, library.planner_version.argtypes = ctypes.c_char_p, []
        library.planner_run.restype, library.planner_run.argtypes = _Given, [ctypes.c_char_p, _SIZE, *lent]
        library.planner_list.restype = _SIZE
        library.planner_list.argtypes = [ctypes.c_char_p, _SIZE, ctypes.POINTER(ctypes.c_uint8), _SIZE]
        found = library.planner_version().decode("ascii")
        if found.rpartition(".")[0] != VERSION.rpartition(".")[0]:
            raise ImportError(f"the planner's library is version {found}, this module {VERSION}")
        _loaded = library
    return _loaded


def _found():
    name = f"libplanner.so.{VERSION.rpartition('.')[0]}"
    folder = os.environ.get("PLANNER_LIB")
    made_here = pathlib.Path(__file__).resolve().parent.parent.parent / "target/staticlib"
    said = []
    for place in [f"{folder}/{name}"] if folder else [name, f"{made_here}/{name}"]:
        try:
            return ctypes.CDLL(place)
        except OSError as error:
            said.append(str(error))
    raise ImportError(f"the planner's library is missing ({'; '.join(said)}); bindings/shared makes it, bindings/install puts it in place")


def _value(work, node):
    word, bit = divmod(node, 64)
    return True if work["sure"][word] >> bit & 1 else False if work["never"][word] >> bit & 1 else None


def _unsettled_marks(taken):
    """How many marks come after the last settle or sift of records that were all taken."""
    marks = at = 0
    while at < len(taken):
        kind = KINDS[taken[at]]
        marks = 0 if kind.name in ("settle", "sift") else marks + (kind.name == "mark")
        at += 1 + kind.body.size
    return marks
