"""Document 01 and docs/FIELDS.md as tables, for the tools: operations and frames, the table of phases, the refusals, and which word is which field."""
import re
from collections import namedtuple

TBD = 0xFFFFFFFF
LENT = 16384  # the words that schedule lends
LONGEST_LINE = 64
MOST_STEPS = 5121
MOST_SUM = 1 << 40
FINISHED, RUNNING, ACCEPTED, REFUSED = 0, 1, 2, 16

Operation = namedtuple("Operation", "name arguments")
OPERATIONS = {
    1: Operation("make", ("workers", "items", "nodes", "projects", "counter")),
    2: Operation("register", ("value", "size")),
    3: Operation("vRead", ("worker", "item")),
    4: Operation("vCAS", ("worker", "item", "old", "new")),
    5: Operation("takeSnapshot", ("worker",)),
    6: Operation("readSnapshot", ("worker", "item", "handle")),
    7: Operation("total", ("worker", "project", "handle")),
    8: Operation("step", ("worker",)),
}
MAKE, REGISTER, VREAD, VCAS, TAKE_SNAPSHOT, READ_SNAPSHOT, TOTAL, STEP = OPERATIONS
SIZES = ((1, 64), (1, 256), (1, 4096), (1, 256), (1, 4294967294))  # the ranges of P, M, N, Q and C

REFUSALS = {
    1: "make: a size outside its range, or too few lent words",
    2: "damaged: a word that the call uses is outside its range, or no make yet",
    3: "the worker number is P or more",
    4: "start: the worker is in an operation",
    5: "step: the worker is idle",
    6: "the item number is not registered",
    7: "a project number is Q or more",
    8: "the handle is at or above the present counter",
    9: "readSnapshot: the handle is below the item's birth stamp",
    10: "register: M items exist",
    11: "register, or vCAS at line 45: no node waits and all N were used",
    12: "takeSnapshot at line 5: the counter is C",
    13: "bad frame: a wrong length, digit or operation, a blank line, or a line over 64 characters",
}

Phase = namedtuple("Phase", "operation line may_answer")


def phases():
    """The table of 36 phases. Each operation's phases stand together; where a step goes on is said in the line's own function."""
    answering = {39, 43, 48, 52, 6}
    lines = {
        "vRead": (37, 20, 21, 22, 39),
        "vCAS": (41, 20, 21, 22, 43, 45, 46, 20, 21, 22, 48, 50, 51, 20, 21, 22, 52),
        "takeSnapshot": (5, 6),
        "readSnapshot": (32, 20, 21, 22, 34),
        "total": (32, 20, 21, 22, 34, 0),
    }
    rows = [Phase("idle", 0, False)]
    for name, its in lines.items():
        last = {"readSnapshot": 34, "total": 0}.get(name)
        rows += [Phase(name, line, line in answering or line == last) for line in its]
    return tuple(rows)


PHASES = phases()
FIRST_PHASE = {VREAD: 1, VCAS: 6, TAKE_SNAPSHOT: 23, READ_SNAPSHOT: 25}
AFTER_A_LOST_46, TOTAL_ITEM, TOTAL_CLOSING = 17, 30, 35

# The field table: each part's fields by name, with their offset in its record. Words that no field names are unused.
HEADER = {name: at for at, name in enumerate(
    ("workers", "items limit", "nodes limit", "projects", "counter limit", "counter", "items", "used", "given back"))}
WORKER = {name: at for at, name in enumerate(
    ("phase", "steps", "item", "old", "new", "handle", "project", "noted", "node", "new node", "seen", "sum, low", "sum, high"))}
ITEM = {"head": 0, "birth": 1, "size": 2}
NODE = {"value": 0, "older": 1, "stamp": 2}
FIELDS = {"header": HEADER, "worker": WORKER, "item": ITEM, "node": NODE}
RECORD_WORDS = {"header": 16, "worker": 16, "item": 4, "node": 3}
FIELD_AT = {part: {at: name for name, at in table.items()} for part, table in FIELDS.items()}

(WORKERS, ITEMS_LIMIT, NODES_LIMIT, PROJECTS, COUNTER_LIMIT, COUNTER, ITEMS, USED, GIVEN_BACK) = range(9)
(PHASE, STEPS, ITS_ITEM, OLD, NEW, HANDLE, PROJECT, NOTED, ITS_NODE, NEW_NODE, SEEN, SUM_LOW, SUM_HIGH) = range(13)
HEAD, BIRTH, SIZE = range(3)
VALUE, OLDER, STAMP = range(3)

KEEP_NODE = {20, 21, 22, 34, 39, 43, 45, 46}  # the lines whose step uses the record's node
KEEP_NEW_NODE = {46, 50}

Place = namedtuple("Place", "part number field")


def needed_words(workers, items, nodes):
    return 16 + 16 * workers + 4 * items + 3 * nodes


def place_of(sizes, index):
    """Which field a word is, with workers, items and nodes as sizes: Place("worker", 1, "phase"); None past the needed words."""
    start = 0
    for part, count in zip(FIELDS, (1,) + tuple(sizes[:3])):
        words = RECORD_WORDS[part]
        if index < start + count * words:
            number, at = divmod(index - start, words)
            return Place(part, number, FIELD_AT[part].get(at, "unused"))
        start += count * words
    return None


def lines_of(text):
    """The lines of an input, as schedule reads them: ended by line feeds alone, a last one with or without."""
    lines = text.split("\n")
    return lines[:-1] if lines[-1] == "" else lines


def parse_frame(line):
    """A line's operation and arguments, or None for a bad frame."""
    if len(line) > LONGEST_LINE or not re.fullmatch("[0-9a-f]{2,}", line):
        return None
    operation = int(line[:2], 16)
    if operation not in OPERATIONS or len(line) != 2 + 4 * len(OPERATIONS[operation].arguments):
        return None
    return operation, tuple(int(line[at : at + 4], 16) for at in range(2, len(line), 4))
