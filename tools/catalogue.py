"""Document 01's catalogue in Python, word by word, for the tools: every call on the lent words, and beside it the tables of fields.py.

A Catalogue holds the lent words (docs/FIELDS.md) and answers calls as the program schedule does, on any words, damaged ones too. It is written from
document 01 and docs/FIELDS.md and shares no code with the proved crates; tests/timeline.sh holds its answers against schedule's. Standard library only.
"""
from fields import *  # the tables are part of this module: a tool imports them from here


class Answer:
    """What a call answers: code, value and steps; for a step that ran, the line it executed; which words it changed, as (word, old, new);
    for refusal 2, the first damaged word (the number of lent words where they are too few)."""

    __slots__ = ("code", "value", "steps", "line", "changes", "damaged")

    def __init__(self, code, value=0, steps=0, damaged=None):
        self.code, self.value, self.steps, self.damaged = code, value, steps, damaged
        self.line, self.changes = None, ()

    @property
    def refusal(self):
        """The number of refusal, or None."""
        return self.code - REFUSED if self.code >= REFUSED else None

    def text(self):
        return f"{self.code:02x}{self.value:016x}{self.steps:04x}"


def refused(number, damaged=None):
    return Answer(REFUSED + number, damaged=damaged)


def outside_sizes(sizes):
    """Which of P, M, N, Q and C is the first outside its range; None where all are inside."""
    for at, (least, most) in enumerate(SIZES):
        if not least <= sizes[at] <= most:
            return at
    return None


class Catalogue:
    """The lent words and the calls on them. Each call tests everything and then writes, so that a refusal changes no word."""

    def __init__(self, words=None):
        self.words = [0] * LENT if words is None else words
        self.changes = []
        self.items_at = self.nodes_at = 0

    def call(self, operation, arguments):
        self.changes = []
        answer = self.answer(operation, arguments)
        answer.changes = self.changes
        return answer

    def call_line(self, line):
        """schedule's answer to a line of its input."""
        frame = parse_frame(line)
        return refused(13) if frame is None else self.call(*frame)

    def answer(self, operation, arguments):
        if operation == MAKE:
            return self.make(arguments)
        damaged = self.header_damage()
        if damaged is not None:
            return refused(2, damaged)
        words = self.words
        self.items_at = 16 + 16 * words[WORKERS]
        self.nodes_at = self.items_at + 4 * words[ITEMS_LIMIT]
        if operation == STEP:
            return self.step(arguments[0])
        if operation == REGISTER:
            return self.register(*arguments)
        return self.start(operation, arguments)

    def put(self, word, number):
        old = self.words[word]
        if old != number:
            self.words[word] = number
            self.changes.append((word, old, number))

    # Where a record stands.
    def worker_at(self, number):
        return 16 + 16 * number

    def item_at(self, number):
        return self.items_at + 4 * number

    def node_at(self, number):
        return self.nodes_at + 3 * number

    # Damage: each test gives the first word in use that is outside its range, or None.
    def header_damage(self):
        words = self.words
        if len(words) < 16:
            return len(words)
        outside = outside_sizes(words)
        if outside is not None:
            return outside
        if words[COUNTER] > words[COUNTER_LIMIT]:
            return COUNTER
        if words[ITEMS] > words[ITEMS_LIMIT]:
            return ITEMS
        if words[USED] > words[NODES_LIMIT]:
            return USED
        if words[GIVEN_BACK] > words[USED]:
            return GIVEN_BACK
        return len(words) if len(words) < needed_words(*words[:3]) else None

    def worker_damage(self, at):
        words = self.words
        if words[at + PHASE] >= len(PHASES):
            return at + PHASE
        if words[at + PHASE] == 0:
            return None
        row = PHASES[words[at + PHASE]]
        damaged = self.argument_damage(at, row)
        if damaged is not None:
            return damaged
        if row.line in KEEP_NODE and words[at + ITS_NODE] >= words[USED]:
            return at + ITS_NODE
        if row.line in KEEP_NEW_NODE and words[at + NEW_NODE] >= words[USED]:
            return at + NEW_NODE
        return at + SEEN if row.line == 22 and words[at + SEEN] > words[COUNTER] else None

    def argument_damage(self, at, row):
        words = self.words
        if row.operation == "total":
            return self.total_damage(at, row)
        if row.operation == "takeSnapshot":
            return None
        if words[at + ITS_ITEM] >= words[ITEMS]:
            return at + ITS_ITEM
        if row.operation == "vCAS" and words[at + OLD] >= words[PROJECTS]:
            return at + OLD
        if row.operation == "vCAS" and words[at + NEW] >= words[PROJECTS]:
            return at + NEW
        return at + HANDLE if row.operation == "readSnapshot" and words[at + HANDLE] >= words[COUNTER] else None

    def total_damage(self, at, row):
        words = self.words
        if words[at + PROJECT] >= words[PROJECTS]:
            return at + PROJECT
        if words[at + HANDLE] >= words[COUNTER]:
            return at + HANDLE
        if words[at + NOTED] > words[ITEMS]:
            return at + NOTED
        if words[at + ITS_ITEM] > words[at + NOTED] - (row.line != 0):  # inside an item its place is below the number noted
            return at + ITS_ITEM
        return at + SUM_HIGH if self.sum(at) > MOST_SUM else None

    def sum(self, at):
        return (self.words[at + SUM_HIGH] << 32) + self.words[at + SUM_LOW]

    def before_step_damage(self, at):
        """Two tests more of a busy worker, before a step and at no start."""
        words = self.words
        if words[at + PHASE] == 0:
            return None
        if words[at + STEPS] >= MOST_STEPS:
            return at + STEPS
        return at + SEEN if PHASES[words[at + PHASE]].line == 6 and words[at + SEEN] >= words[COUNTER_LIMIT] else None

    def stamp_outside(self, word):
        return self.words[COUNTER] < self.words[word] != TBD

    def item_damage(self, at):
        if self.words[at + HEAD] >= self.words[USED]:
            return at + HEAD
        return at + BIRTH if self.stamp_outside(at + BIRTH) else None

    def value_damage(self, at):
        return at + VALUE if self.words[at + VALUE] >= self.words[PROJECTS] else None

    def older_damage(self, at):
        return at + OLDER if self.words[at + OLDER] > self.words[USED] else None

    def stamp_damage(self, at):
        return at + STAMP if self.stamp_outside(at + STAMP) else None

    def node_damage(self, at):
        for test in (self.value_damage, self.older_damage, self.stamp_damage):
            damaged = test(at)
            if damaged is not None:
                return damaged
        return None

    def given_back_damage(self):
        """Of the first node given back, where one waits."""
        return self.node_damage(self.node_at(self.words[GIVEN_BACK] - 1)) if self.words[GIVEN_BACK] else None

    def tested_damage(self, node, handle):
        """Line 34: a stamp that is there, then the older node where it goes on and the value where it does not."""
        words = self.words
        if words[node + STAMP] > words[COUNTER]:
            return node + STAMP
        if words[node + STAMP] <= handle:
            return self.value_damage(node)
        return node + OLDER if words[node + OLDER] == 0 else self.older_damage(node)

    def used_nodes_damage(self, line, at):
        """The node words that a step at this line uses."""
        words = self.words
        node = self.node_at(words[at + ITS_NODE])
        if line in (20, 22):
            return self.stamp_damage(node)
        if line in (39, 43):
            return self.value_damage(node)
        if line == 34:
            return self.tested_damage(node, words[at + HANDLE])
        if line == 45:
            return None if self.no_node_left() else self.node_damage(self.node_at(self.node_to_take()))
        if line == 50:
            damaged = self.older_damage(self.node_at(words[at + NEW_NODE]))
            return self.given_back_damage() if damaged is None else damaged
        return None

    # Taking a node: the one most recently given back; if none waits, the lowest never used.
    def no_node_left(self):
        return self.words[GIVEN_BACK] == 0 and self.words[USED] == self.words[NODES_LIMIT]

    def node_to_take(self):
        return self.words[GIVEN_BACK] - 1 if self.words[GIVEN_BACK] else self.words[USED]

    def take_node(self, value, older, stamp):
        number = self.node_to_take()
        at = self.node_at(number)
        if self.words[GIVEN_BACK]:
            self.put(GIVEN_BACK, self.words[at + OLDER])
        else:
            self.put(USED, self.words[USED] + 1)
        self.put(at + VALUE, value)
        self.put(at + OLDER, older)
        self.put(at + STAMP, stamp)
        return number

    # Make, register and the starts.
    def make(self, sizes):
        if outside_sizes(sizes) is not None or len(self.words) < needed_words(*sizes[:3]):
            return refused(1)
        for word, size in enumerate(sizes):
            self.put(word, size)
        for word in range(len(sizes), needed_words(*sizes[:3])):
            if self.words[word]:
                self.put(word, 0)
        return Answer(ACCEPTED)

    def register(self, value, size):
        words = self.words
        if value >= words[PROJECTS]:
            return refused(7)
        if words[ITEMS] == words[ITEMS_LIMIT]:
            return refused(10)
        if self.no_node_left():
            return refused(11)
        damaged = self.given_back_damage()
        if damaged is not None:
            return refused(2, damaged)
        number = words[ITEMS]
        item = self.item_at(number)
        self.put(item + HEAD, self.take_node(value, 0, words[COUNTER]))
        self.put(item + BIRTH, words[COUNTER])
        self.put(item + SIZE, size)
        self.put(ITEMS, number + 1)
        return Answer(ACCEPTED, number)

    def start(self, operation, arguments):
        words = self.words
        if arguments[0] >= words[WORKERS]:
            return refused(3)
        at = self.worker_at(arguments[0])
        damaged = self.worker_damage(at)
        if damaged is not None:
            return refused(2, damaged)
        if words[at + PHASE]:
            return refused(4)
        asked = dict(zip(OPERATIONS[operation].arguments[1:], arguments[1:]))
        refusal = self.argument_refusal(asked)
        if refusal is not None:
            return refusal
        record = [0] * 16
        for name, number in asked.items():
            record[WORKER[name]] = number
        if operation == TOTAL:
            record[NOTED] = words[ITEMS]
        record[PHASE] = self.total_goes_to(0, words[ITEMS]) if operation == TOTAL else FIRST_PHASE[operation]
        for word, number in enumerate(record, at):
            self.put(word, number)
        return Answer(ACCEPTED)

    def argument_refusal(self, asked):
        """Refusals 6 to 9, in the table's order, with an item's damage after 6."""
        words = self.words
        item = asked.get("item")
        if item is not None:
            if item >= words[ITEMS]:
                return refused(6)
            damaged = self.item_damage(self.item_at(item))
            if damaged is not None:
                return refused(2, damaged)
        if any(asked.get(name, 0) >= words[PROJECTS] for name in ("old", "new", "project")):
            return refused(7)
        if "handle" in asked and asked["handle"] >= words[COUNTER]:
            return refused(8)
        if "handle" in asked and item is not None and asked["handle"] < words[self.item_at(item) + BIRTH]:
            return refused(9)
        return None

    # A step: one line of Algorithm 1.
    def step(self, number):
        words = self.words
        if number >= words[WORKERS]:
            return refused(3)
        at = self.worker_at(number)
        damaged = self.worker_damage(at)
        if damaged is None:
            damaged = self.before_step_damage(at)
        if damaged is not None:
            return refused(2, damaged)
        if words[at + PHASE] == 0:
            return refused(5)
        row = PHASES[words[at + PHASE]]
        item = self.item_at(words[at + ITS_ITEM])
        if row.operation != "takeSnapshot" and row.line != 0:  # inside an item
            damaged = self.item_damage(item)
            if damaged is None:
                damaged = self.used_nodes_damage(row.line, at)
            if damaged is not None:
                return refused(2, damaged)
        answer = LINES[row.line](self, at, item, row)
        answer.line = row.line
        return answer

    def go_on(self, at, phase=None):
        """The operation goes on, at the next phase where no other is named."""
        steps = self.words[at + STEPS] + 1
        self.put(at + PHASE, self.words[at + PHASE] + 1 if phase is None else phase)
        self.put(at + STEPS, steps)
        return Answer(RUNNING, 0, steps)

    def end(self, at, value, code=FINISHED):
        steps = self.words[at + STEPS] + 1
        for word in range(at, at + 16):
            self.put(word, 0)
        return Answer(code, value, steps)

    def line_5(self, at, item, row):
        if self.words[COUNTER] == self.words[COUNTER_LIMIT]:
            return self.end(at, 0, REFUSED + 12)
        self.put(at + SEEN, self.words[COUNTER])
        return self.go_on(at)

    def line_6(self, at, item, row):
        seen = self.words[at + SEEN]
        if self.words[COUNTER] == seen:
            self.put(COUNTER, seen + 1)
        return self.end(at, seen)

    def line_20(self, at, item, row):
        decided = self.words[self.node_at(self.words[at + ITS_NODE]) + STAMP] != TBD
        return self.go_on(at, self.words[at + PHASE] + 3 if decided else None)

    def line_21(self, at, item, row):
        self.put(at + SEEN, self.words[COUNTER])
        return self.go_on(at)

    def line_22(self, at, item, row):
        stamp = self.node_at(self.words[at + ITS_NODE]) + STAMP
        if self.words[stamp] == TBD:
            self.put(stamp, self.words[at + SEEN])
        return self.go_on(at)

    def fetch_head(self, at, item, row):
        if row.operation == "total" and self.words[item + BIRTH] > self.words[at + HANDLE]:
            return self.next_item(at)
        self.put(at + ITS_NODE, self.words[item + HEAD])
        return self.go_on(at)

    def total_goes_to(self, place, noted):
        return TOTAL_ITEM if place < noted else TOTAL_CLOSING

    def next_item(self, at):
        place = self.words[at + ITS_ITEM] + 1
        self.put(at + ITS_ITEM, place)
        return self.go_on(at, self.total_goes_to(place, self.words[at + NOTED]))

    def line_34(self, at, item, row):
        words = self.words
        node = self.node_at(words[at + ITS_NODE])
        if words[node + STAMP] > words[at + HANDLE]:
            self.put(at + ITS_NODE, words[node + OLDER] - 1)
            return self.go_on(at, words[at + PHASE])
        if row.operation == "readSnapshot":
            return self.end(at, words[node + VALUE])
        if words[node + VALUE] == words[at + PROJECT]:
            total = self.sum(at) + words[item + SIZE]
            self.put(at + SUM_LOW, total & 0xFFFFFFFF)
            self.put(at + SUM_HIGH, total >> 32)
        return self.next_item(at)

    def line_39(self, at, item, row):
        return self.end(at, self.words[self.node_at(self.words[at + ITS_NODE]) + VALUE])

    def line_43(self, at, item, row):
        words = self.words
        if words[self.node_at(words[at + ITS_NODE]) + VALUE] != words[at + OLD]:
            return self.end(at, 0)
        return self.end(at, 1) if words[at + NEW] == words[at + OLD] else self.go_on(at)

    def line_45(self, at, item, row):
        if self.no_node_left():
            return self.end(at, 0, REFUSED + 11)
        self.put(at + NEW_NODE, self.take_node(self.words[at + NEW], self.words[at + ITS_NODE] + 1, TBD))
        return self.go_on(at)

    def line_46(self, at, item, row):
        if self.words[item + HEAD] != self.words[at + ITS_NODE]:
            return self.go_on(at, AFTER_A_LOST_46)
        self.put(item + HEAD, self.words[at + NEW_NODE])
        self.put(at + ITS_NODE, self.words[at + NEW_NODE])
        return self.go_on(at)

    def line_48(self, at, item, row):
        return self.end(at, 1)

    def line_50(self, at, item, row):
        number = self.words[at + NEW_NODE]
        self.put(self.node_at(number) + OLDER, self.words[GIVEN_BACK])
        self.put(GIVEN_BACK, number + 1)
        return self.go_on(at)

    def line_52(self, at, item, row):
        return self.end(at, 0)

    def closing(self, at, item, row):
        return self.end(at, self.sum(at))


LINES = {
    0: Catalogue.closing, 5: Catalogue.line_5, 6: Catalogue.line_6, 20: Catalogue.line_20, 21: Catalogue.line_21, 22: Catalogue.line_22,
    32: Catalogue.fetch_head, 34: Catalogue.line_34, 37: Catalogue.fetch_head, 39: Catalogue.line_39, 41: Catalogue.fetch_head,
    43: Catalogue.line_43, 45: Catalogue.line_45, 46: Catalogue.line_46, 48: Catalogue.line_48, 50: Catalogue.line_50,
    51: Catalogue.fetch_head, 52: Catalogue.line_52,
}
