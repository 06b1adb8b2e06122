"""What happened in a schedule, noted for the timeline: each call with its answer, the operations of each worker, the versions of each item, the snapshots.

Frames are numbered from 1, as the lines of the input are. A make that is not refused begins a new catalogue, with items and versions of its own.
"""
from catalogue import ACCEPTED, COUNTER, ITS_NODE, MAKE, READ_SNAPSHOT, REGISTER, RUNNING, SEEN, STAMP, STEP, TBD, VALUE, VCAS, VREAD, WORKERS
from catalogue import Catalogue, lines_of, parse_frame, refused

ITEM_OPERATIONS = {VREAD, VCAS, READ_SNAPSHOT}  # those that name an item


class Call:
    """A frame of the input: its line, what it asked (None: no frame), the Span that a step is of, its answer, in whose row it is drawn, and which item it is about."""

    __slots__ = ("text", "frame", "running", "answer", "worker", "item", "effect")

    def __init__(self, text, frame, running, answer, worker):
        self.text, self.frame, self.running, self.answer, self.worker = text, frame, running, answer, worker
        self.item = running.item if running else None
        self.effect = False  # whether this is the line 21 at which a change took effect


class Span:
    """An operation of a worker, as its start's frame asked it, from its start to its last step; `last` and `answer` are None while it runs."""

    __slots__ = ("frame", "worker", "item", "first", "last", "answer")

    def __init__(self, frame, first):
        self.frame, self.first = frame, first
        self.worker = frame[1][0]
        self.item = frame[1][1] if frame[0] in ITEM_OPERATIONS else None
        self.last = self.answer = None


class Version:
    """A value of an item: in which frame it was published, whose change it was (None: register's), its stamp, and in which frames it was stamped and took effect."""

    __slots__ = ("item", "value", "worker", "published", "stamp", "stamped", "effect")

    def __init__(self, item, value, worker, published):
        self.item, self.value, self.worker, self.published = item, value, worker, published
        self.stamp, self.stamped, self.effect = TBD, None, None

    def decide(self, stamp, stamped, effect):
        self.stamp, self.stamped, self.effect = stamp, stamped, effect


class Made:
    """A catalogue, from the make that was not refused: its frame, its items (size and versions), each worker's operations, its snapshots (frame, handle)."""

    def __init__(self, frame, sizes):
        self.frame, self.sizes = frame, sizes
        self.item_sizes, self.items, self.spans, self.snapshots = [], [], {}, []
        self.at_21, self.busy, self.version_of_node = {}, {}, {}  # by worker, by worker, by node


class Run:
    """All frames of a text up to frame `last`. `makes` is the catalogues made, in order."""

    def __init__(self, text, last=None):
        lines = lines_of(text)
        self.frames_given = len(lines)
        self.catalogue = Catalogue()
        self.calls, self.makes = [], []
        for number, line in enumerate(lines[:last], 1):
            self.take(number, line)

    def take(self, number, line):
        frame = parse_frame(line)
        worker = self.worker_of(frame)
        running = self.makes[-1].busy.get(worker) if worker is not None and frame[0] == STEP else None
        answer = refused(13) if frame is None else self.catalogue.call(*frame)
        self.calls.append(Call(line, frame, running, answer, worker))
        if answer.line is not None:
            self.note_step(number, worker, running.item, answer)
        elif answer.code == ACCEPTED:
            self.note_accepted(number, *frame, answer)

    def worker_of(self, frame):
        """In whose row a frame is drawn: of a worker that is there."""
        if frame is None or frame[0] in (MAKE, REGISTER) or not self.makes or frame[1][0] >= self.catalogue.words[WORKERS]:
            return None
        return frame[1][0]

    def note_accepted(self, number, operation, arguments, answer):
        if operation == MAKE:
            self.makes.append(Made(number, arguments))
            return
        made, words = self.makes[-1], self.catalogue.words
        if operation == REGISTER:
            self.calls[-1].item = answer.value
            version = Version(answer.value, arguments[0], None, number)
            version.decide(words[COUNTER], number, number)
            made.version_of_node[words[self.catalogue.item_at(answer.value)]] = version
            made.item_sizes.append(arguments[1])
            made.items.append([version])
            return
        span = Span((operation, arguments), number)
        self.calls[-1].item = span.item
        made.spans.setdefault(span.worker, []).append(span)
        made.busy[span.worker] = span

    def note_step(self, number, worker, item, answer):
        made, at = self.makes[-1], self.catalogue.worker_at(worker)
        if answer.line == 21:
            made.at_21[worker] = number
        elif answer.line == 22:
            self.note_stamp(number, worker, at)
        elif answer.line == 46:
            self.note_publication(number, worker, item, at)
        elif answer.line == 6 and any(word == COUNTER for word, _, _ in answer.changes):
            made.snapshots.append((number, answer.value))
        if answer.code != RUNNING:
            span = made.busy.pop(worker)
            span.last, span.answer = number, answer

    def note_stamp(self, number, worker, at):
        """A line 22 that stamped its node: the change took effect at the same worker's line 21."""
        made, words = self.makes[-1], self.catalogue.words
        node = words[at + ITS_NODE]
        if all(word != self.catalogue.node_at(node) + STAMP for word, _, _ in self.catalogue.changes):
            return
        version = made.version_of_node[node]
        version.decide(words[at + SEEN], number, made.at_21[worker])
        self.calls[version.effect - 1].effect = True
        self.calls[version.effect - 1].item = self.calls[-1].item = version.item

    def note_publication(self, number, worker, item, at):
        """A line 46 that changed the head: the record's node is then the new one."""
        made, words = self.makes[-1], self.catalogue.words
        if all(word != self.catalogue.item_at(item) for word, _, _ in self.catalogue.changes):
            return
        node = words[at + ITS_NODE]
        version = Version(item, words[self.catalogue.node_at(node) + VALUE], worker, number)
        made.version_of_node[node] = version
        made.items[item].append(version)
