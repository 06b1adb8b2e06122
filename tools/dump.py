#!/usr/bin/env python3
"""Prints a catalogue's lent words by the field table (docs/FIELDS.md), for people.

The words are read from FILE, or from standard input: 32-bit numbers as they stand in memory (little-endian), as gdb writes them by
    dump binary memory FILE words words+count
With --text they are numbers in text, decimal or 0x.., as gdb prints them by 'x/78xw words'; what stands before a colon in a line is passed over.

Printed: the header; each worker with its operation, its next line and the words that it keeps; each item with its versions, newest first; the nodes that
wait after a lost or abandoned vCAS. Marked are
    damaged: a word outside its range, for which a call would be refused with 2 (in a worker's or an item's record the first such word)
    wrong:   words in their ranges that no run of calls from make can leave
Any words may be given: every walk ends, and words past those that the largest catalogue needs are not read. Status: 0; 1 where something is marked, or could not be read or written; 2 for a wrong argument.
"""
import argparse
import signal
import struct
import sys

sys.dont_write_bytecode = True  # leaves nothing beside the tools

from catalogue import COUNTER, COUNTER_LIMIT, GIVEN_BACK, HEADER, ITEMS, ITEMS_LIMIT, ITS_ITEM, ITS_NODE, KEEP_NEW_NODE, KEEP_NODE, NEW_NODE, NODES_LIMIT
from catalogue import NOTED, PHASE, PHASES, SEEN, SIZES, STEPS, TBD, USED, WORKER, WORKERS, Catalogue, needed_words, place_of
from sentences import CALLS, running_operation

MOST_WORDS = needed_words(64, 256, 4096)
MOST_TEXT = 1 << 20  # bytes: enough for them in any layout
LIMITED_BY = {COUNTER: COUNTER_LIMIT, ITEMS: ITEMS_LIMIT, USED: NODES_LIMIT, GIVEN_BACK: USED}
RANGES = {
    ("worker", "phase"): "0 to 35",
    ("worker", "steps"): "below 5,121 before a step",
    ("worker", "item"): "below items; in a total at most the number noted, and below it inside an item",
    ("worker", "old"): "below projects",
    ("worker", "new"): "below projects",
    ("worker", "handle"): "below the counter",
    ("worker", "project"): "below projects",
    ("worker", "noted"): "at most items",
    ("worker", "node"): "below used",
    ("worker", "new node"): "below used",
    ("worker", "seen"): "at most the counter at line 22, below the counter limit at line 6",
    ("worker", "sum, high"): "with the word before it a sum of at most 2^40",
    ("item", "head"): "below used",
    ("item", "birth"): "at most the counter, or TBD",
    ("node", "value"): "below projects",
    ("node", "older"): "at most used",
    ("node", "stamp"): "at most the counter, or TBD",
}


def stamp_text(stamp):
    return "TBD" if stamp == TBD else str(stamp)


def numbers_text(numbers):
    """3, 5 to 9, 12: numbers in rising order, a run of them as its two ends."""
    runs = []
    for number in numbers:
        if runs and runs[-1][1] == number - 1:
            runs[-1][1] = number
        else:
            runs.append([number, number])
    return ", ".join(str(first) if first == last else f"{first} to {last}" for first, last in runs)


def header_range(words, at):
    return SIZES[at] if at < len(SIZES) else (0, words[LIMITED_BY[at]])


class Dump:
    """The lines of a dump. The records are looked at in a copy whose header is put right, so that any words can be walked."""

    def __init__(self, words, or_more=False):
        self.given, self.or_more = words, or_more
        self.lines, self.marks = [], 0
        self.listed = {}  # the nodes that were met, each with the list in which it stands

    def say(self, text):
        self.lines.append(text)

    def mark(self, text):
        self.marks += 1
        self.say(f"  {text}")

    def mark_if(self, holds, text):
        if holds:
            self.mark(text)

    def damaged(self, word, why=None):
        """Marks a word of the records, where there is one to mark."""
        if word is None:
            return
        place, value = place_of(self.words[:3], word), self.words[word]
        shown = stamp_text(value) if place.field in ("stamp", "birth") else value
        self.mark(f"damaged: {place.part} {place.number}, {place.field} (word {word}) is {shown}: {why or 'must be ' + RANGES[place.part, place.field]}")

    def all_lines(self):
        if self.header():
            self.workers()
            self.items()
            self.waiting_nodes()
            self.other_nodes()
        return self.lines

    def header(self):
        """Says the header; True where the records can be found by it."""
        words = (self.given + [0] * 16)[:16]
        needed = needed_words(*words[:3])
        self.say("header: " + ", ".join(f"{name} {words[at]}" for name, at in HEADER.items()))
        self.say(f"words: {len(self.given)}{' or more' if self.or_more else ''} given, {needed} needed")
        self.mark_if(len(self.given) < max(needed, 16), "damaged: fewer words than a catalogue needs; those that are missing are taken as 0")
        sound = list(words)
        for name, at in HEADER.items():
            least, most = header_range(words, at)
            self.mark_if(not least <= words[at] <= most, f"damaged: {name} (word {at}) is {words[at]}: must be {least} to {most}")
            least, most = header_range(sound, at)
            sound[at] = max(least, min(sound[at], most))
        self.mark_if(any(words[len(HEADER) :]), "wrong: unused words of the header are not 0")
        if sound[:3] != words[:3]:
            self.say("the records cannot be found by such a header")
            return False
        self.words = sound + (self.given[16:] + [0] * needed)[: needed - 16]
        self.catalogue = Catalogue(self.words)
        self.catalogue.items_at = 16 + 16 * words[WORKERS]
        self.catalogue.nodes_at = self.catalogue.items_at + 4 * words[ITEMS_LIMIT]
        return True

    def workers(self):
        idle = []
        for number in range(self.words[WORKERS]):
            at = self.catalogue.worker_at(number)
            if any(self.words[at : at + 16]):
                self.worker(number, at)
            else:
                idle.append(number)
        if idle:
            self.say(f"idle workers: {numbers_text(idle)}")

    def worker(self, number, at):
        record = self.words[at : at + 16]
        running = running_operation(self.catalogue, number)
        if running is not None:
            self.say(f"{CALLS[running[0]].format(*running[1])}: {self.progress(record)}")
        else:
            self.say(f"worker {number}, {'idle' if record[PHASE] == 0 else 'in no known phase'}")
            self.mark_if(record[PHASE] == 0, "wrong: an idle worker's record is not all 0")
        self.mark_if(any(record[len(WORKER) :]), "wrong: unused words of the record are not 0")
        self.worker_damage(at)

    def progress(self, record):
        """How far an operation is, with the words that it keeps for its next line."""
        row = PHASES[record[PHASE]]
        parts = [f"steps {record[STEPS]}, next {f'line {row.line}' if row.line else 'the closing step'} (phase {record[PHASE]})"]
        if row.operation == "total":
            parts.append(f"at item {record[ITS_ITEM]} of {record[NOTED]}, sum {(record[WORKER['sum, high']] << 32) + record[WORKER['sum, low']]} MiB")
        for lines, name, at in ((KEEP_NODE, "node", ITS_NODE), (KEEP_NEW_NODE, "new node", NEW_NODE), ((6, 22), "seen", SEEN)):
            if row.line in lines:
                parts.append(f"{name} {record[at]}")
        return ", ".join(parts)

    def worker_damage(self, at):
        """The record's own damage; where there is none, that of the node words which its next step uses."""
        damaged = self.catalogue.worker_damage(at)
        if damaged is None:
            damaged = self.catalogue.before_step_damage(at)
        if damaged is not None:
            self.damaged(damaged)
            return
        row = PHASES[self.words[at + PHASE]]
        self.damaged(self.catalogue.used_nodes_damage(row.line, at), f"line {row.line}, this worker's next, is refused with 2")

    def items(self):
        for number in range(self.words[ITEMS]):
            at = self.catalogue.item_at(number)
            head, birth, size, unused = self.words[at : at + 4]
            self.say(f"item {number}: {size} MiB, born at {stamp_text(birth)}, head node {head}")
            self.damaged(self.catalogue.item_damage(at))
            self.mark_if(birth == TBD or unused, "wrong: a birth stamp of TBD, or an unused word that is not 0")
            stamps = self.walk(head + 1, f"item {number}")
            self.mark_if(stamps != sorted(stamps, reverse=True) or TBD in stamps[1:], "wrong: an older version has a later stamp, or TBD")
            self.mark_if(stamps and stamps[-1] not in (birth, TBD), "wrong: the oldest version's stamp is not the birth stamp")
        first = self.catalogue.item_at(self.words[ITEMS])
        self.mark_if(any(self.words[first : self.catalogue.nodes_at]), "wrong: records of items that are not registered are not all 0")

    def node(self, number, whose):
        """Says and marks a node: its link (the older node's number plus one) and its stamp; None where it stands in another list."""
        if number in self.listed:
            self.mark(f"wrong: node {number} stands in the list of {self.listed[number]} already")
            return None
        self.listed[number] = whose
        at = self.catalogue.node_at(number)
        value, link, stamp = self.words[at : at + 3]
        self.say(f"  node {number}: project {value}, stamp {stamp_text(stamp)}")
        for test in (self.catalogue.value_damage, self.catalogue.older_damage, self.catalogue.stamp_damage):
            self.damaged(test(at))
        return link, stamp

    def walk(self, link, whose):
        """The stamps of a list's nodes, from a link on. No node is passed twice, so it ends."""
        stamps = []
        while 0 < link <= self.words[USED]:
            node = self.node(link - 1, whose)
            if node is None:
                break
            link, stamp = node
            stamps.append(stamp)
        return stamps

    def waiting_nodes(self):
        if self.words[GIVEN_BACK]:
            self.say("nodes given back, the next to be taken first:")
            stamps = self.walk(self.words[GIVEN_BACK], "nodes given back")
            self.mark_if(any(stamp != TBD for stamp in stamps), "wrong: a node given back has a stamp")

    def other_nodes(self):
        """The nodes in no list: held by a vCAS between its lines 45 and 46 or 50, or never used."""
        used = self.words[USED]
        for number in range(self.words[WORKERS]):
            at = self.catalogue.worker_at(number)
            phase, held = self.words[at + PHASE], self.words[at + NEW_NODE]
            if phase < len(PHASES) and PHASES[phase].line in KEEP_NEW_NODE and held < used:
                self.say(f"held by worker {number}:")
                self.node(held, f"worker {number}")
        lost = [number for number in range(used) if number not in self.listed]
        self.mark_if(lost, f"wrong: used nodes in no list, and held by no worker: {numbers_text(lost)}")
        if used < self.words[NODES_LIMIT]:
            self.say(f"nodes never used: {numbers_text(range(used, self.words[NODES_LIMIT]))}")
            self.mark_if(any(self.words[self.catalogue.node_at(used) :]), "wrong: they are not all 0")


def words_in_bytes(data):
    if len(data) % 4:
        sys.exit("dump: the bytes are no whole number of 32-bit words")
    return [word for (word,) in struct.iter_unpack("<I", data)]


def words_in_text(data):
    words = []
    for line in data.decode("latin-1").splitlines():
        for text in line.rpartition(":")[2].split():
            try:
                number = int(text, 16 if text.lower().startswith("0x") else 10)
            except ValueError:
                number = None
            if number is None or not -(1 << 31) <= number < 1 << 32:
                sys.exit(f"dump: no 32-bit number: {text[:40]}")
            words.append(number % (1 << 32))  # gdb may show it as signed
    return words


def words_from(path, text):
    """The words of a file, as many as any catalogue needs; and whether there may be more."""
    most = MOST_TEXT if text else 4 * MOST_WORDS
    try:
        with open(path or 0, "rb", closefd=path is not None) as stream:
            data = stream.read(most)
            more = bool(stream.read(1))
    except OSError:
        sys.exit(f"dump: {path or 'standard input'} cannot be read")
    return (words_in_text if text else words_in_bytes)(data), more


def main():
    signal.signal(signal.SIGPIPE, signal.SIG_DFL)  # where nobody reads on, it ends as any filter does
    parser = argparse.ArgumentParser(usage="dump.py [--text] [FILE]", description=__doc__, formatter_class=argparse.RawDescriptionHelpFormatter)
    parser.add_argument("--text", action="store_true", help="the words are numbers in text")
    parser.add_argument("file", metavar="FILE", nargs="?", help="where the words stand; standard input unless said")
    arguments = parser.parse_args()
    dump = Dump(*words_from(arguments.file, arguments.text))
    try:
        with open(1, "w", closefd=False) as out:
            out.writelines(line + "\n" for line in dump.all_lines())
    except OSError:
        sys.exit("dump: standard output cannot be written")
    sys.exit(1 if dump.marks else 0)


if __name__ == "__main__":
    main()
