#!/usr/bin/env python3
"""tools/dump.py on many words: those of runs carry no mark; where a call is refused with 2, on words damaged or drawn at random, the dump marks the very
word; words in their ranges that no run leaves are marked as wrong. It prints what it met, and ends with 1 where something does not hold.
usage: tests/dump_words.py FRAMES..  (schedules, as files)"""
import os
import random
import sys

sys.dont_write_bytecode = True
sys.path.insert(0, os.path.join(os.path.dirname(os.path.abspath(__file__)), "..", "tools"))

from catalogue import BIRTH, GIVEN_BACK, HEAD, ITEMS, LENT, OLDER, OPERATIONS, REFUSED, REGISTER, STAMP, STEP, TBD, VALUE, WORKERS
from catalogue import Catalogue, lines_of, needed_words
from dump import Dump

draws = random.Random(1)


def fail(text, words=None):
    print(f"dump: {text}", *([] if words is None else Dump(words).all_lines()), sep="\n")
    sys.exit(1)


def words_of_runs(paths, every):
    """The needed words after some frames of each schedule. In all of them the dump has nothing to mark."""
    kept = []
    for path in paths:
        catalogue = Catalogue()
        for number, line in enumerate(lines_of(open(path, encoding="latin-1").read())):
            catalogue.call_line(line)
            if number % every == 0 and catalogue.words[WORKERS]:
                words = catalogue.words[: needed_words(*catalogue.words[:3])]
                dump = Dump(list(words))
                dump.all_lines()
                if dump.marks:
                    fail(f"marks in words of a run: {path}, frame {number + 1}", words)
                kept.append(words)
    return kept


def damaged(words):
    """A copy with one word or some drawn anew, or cut short."""
    words = list(words)
    parts = (16, 16 + 16 * words[WORKERS], len(words))
    for _ in range(draws.choice((1, 1, 1, 2, 4))):
        at = draws.randrange(draws.choice(parts))
        words[at] = draws.choice((0, 1, words[at] + 1, max(words[at] - 1, 0), 36, 5121, 1 << 31, TBD - 1, TBD, draws.randrange(300))) % (1 << 32)
    return words[: draws.randrange(len(words))] if draws.randrange(20) == 0 else words


def drawn():
    """Words drawn at random, of small sizes, so that the dump finds its way to the records and into lists that loop."""
    workers, items, nodes = draws.randrange(1, 4), draws.randrange(1, 4), draws.randrange(1, 12)
    most = draws.choice((2, 4, 12, 40))
    words = [draws.randrange(most) for _ in range(needed_words(workers, items, nodes))]
    words[:9] = [workers, items, nodes, draws.randrange(1, 5), most, draws.randrange(most), draws.randrange(items + 1), nodes, draws.randrange(nodes + 1)]
    return words


def calls_on(words):
    """A call of each kind for each worker, with each argument that may matter; each on words of its own."""
    few = range(min(words[ITEMS], 8) + 1) if len(words) > ITEMS else (0,)
    yield REGISTER, (0, 1)
    for worker in range(min(words[WORKERS], 8) if words else 1):
        yield STEP, (worker,)
        for operation in set(OPERATIONS) - {1, REGISTER, STEP}:
            names = OPERATIONS[operation].arguments
            for item in few if "item" in names else (0,):
                yield operation, tuple({"worker": worker, "item": item}.get(name, 0) for name in names)


def holds_marks(words):
    """Whether some call is refused with 2, having held the dump to a mark of each word for which one is."""
    dump = Dump(list(words))
    text = "\n".join(dump.all_lines())
    met = False
    for operation, arguments in calls_on(words):
        answer = Catalogue(list(words)).call(operation, arguments)
        if answer.code == REFUSED + 2:
            met = True
            mark = "damaged: fewer words" if answer.damaged == len(words) else f"(word {answer.damaged}) is"
            if mark not in text:
                fail(f"no mark '{mark}', but {OPERATIONS[operation].name} {arguments} is refused with 2", list(words))
    return met


def catalogue_of_a_contest():
    """Three vCAS of one item: worker 0 won, worker 1 lost and gave its node back, worker 2 lost and still holds its own."""
    catalogue = Catalogue([0] * needed_words(4, 2, 16))
    frames = ["0100040002001000040010", "0200010064", "050000", "080000", "080000", "0200020064"]
    frames += [f"04{worker:04x}000000010002" for worker in range(3)] + [f"08{worker:04x}" for _ in range(4) for worker in range(3)]
    for frame in frames + ["080000"] * 5 + ["080001"] * 2 + ["080002"]:
        catalogue.call_line(frame)
    shown = "\n".join(Dump(catalogue.words).all_lines())
    if "wrong" in shown or "given back, the next" not in shown or "held by worker 2" not in shown:
        fail("the words of a contest", catalogue.words)
    return catalogue


def wrong_words():
    """Words in their ranges that no run leaves, each an edit of those of a contest: each is marked as wrong."""
    catalogue = catalogue_of_a_contest()
    item, node, at = catalogue.item_at, catalogue.node_at, catalogue.worker_at
    published, older, waiting = 2, 0, 3
    edits = (  # what the mark says, and the edit
        ("node 2 stands in the list of item 0 already", {node(older) + OLDER: published + 1}),
        ("node 0 stands in the list of item 0 already", {item(1) + HEAD: older}),
        ("node 2 stands in the list of item 0 already", {GIVEN_BACK: published + 1}),
        ("held by no worker: 0", {node(published) + OLDER: 0}),
        ("held by no worker: 4", {word: 0 for word in range(at(2), at(3))}),
        ("a later stamp, or TBD", {node(older) + STAMP: TBD}),
        ("a later stamp, or TBD", {node(published) + STAMP: TBD, node(older) + STAMP: TBD}),
        ("a later stamp, or TBD", {node(published) + STAMP: 0, node(older) + STAMP: 1}),
        ("a birth stamp of TBD", {item(0) + BIRTH: TBD}),
        ("is not the birth stamp", {item(0) + BIRTH: 1}),
        ("a node given back has a stamp", {node(waiting) + STAMP: 1}),
        ("unused words of the header", {15: 1}),
        ("unused words of the record", {at(2) + 15: 1}),
        ("an unused word that is not 0", {item(0) + 3: 1}),
        ("an idle worker's record", {at(3) + 4: 1}),
        ("items that are not registered", {ITEMS: 1}),
        ("they are not all 0", {node(15) + VALUE: 1}),
    )
    for text, edit in edits:
        words = list(catalogue.words)
        for word, number in edit.items():
            words[word] = number
        lines = Dump(words).all_lines()
        if any("damaged" in line for line in lines) or not any(line.startswith("  wrong: ") and text in line for line in lines):
            fail(f"{text}: no such mark, or one of damage", words)
    return len(edits)


def damage_of_a_step():
    """Words in their ranges that are damage to a worker's next line alone: of line 34, and of line 45 where it takes a node never used."""
    frames = "0100020002000800040010 0200010064 050000 080000 080000".split()
    reading = frames + "040001000000010002".split() + ["080001"] * 9 + "06000000000000 080000 080000".split()
    changing = frames + "040001000000010002 080001 080001 080001".split()
    nodes_at = 16 + 16 * 2 + 4 * 2
    for line, calls, word, number in ((34, reading, 3 * 1 + STAMP, TBD), (34, reading, 3 * 1 + OLDER, 0), (45, changing, 3 * 1 + VALUE, 4)):
        catalogue = Catalogue([0] * needed_words(2, 2, 8))
        for frame in calls:
            catalogue.call_line(frame)
        catalogue.words[nodes_at + word] = number
        mark = f"(word {nodes_at + word}) is {'TBD' if number == TBD else number}: line {line}, this worker's next, is refused with 2"
        if mark not in "\n".join(Dump(catalogue.words).all_lines()):
            fail(f"no mark '{mark}'", catalogue.words)


def main():
    runs = words_of_runs(sys.argv[1:], 15)
    met = sum(holds_marks(damaged(draws.choice(runs))) for _ in range(1000))
    random_met = sum(holds_marks(drawn()) for _ in range(500))
    for count in (0, 1, 15, 16, 17, 500, LENT):
        Dump([draws.randrange(1 << 32) for _ in range(count)]).all_lines()
    edits = wrong_words()
    damage_of_a_step()
    if min(len(runs), met, random_met) < 100:
        fail(f"too little was met: {len(runs)}, {met}, {random_met}")
    print(f"dump: words of runs {len(runs)}, no mark; refused with 2: damaged words {met}, drawn ones {random_met}, each marked; of no run {edits}, each marked as wrong")


main()
