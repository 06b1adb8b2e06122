#!/usr/bin/env python3
# Holds tools/catalogue.py, the model under the timeline, against schedule's answers on every vector (tests/vectors.sh holds the program to the same
# files), on document 01's listing and on the long schedule; its tables against docs/FIELDS.md; and, where a library of the oracle is given, every
# answer and every word against the oracle on random calls and damaged words. usage: tests/timeline_model.py [ORACLE.so]
import ctypes, glob, random, re, sys

sys.dont_write_bytecode = True
sys.path.insert(0, "tools")
from catalogue import FIELDS, OPERATIONS, PHASES, TBD, Catalogue, lines_of, needed_words, place_of

failed = 0


def fail(what):
    global failed
    failed += 1
    print(f"timeline: {what}")


def read(name):
    with open(name, "rb") as given:
        return given.read().decode("latin-1")


def against_answers():
    pairs = [(name, name[:-2] + "out") for name in sorted(glob.glob("tests/vectors/*.in"))]
    pairs += [("tests/listing.in", "tests/listing.out"), ("crates/schedule/stdin", "crates/schedule/stdout")]
    count = 0
    for given, wanted in pairs:
        catalogue = Catalogue()
        got = [catalogue.call_line(line).text() for line in lines_of(read(given))]
        count += len(got)
        if got != lines_of(read(wanted)):
            fail(f"the model's answers to {given} are not {wanted}")
    return count, len(pairs)


def rows_of(text, heading):
    """The rows of the table under a heading of docs/FIELDS.md whose first cell is a number, or a range of numbers."""
    section = text.split(f"\n## {heading}", 1)[1].split("\n## ", 1)[0]
    rows = (line.strip("|").split("|") for line in section.split("\n") if re.match(r"\| \d", line))
    return [[cell.strip() for cell in row] for row in rows]


def against_fields():
    text = read("docs/FIELDS.md")
    for part, heading in (("header", "Header"), ("worker", "Worker"), ("item", "Item"), ("node", "Node")):
        wanted = {row[1]: int(row[0]) for row in rows_of(text, heading) if row[1] != "unused"}
        if wanted != FIELDS[part]:
            fail(f"the fields of a {part} are not those of docs/FIELDS.md")
    wanted = [(int(row[0]), row[1], int(row[2].split()[0]), row[3] == "yes") for row in rows_of(text, "Phases")]
    if wanted != [(at, *row) for at, row in enumerate(PHASES)]:
        fail("the table of phases is not that of docs/FIELDS.md")


class OracleCall(ctypes.Structure):
    _fields_ = [("kind", ctypes.c_int), ("argument", ctypes.c_uint32 * 5)]


class OracleAnswer(ctypes.Structure):
    _fields_ = [("code", ctypes.c_uint32), ("value", ctypes.c_uint64), ("steps", ctypes.c_uint64)]


def random_arguments(draw, operation, sizes, counter):
    """Mostly inside their ranges, now and then just outside."""
    most = {"worker": sizes[0], "item": sizes[1], "value": sizes[3], "old": sizes[3], "new": sizes[3], "project": sizes[3], "handle": min(counter, 4)}
    return tuple(draw.randrange(most.get(name, 1000) + (draw.random() < 0.1) or 1) for name in OPERATIONS[operation].arguments)


def damage(draw, words, sizes):
    """A word and a number for it: a field at an edge of its range, or now and then anything anywhere."""
    counter, items, used, limit = words[5], words[6], words[7], words[4]
    edges = {"phase": (0, 29, 34, 35, 36), "steps": (5120, 5121), "item": (items, items - 1), "old": (sizes[3] - 1, sizes[3]), "new": (sizes[3] - 1, sizes[3]),
             "handle": (counter - 1, counter), "project": (sizes[3] - 1, sizes[3]), "noted": (items, items + 1), "node": (used - 1, used),
             "new node": (used - 1, used), "seen": (counter, counter + 1, limit - 1, limit), "sum, low": (0, 1), "sum, high": (255, 256, 257),
             "head": (used - 1, used), "birth": (counter, counter + 1, TBD), "value": (sizes[3] - 1, sizes[3]), "older": (0, used, used + 1),
             "stamp": (counter, counter + 1, TBD), "counter": (limit, limit + 1), "items": (sizes[1], sizes[1] + 1), "used": (sizes[2], sizes[2] + 1),
             "given back": (0, used, used + 1), "workers": (0, 64, 65), "items limit": (0, 256, 257), "nodes limit": (0, 4096, 4097),
             "projects": (0, 256, 257), "counter limit": (0, TBD - 1, TBD)}
    word = draw.randrange(needed_words(*sizes[:3]))
    choices = edges.get(place_of(sizes, word).field, (0, 1)) + ((draw.randrange(8), TBD) if draw.random() < 0.1 else ())
    return word, draw.choice(choices) % 2**32


def random_run(draw, oracle, seen):
    """A fresh catalogue, some calls, and before some of them a word set to what it may not hold: the model's answer and words are the oracle's."""
    sizes = tuple(draw.choice(choices) for choices in ((1, 2, 3), (1, 2, 3), (1, 2, 3, 5), (1, 2, 3), (1, 2, 3, 4294967294)))
    count = needed_words(*sizes[:3]) + draw.choice((0, 3))
    model, words = Catalogue([0] * count), (ctypes.c_uint32 * count)()
    for turn in range(draw.randrange(5, 120)):
        operation = 1 if turn == 0 else draw.choice((2, 3, 4, 4, 5, 6, 7) + (8,) * 14)
        arguments = sizes if turn == 0 else random_arguments(draw, operation, sizes, model.words[5])
        word, number = damage(draw, model.words, sizes) if turn and draw.random() < 0.5 else (None, None)
        if word is not None:
            held = model.words[word]
            model.words[word] = words[word] = number
        answer = model.call(operation, arguments)
        wanted = oracle(OracleCall(operation - 1, (ctypes.c_uint32 * 5)(*arguments)), words, count)
        seen.add((operation, answer.line, answer.refusal))
        if (answer.code, answer.value, answer.steps) != (wanted.code, wanted.value, wanted.steps) or list(words) != model.words:
            fail(f"{OPERATIONS[operation].name}{arguments}, with word {word} set to {number}: the model has {answer.text()}, or other words than the oracle")
            return turn
        if word is not None and model.words[word] == number and draw.random() < 0.95:  # mended, so that the run goes on
            model.words[word] = words[word] = held
    return turn + 1


def against_oracle(library):
    oracle = ctypes.CDLL(library).oracle_call
    oracle.restype, oracle.argtypes = OracleAnswer, [ctypes.POINTER(OracleCall), ctypes.POINTER(ctypes.c_uint32), ctypes.c_size_t]
    draw, seen, calls = random.Random(12), set(), 0
    while calls < 40000 and not failed:
        calls += random_run(draw, oracle, seen)
    for refusal in range(2, 13):
        if not failed and all(kind[2] != refusal for kind in seen):
            fail(f"no random call was refused {refusal}")
    return calls


count, files = against_answers()
against_fields()
say = f"the model gives schedule's {count} answers on {files} inputs"
if len(sys.argv) > 1:
    say += f", and the oracle's to {against_oracle(sys.argv[1])} random calls on damaged words"
if not failed:
    print(say)
sys.exit(failed > 0)
