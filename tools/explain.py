#!/usr/bin/env python3
"""Tells a schedule in words: frames on standard input, a line for each on standard output.

  frame 7: worker 1, vCAS of item 0 from 1 to 2, step 4, line 45: running

Frames are as the program schedule reads them, of any number; the answers are those of tools/catalogue.py, document 01 in Python.
With --answers, answers from elsewhere (of schedule, or of a service by include/goravesha_record.h) are held against those, and each that
differs is told too. Status: 0; 1 where an answer differs, or something could not be read or written; 2 for a wrong argument.
"""
import argparse
import re
import signal
import sys

sys.dont_write_bytecode = True  # leaves nothing beside the tools

from catalogue import ACCEPTED, LONGEST_LINE, REFUSALS, REFUSED, Answer, Catalogue
from sentences import answer_in_words, tell


def lines_from(file, name):
    """The lines of a file (a path, or an open descriptor) as they come, without their line feeds. Of one that is too long only so much is kept as
    shows that it is."""
    try:
        with open(file, "rb", closefd=isinstance(file, str)) as stream:
            while start := stream.readline(LONGEST_LINE + 2):
                rest = start
                while rest and not rest.endswith(b"\n"):
                    rest = stream.readline(65536)
                yield start.removesuffix(b"\n").decode("latin-1")
    except OSError:
        sys.exit(f"explain: {name} cannot be read")


def given_in_words(frame, text):
    """An answer line from elsewhere, in words where it is one."""
    if text is None:
        return "no answer is given"
    code = int(text[:2], 16) if re.fullmatch("[0-9a-f]{22}", text) else -1
    if code not in range(ACCEPTED + 1) and code - REFUSED not in REFUSALS:
        return f"given is {text!r}, which is no answer"
    answer = Answer(code, int(text[2:18], 16), int(text[18:], 16))
    return f"given is {text} ({answer_in_words(frame or (None,), answer)}, steps {answer.steps})"


def explain(frames, answers, write):
    """Writes a line for each frame; how many answers differ, and the number of the first frame where one does."""
    catalogue = Catalogue()
    differing = first = 0
    for number, line in enumerate(frames, 1):
        frame, _, answer, words = tell(catalogue, line)
        if answers is not None and (given := next(answers, None)) != answer.text():
            words += f"; differs: {given_in_words(frame, given)}"
            differing, first = differing + 1, first or number
        write(f"frame {number}: {words}\n")
    return differing, first


def run(answers_path):
    answers = None if answers_path is None else lines_from(answers_path, answers_path)
    try:
        with open(1, "w", closefd=False) as out:
            differing, first = explain(lines_from(0, "standard input"), answers, out.write)
    except OSError:
        sys.exit("explain: standard output cannot be written")
    if differing:
        sys.exit(f"explain: answers that differ: {differing}, the first at frame {first}")
    if answers is not None and next(answers, None) is not None:
        sys.exit("explain: more answers than frames")


def main():
    signal.signal(signal.SIGPIPE, signal.SIG_DFL)  # where nobody reads on, it ends as any filter does
    parser = argparse.ArgumentParser(usage="explain.py [--answers ANSWERS] < FRAMES", description=__doc__, formatter_class=argparse.RawDescriptionHelpFormatter)
    parser.add_argument("--answers", help="a file of answer lines, one for each frame")
    run(parser.parse_args().answers)


main()
