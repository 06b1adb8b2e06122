#!/usr/bin/env python3
"""A picture of a schedule, for support: the program schedule's frames on standard input, an SVG timeline on standard output.

Each worker has a row: a box for each step with its line of Algorithm 1, each operation with its answer, refused calls in red with their number. Each item
has a row with its versions: project, stamp, whose change, and the frame in which it took effect. Frames are numbered from 1, as lines are. A line of
the picture ends after --columns frames, and before a make that is not refused: every catalogue of the input is drawn, each with its own items.

At most 2,000 frames are drawn unless --from and --to say which: the first from --from on, or else the last up to --to. With --html a page is written, too,
in which one steps through the frames (all of them, or those of --from and --to) and reads each in words, its answer and the words of the catalogue.

It runs document 01's steps itself and asks nothing of the program. Where nothing can be read, drawn or written it says so in a line on standard error
and ends with status 1.
"""
import argparse
import sys

sys.dont_write_bytecode = True  # leaves nothing beside the tools

from timeline_page import page
from timeline_picture import picture
from timeline_run import Run

MOST_DRAWN = 2000


def stop(why):
    sys.exit(f"timeline: {why}")


class OneLine(argparse.ArgumentParser):
    def error(self, message):
        stop(f"{message} (see --help)")


def whole_number(least, most=10**9):
    def read(text):
        if not (text.isascii() and text.isdigit() and least <= int(text) <= most):
            raise argparse.ArgumentTypeError(f"not a whole number from {least} to {most}: '{text}'")
        return int(text)
    return read


def arguments_of(given):
    parser = OneLine(prog="timeline.py", usage="timeline.py [options] < FRAMES > PICTURE.svg", description=__doc__,
                     formatter_class=argparse.RawDescriptionHelpFormatter, allow_abbrev=False)
    parser.add_argument("--from", dest="first", type=whole_number(1), metavar="FRAME", help="the first frame drawn")
    parser.add_argument("--to", dest="last", type=whole_number(1), metavar="FRAME", help="the last frame drawn; later ones are not run")
    parser.add_argument("--columns", type=whole_number(15, 400), default=30, metavar="FRAMES", help="frames in a line of the picture: 15 to 400, otherwise 30")
    parser.add_argument("--html", metavar="PAGE", help="writes the page to this file")
    return parser.parse_args(given)


def read_input():
    # by descriptor: one that is closed, or fails, is then an OSError and not a traceback
    try:
        with open(0, "rb", closefd=False) as given:
            return given.read().decode("latin-1")
    except OSError:
        stop("standard input cannot be read")


def write_to(target, what, text):
    try:
        with open(target, "wb", closefd=target != 1) as out:
            out.write(text.encode())
    except OSError:
        stop(f"{what} cannot be written")


def frames_drawn(asked, last):
    """Which frames the picture has: those asked for, or so many of them."""
    if asked.first is not None and asked.last is not None:
        return asked.first, last
    if asked.first is not None:
        return asked.first, min(last, asked.first + MOST_DRAWN - 1)
    return max(1, last - MOST_DRAWN + 1), last


def main():
    if sys.version_info < (3, 10):
        stop("Python 3.10 or later is needed")
    asked = arguments_of(sys.argv[1:])
    if asked.first is not None and asked.last is not None and asked.first > asked.last:
        stop("--from is after --to")
    run = Run(read_input(), asked.last)
    last = len(run.calls)
    if last == 0:
        stop("no frames on standard input")
    if asked.first is not None and asked.first > last:
        stop(f"--from {asked.first} is after the last frame, {last}")
    first_drawn, last_drawn = frames_drawn(asked, last)
    if last_drawn - first_drawn < last - (asked.first or 1):
        print(f"timeline: frames {first_drawn} to {last_drawn} of {run.frames_given} are drawn: --from and --to say which", file=sys.stderr)
    write_to(1, "standard output", "\n".join(picture(run, first_drawn, last_drawn, asked.columns)) + "\n")
    if asked.html is not None:
        write_to(asked.html, asked.html, page(run, asked.first or 1, last, asked.columns))


main()
