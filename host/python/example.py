#!/usr/bin/env python3
"""The room's page from Python, by ctypes over the shared library: two threads relink, and each page adds up all the same.

usage: example.py [LIBRARY]: LIBRARY is a path (bash host/shared.sh builds one and prints it); else an installed libgoravesha.so is looked for
"""
import ctypes
import ctypes.util
import sys
import threading

# The header's names of the refusals, by their numbers from 1 on; include/goravesha.h says what each means and what to do.
REFUSALS = ("BAD_SIZE", "DAMAGED", "NO_SUCH_WORKER", "WORKER_BUSY", "WORKER_IDLE", "NOT_REGISTERED", "NO_SUCH_PROJECT",
            "NO_SUCH_HANDLE", "BORN_LATER", "ITEMS_FULL", "NODES_FULL", "COUNTER_FULL", "BAD_FRAME")
RUNNING, REFUSED = 1, 16
MOST_HANDLES = 4294967294


class Answer(ctypes.Structure):
    _fields_ = [(name, ctypes.c_uint64) for name in ("value", "steps", "stamped", "operator_number")]


class Refused(Exception):
    def __init__(self, number):
        super().__init__("refused: " + (REFUSALS[number - 1] if 0 < number <= len(REFUSALS) else "number %d" % number))
        self.number = number


class Catalogue:
    """A catalogue in words of its own. ctypes lets other threads run during a call, so a lock stands around each."""

    def __init__(self, library, workers, items, nodes, projects, counter=MOST_HANDLES):
        self.library, self.lock = library, threading.Lock()
        self.words = (ctypes.c_uint32 * (16 + 16 * workers + 4 * items + 3 * nodes))()
        self.call("make", workers, items, nodes, projects, counter)

    def call(self, name, *numbers):
        """One call of the header: its code and its answer. Every number of it is of 32 bits; a refusal is raised."""
        function = getattr(self.library, "goravesha_" + name)
        function.restype = ctypes.c_uint32
        answer = Answer()
        with self.lock:
            code = function(self.words, ctypes.c_size_t(len(self.words)), *map(ctypes.c_uint32, numbers), ctypes.byref(answer))
        if code >= REFUSED:
            raise Refused(code - REFUSED)
        return code, answer

    def run(self, operation, worker, *arguments):
        """A whole operation of a worker, a step at a time; others are let in between. Its value."""
        self.call("start_" + operation, worker, *arguments)
        while True:
            code, answer = self.call("step", worker)
            if code != RUNNING:
                return answer.value


def relinker(catalogue, worker, projects, relinks, done):
    for item in range(relinks):
        while True:  # a relink that came too late is decided anew
            old = catalogue.run("vread", worker, item % 4)
            if catalogue.run("vcas", worker, item % 4, old, (old + 1) % projects) == 1:
                break
    done.append(worker)


def main(path):
    sizes, projects, relinks, page = (100, 200, 400, 800), 3, 300, 2
    catalogue = Catalogue(ctypes.CDLL(path), workers=3, items=4, nodes=4 + 2 * relinks + 2, projects=projects)
    for item, size in enumerate(sizes):
        number = catalogue.call("register", item % projects, size)[1].value
        assert number == item  # items are numbered from 0
    done = []
    threads = [threading.Thread(target=relinker, args=(catalogue, worker, projects, relinks, done)) for worker in (0, 1)]
    for thread in threads:
        thread.start()
    pages = 0
    while pages < 20 or any(thread.is_alive() for thread in threads):
        handle = catalogue.run("take_snapshot", page)
        totals = [catalogue.run("total", page, project, handle) for project in range(projects)]
        if sum(totals) != sum(sizes):
            sys.exit("the page at handle %d is not of one moment: %s" % (handle, totals))
        pages += 1
    for thread in threads:
        thread.join()
    if sorted(done) != [0, 1]:
        sys.exit("a relinker did not come to its end")
    print("%d pages of %d projects while 2 threads made %d relinks: each page added up to %d MiB" % (pages, projects, 2 * relinks, sum(sizes)))
    try:
        catalogue.run("vcas", 0, 4, 0, 1)
    except Refused as refused:
        print("item 4 is", refused)


if __name__ == "__main__":
    library = sys.argv[1] if len(sys.argv) > 1 else ctypes.util.find_library("goravesha")
    if library is None:
        sys.exit("no libgoravesha.so was found: give its path, or install with --shared and run ldconfig")
    main(library)
