#!/usr/bin/env python3
# Prints the long schedule that crates/schedule/stdin holds: before any make, document 01's listing, every refusal, malformed frames, the fifteen
# runs (tests/vectors/r01 to r15), and a total of 5,121 steps, each with a make of its own. usage: tests/long_schedule.py > crates/schedule/stdin
import os, sys

here = os.path.dirname(os.path.abspath(__file__))
lines = []
say = lines.append

def make(p=2, m=2, n=8, q=4, c=16): say("01%04x%04x%04x%04x%04x" % (p, m, n, q, c))
def register(v=1, s=100): say("02%04x%04x" % (v, s))
def v_read(w, i): say("03%04x%04x" % (w, i))
def v_cas(w, i, o, n): say("04%04x%04x%04x%04x" % (w, i, o, n))
def take(w): say("05%04x" % w)
def read(w, i, h): say("06%04x%04x%04x" % (w, i, h))
def total(w, q, h): say("07%04x%04x%04x" % (w, q, h))
def step(w, times=1):
    for _ in range(times): say("08%04x" % w)
def snapshot(w=0):
    take(w)
    step(w, 2)

def every_operation():
    register(1, 1); v_read(0, 0); v_cas(0, 0, 1, 2); take(0); read(0, 0, 0); total(0, 1, 0); step(0)

# before any make: 2, and bad frames are 13 even then; a refused make is no make
every_operation()
say(""); say("0"); say("zz")
for sizes in ((0, 2, 8, 4, 16), (65, 2, 8, 4, 16), (2, 0, 8, 4, 16), (2, 257, 8, 4, 16), (2, 2, 0, 4, 16), (2, 2, 4097, 4, 16), (2, 2, 8, 0, 16), (2, 2, 8, 257, 16), (2, 2, 8, 4, 0)): make(*sizes)
every_operation()

# document 01's listing
for l in open(os.path.join(here, "vectors", "r07.in")).read().split("\n")[:-1]: say(l)

# the largest sizes, and each refusal 3 to 12, alone and where several apply
make(64, 256, 4096, 256, 65535)
every_operation()
make()
register()
for w in (2, 63, 64, 65535): v_read(w, 9); v_cas(w, 9, 9, 9); take(w); read(w, 9, 9); total(w, 9, 9); step(w)
v_read(0, 0); v_read(0, 9); v_cas(0, 9, 9, 9); take(0); read(0, 9, 9); total(0, 9, 9)
step(1); step(0, 4)
v_read(0, 1); v_cas(0, 1, 9, 9); read(0, 1, 9); read(0, 0, 0)
register(4, 1); v_cas(0, 0, 4, 1); v_cas(0, 0, 1, 4); total(0, 4, 9); total(0, 3, 0)
snapshot()
read(0, 0, 1); total(0, 1, 1)
register(2, 7)
read(0, 1, 0); register(0, 0); register(4, 0)
read(0, 0, 0); step(0, 4); total(0, 1, 0); step(0, 6)
make(2, 4, 2, 4, 16)
register(); register(2, 3); register()
v_cas(0, 0, 1, 2); step(0, 5); step(0)
make(2, 2, 8, 4, 1)
register(); snapshot(); take(0); step(0, 2); take(1); step(1); v_read(1, 0); step(1, 3)
make(2, 2, 8, 4, 0); v_read(1, 0); step(1, 3)

# malformed frames, on a catalogue that goes on after them
make(); register()
for bad in ("", "8", "08", "0800", "08000", "0800000", "08 0000", "080000 ", " 080000", "080000\r", "08000G", "08000A", "0x0000", "080-01", "\x00" * 6, "000000", "090000", "0a0000", "100000", "ff0000",
            "01000200020008000400", "010002000200080004001", "01000200020008000400100", "0200010064000", "020001006", "03000000000", "0400000000000100020", "0500000", "060000000000000", "07000000000000f0",
            "g80000", "8g0000", "08" + "0" * 61, "08" + "0" * 62, "08" + "0" * 63, "0" * 64, "0" * 65, "0" * 66, "0" * 5000, "\xff\xfe"): say(bad)
v_read(0, 0); step(0, 3)

# the fifteen runs
for k in range(1, 16):
    for l in open(os.path.join(here, "vectors", "r%02d.in" % k)).read().split("\n")[:-1]: say(l)

# a total of 5,121 steps: each of 256 items has fifteen changes after the handle, the last of them still without its stamp when the total arrives
make(2, 256, 4096, 2, 65535)
for i in range(256): register(0, i)
snapshot()
for i in range(256):
    for k in range(14):
        v_cas(1, i, k % 2, 1 - k % 2)
        step(1, 9)
total(0, 0, 0)
for i in range(256):
    v_cas(1, i, 0, 1)
    step(1, 6 if i % 2 else 6)
    step(0, 20)
    step(1, 3)
step(0, 2)

sys.stdout.buffer.write(("\n".join(lines)).encode("latin-1"))   # the last line lacks its line feed
