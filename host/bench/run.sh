#!/bin/bash
# The speed of schedule against the C program beside this script, on one generated schedule, in one run: the two take turns, and the least
# time of each counts. usage: host/bench/run.sh [BYTES] [ROUNDS]
cd "$(dirname "$0")/../.." || exit 2
if [ "$(uname -m)" != x86_64 ]; then echo "to be run on x86-64: under an emulator a time says nothing" >&2; exit 2; fi
bytes=${1:-50000000}
rounds=${2:-9}
if [ ! -x target/bin/schedule ]; then echo "missing: target/bin/schedule ('bash host/programs.sh schedule' proves and builds it)" >&2; exit 2; fi
work=$(mktemp -d) || exit 2
trap 'rm -rf "$work"' EXIT
cc=${CC:-gcc}
"$cc" -O2 -o "$work/generate" host/bench/generate.c && "$cc" -O2 -o "$work/schedule_c" host/bench/schedule.c || exit 2
"$work/generate" "$bytes" > "$work/in"
target/bin/schedule < "$work/in" > "$work/out"
"$work/schedule_c" < "$work/in" | cmp - "$work/out" || { echo "bench: the two programs print different text"; exit 1; }
python3 - "$work" "$rounds" <<'P'
import resource, subprocess, sys, time
work, rounds = sys.argv[1], int(sys.argv[2])
programs = {"schedule": "target/bin/schedule", "C": work + "/schedule_c"}
wall = {name: 1e9 for name in programs}
busy = {name: 1e9 for name in programs}
def spent():
    use = resource.getrusage(resource.RUSAGE_CHILDREN)
    return use.ru_utime + use.ru_stime
for _ in range(rounds):
    for name, path in programs.items():
        with open(work + "/in", "rb") as text, open("/dev/null", "wb") as nowhere:
            start, before = time.perf_counter(), spent()
            subprocess.run([path], stdin=text, stdout=nowhere, check=True)
            wall[name] = min(wall[name], time.perf_counter() - start)
            busy[name] = min(busy[name], spent() - before)
for what, least in (("processor time", busy), ("elapsed time", wall)):
    print("bench: %s: schedule %.3f s, C %.3f s, ratio %.2f" % (what, least["schedule"], least["C"], least["schedule"] / least["C"]))
P
