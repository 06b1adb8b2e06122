#!/usr/bin/env bash
# usage: bash host/notice.sh [SECONDS]: puts each error of host/oracle_errors.txt into a copy of the oracle, alone, and runs the hostile test with it
# against the proved archive. Every one must be noticed, each within so many seconds (5 unless said, under the emulator 60). Takes about a minute.
set -eu
cd "$(dirname "$0")/.."
. host/machine.sh
if [ "$native" = yes ]; then seconds=${1:-5}; else seconds=${1:-60}; fi   # the emulator is slow
bash host/build.sh hostile archive oracle oracle_words tables
there=$(mktemp -d)
trap 'rm -rf "$there"' EXIT
python3 - "$there" <<'PYTHON'
import os, sys
there = sys.argv[1]
sources = {name: open("host/" + name).read().split("\n") for name in ("oracle.c", "oracle_words.c")}
blocks = [b.split("\n") for b in open("host/oracle_errors.txt").read().strip().split("\n\n")]
for number, (what, old, new) in enumerate(blocks):
    places = [(name, i) for name, lines in sources.items() for i, line in enumerate(lines) if line.strip() == old[2:].strip()]
    if len(places) != 1: sys.exit("not exactly one line of the oracle: " + old)
    folder = "%s/wrong%02d" % (there, number)
    os.mkdir(folder)
    for name, lines in sources.items():
        copy = [new[2:] if (name, i) == places[0] else line for i, line in enumerate(lines)]
        open(folder + "/" + name, "w").write("\n".join(copy))
    open(folder + "/name", "w").write(what[2:] + "\n")
PYTHON
noticed=0 missed=0
for wrong in "$there"/wrong*; do
  compile_to "$there/hostile" -std=gnu11 -O2 -Iinclude -Ihost host/hostile.c host/archive.c host/tables.c "$wrong"/*.c target/staticlib/libcatalogue.a
  if "$there/hostile" -s "$seconds" > "$there/out" 2> "$there/err"; then
    missed=$((missed + 1)); echo "not noticed: $(cat "$wrong/name")"
  elif grep -q 'the oracle:' "$there/err"; then
    noticed=$((noticed + 1)); echo "noticed: $(cat "$wrong/name")"
  else
    missed=$((missed + 1)); echo "ended otherwise: $(cat "$wrong/name")"; tail -n 3 "$there/err"
  fi
done
echo "$noticed noticed, $missed not"
[ "$missed" -eq 0 ]
