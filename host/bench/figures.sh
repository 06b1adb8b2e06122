#!/usr/bin/env bash
# usage: bash host/bench/figures.sh [pairs]: every figure of docs/PERFORMANCE.md anew, into target/bench/. What is missing is said first;
# INSTALL_MISSING=yes has it installed from Debian, as root.
set -eu
cd "$(dirname "$0")/../.."
if [ "$(uname -m)" != x86_64 ]; then echo "to be run on x86-64: under an emulator a time says nothing" >&2; exit 2; fi
pairs=${1:-101}
. host/machine.sh
missing=()
for program in gcc clang valgrind python3; do command -v "$program" > /dev/null || missing+=("$program"); done
for library in lmdb sqlite3; do echo "#include <$library.h>" | gcc -E - > /dev/null 2>&1 || missing+=("lib$library-dev"); done
if [ ${#missing[@]} -gt 0 ]; then wants_packages "${missing[@]}" >&2 || exit 2; fi
archive=target/staticlib/libcatalogue.a
bash host/archive.sh
out=target/bench
mkdir -p "$out"
flags=(-std=gnu11 -Wall -Wextra -Iinclude)

# (a) and (b): the archive against its twin, which stands in a file of its own, by three compilations of it.
for build in "gcc -O2" "gcc -O3" "clang -O2"; do
  command -v "${build%% *}" > /dev/null || continue
  name=${build/ /}
  # shellcheck disable=SC2086
  $build "${flags[@]}" -c host/bench/twin.c -o "$out/twin-$name.o"
  gcc -O2 "${flags[@]}" host/bench/calls.c "$out/twin-$name.o" "$archive" -o "$out/calls-$name"
  echo "the archive against its twin, $build" | tee "$out/calls-$name.txt"
  "$out/calls-$name" "$pairs" | tee -a "$out/calls-$name.txt"
done

# Instructions a call, by callgrind: the archive, then the twin by gcc -O2.
echo "instructions a call: archive, twin" | tee "$out/instructions.txt"
call_of=(start_vread start_vcas start_take_snapshot start_read_snapshot start_total [15]=abandon [16]=abandon [17]=abandon [18]=abandon)   # the other jobs: step
for job in $(seq 0 18); do
  line=""
  for side in 0 1; do
    prefix=goravesha; [ "$side" = 0 ] || prefix=twin
    counted=${prefix}_${call_of[$job]:-step}
    said=$(valgrind -q --tool=callgrind --callgrind-out-file="$out/callgrind" --toggle-collect="$counted" "$out/calls-gcc-O2" -1 "$job" "$side" 2> /dev/null)
    line="$line $(awk -v calls="${said%% *}" '/^(summary|totals):/ { printf "%.0f", $2 / calls; exit }' "$out/callgrind")"
  done
  echo "$line  ${said#* }" | tee -a "$out/instructions.txt"
done

# (c) the job a room has; in memory without synchronising, and the report alone.
gcc -O2 "${flags[@]}" host/bench/room.c host/bench/databases.c "$archive" -llmdb -lsqlite3 -o "$out/room"
gcc -O2 "${flags[@]}" -DRELINKS=0 host/bench/room.c host/bench/databases.c "$archive" -llmdb -lsqlite3 -o "$out/room-report"
memory=$(mktemp -d -p /dev/shm)
trap 'rm -rf "$memory"' EXIT
{ echo "the room's job, databases in memory, no synchronising"; "$out/room" "$memory" 101; } | tee "$out/room.txt"
{ echo "the report alone"; "$out/room-report" "$memory" 101; } | tee -a "$out/room.txt"
{ echo "the room's job, databases on disk, synchronising as by default (LMDB) and NORMAL (SQLite)"; "$out/room" "$out" 3 durable; } | tee -a "$out/room.txt"
bash host/bench/threads.sh

# (d) growth.
gcc -O2 "${flags[@]}" host/bench/growth.c "$archive" -o "$out/growth"
"$out/growth" > "$out/growth.txt"
python3 host/bench/plot.py < "$out/growth.txt" > "$out/growth.svg"
echo "growth: $out/growth.txt, $out/growth.svg"
