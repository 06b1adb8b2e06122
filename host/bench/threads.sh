#!/usr/bin/env bash
# usage: bash host/bench/threads.sh [rounds]: 'The same with threads' of docs/PERFORMANCE.md anew, into target/bench/threads.txt: the tables as they stand
# there, and the machine's load before and after. First the catalogue's side with the detector of data races, the twin in the archive's place: inside the
# archive the detector sees nothing.
set -euo pipefail
cd "$(dirname "$0")/../.."
if [ "$(uname -m)" != x86_64 ]; then echo "to be run on x86-64: under an emulator a time says nothing" >&2; exit 2; fi
rounds=${1:-11}
. host/machine.sh
needs gcc
missing=()
for library in lmdb sqlite3; do echo "#include <$library.h>" | gcc -E - > /dev/null 2>&1 || missing+=("lib$library-dev"); done
if [ ${#missing[@]} -gt 0 ]; then wants_packages "${missing[@]}" >&2 || exit 2; fi
bash host/archive.sh
out=target/bench
mkdir -p "$out"
sources=(host/bench/threads.c host/bench/databases.c)
build=(gcc -std=gnu11 -O2 -Wall -Wextra -Iinclude -pthread)

names=()
for call in make register start_vread start_vcas start_take_snapshot start_read_snapshot start_total step abandon; do names+=("-Dtwin_$call=goravesha_$call"); done
"${build[@]}" -g -fsanitize=thread "${names[@]}" "${sources[@]}" host/bench/twin.c -llmdb -lsqlite3 -o "$out/threads-races"
"$out/threads-races" 4 1 0 > "$out/threads-races.txt"
echo "no data race was seen"

"${build[@]}" "${sources[@]}" target/staticlib/libcatalogue.a -llmdb -lsqlite3 -o "$out/threads"
memory=$(mktemp -d -p /dev/shm)
trap 'rm -rf "$memory"' EXIT
{
  echo "load before: $(cat /proc/loadavg); $(nproc) cores; $rounds rounds in memory, 3 on disk"
  for pause in 0 1000; do
    echo "databases in memory, synchronising off; $pause us between reports"
    for relinkers in 1 2 4; do "$out/threads" "$relinkers" "$rounds" "$pause" "$memory"; done
  done
  echo "databases on disk, synchronising as by default (LMDB) and NORMAL (SQLite); 1000 us between reports"
  "$out/threads" 4 3 1000 "$out" durable
  echo "load after: $(cat /proc/loadavg)"
} | tee "$out/threads.txt"
