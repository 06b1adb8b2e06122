#!/usr/bin/env bash
# The recorder, in C and in C++: what it records of document 01's listing, of a service of drawn calls and of calls that do not fit a frame is run by
# schedule, and every answer is the one that the service saw; tools/explain.py and tools/dump.py read what it wrote.
set -eu
cd "$(dirname "$0")/.."
. host/machine.sh
needs_compiler "the recorder"
bash host/archive.sh
bash host/programs.sh schedule
program=$(runnable target/bin/schedule)
there=$(mktemp -d)
trap 'rm -rf "$there"' EXIT
fail() { echo "record: $1"; exit 1; }
warnings=(-O2 -Wall -Wextra -Wpedantic -Wconversion -Wsign-conversion -Werror -Iinclude -Ihost)
cat > "$there/reports" << 'END'
recorded: 7 of 9 calls
call 3 is the first that does not fit a frame: worker 65536 is above 65535; where such a call is accepted, all are left out up to a make that fits
recorded: 6 of 9 calls
call 3 is the first without a frame: an abandon; where one is accepted, all are left out up to a make that fits
recorded: 1 of 1 calls
a write failed: the frames or the answers are not whole
END

recordings() { # LANGUAGE FLAGS..: builds the recordings' program in it, runs it, and holds what it wrote against schedule
  mkdir "$there/$1"
  compile_to "$there/$1/record" "${@:2}" "${warnings[@]}" tests/record.c -x none target/staticlib/libcatalogue.a
  "$there/$1/record" "$there/$1" > "$there/$1/said" || fail "$1: what the program finds of the recorder"
  diff "$there/reports" "$there/$1/said" || fail "$1: what the recorder reports"
  cmp tests/listing.in "$there/$1/listing.frames" || fail "$1: the listing's frames"
  cmp tests/listing.out "$there/$1/listing.answers" || fail "$1: the listing's answers"
  for frames in "$there/$1"/*.frames; do
    "$program" < "$frames" | cmp - "${frames%frames}answers" || fail "$1: schedule answers another thing to ${frames##*/}"
  done
  python3 tools/dump.py "$there/$1/listing.words" | diff tests/listing.shown - || fail "$1: the listing's words by tools/dump.py"
  python3 tools/explain.py --answers "$there/$1/service.answers" < "$there/$1/service.frames" > /dev/null || fail "$1: the service by tools/explain.py"
  [ "$(wc -l < "$there/$1/service.frames")" -gt 20000 ] || fail "$1: the service's recording is short"
  [ "$(wc -l < "$there/$1/gaps.frames")" -eq 4 ] || fail "$1: the recording with gaps"
}

recordings C -std=c11
languages=C
if [ "$native" = yes ] && command -v g++ > /dev/null; then
  compiler=g++ recordings C++ -x c++
  cmp "$there/C/service.frames" "$there/C++/service.frames" || fail "C++: another recording"
  languages="C and C++"
else
  echo "not tested: the recorder in C++, since there is no g++ for x86-64 here"
fi
echo "record: $languages: schedule gives the answers that were recorded, and what does not fit is left out and said"
