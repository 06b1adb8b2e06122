#!/usr/bin/env bash
# The timeline (tools/timeline.py): its model gives schedule's answers on all vectors, and the oracle's on damaged words; its pictures and pages hold every
# frame, with no label over another; docs/listing.svg is what it draws today; what cannot be read, drawn or written is said in one line, with status 1.
set -u
cd "$(dirname "$0")/.." || exit 2
. host/machine.sh
unset PYTHONDONTWRITEBYTECODE # the tools leave nothing beside themselves by their own doing
work=target/timeline
rm -rf "$work" && mkdir -p "$work" || exit 1
failed=0
wrong() {
  echo "timeline: $1"
  failed=$((failed + 1))
}
timeline() { python3 tools/timeline.py "$@"; }

# The oracle is loaded into python, so it is built for this machine.
library=
if [ "$native" = yes ]; then own=$compiler; else own=cc; fi
if command -v "$own" > /dev/null; then
  library=$work/oracle.so
  "$own" -std=c11 -O2 -shared -fPIC -Iinclude host/oracle.c host/oracle_words.c -o "$library" || exit 1
else
  echo "not tested: the timeline's model on damaged words (there is no $own here)"
fi
model=$(python3 tests/timeline_model.py ${library:+"$library"}) || wrong "$model"
pictures=$(python3 tests/timeline_pictures.py "$work") || wrong "$pictures"

timeline < tests/listing.in | cmp -s - docs/listing.svg || wrong "docs/listing.svg is not what the tool draws of tests/listing.in"

# ends NAME MESSAGE STATUS: what the last command said on standard error, and its status, which is 1
ends() {
  [ "$3" = 1 ] || wrong "$1: ended with status $3"
  [ "$(cat "$work/said")" = "timeline: $2" ] || wrong "$1: said '$(cat "$work/said")'"
}
# refused NAME MESSAGE OPTIONS..: on document 01's listing
refused() {
  timeline "${@:3}" < tests/listing.in > "$work/out" 2> "$work/said"
  ends "$1" "$2" $?
}
refused "--from 0" "argument --from: not a whole number from 1 to 1000000000: '0' (see --help)" --from 0
refused "--to x" "argument --to: not a whole number from 1 to 1000000000: 'x' (see --help)" --to x
refused "--from after --to" "--from is after --to" --from 9 --to 8
refused "--from after the end" "--from 19 is after the last frame, 18" --from 19
refused "few columns" "argument --columns: not a whole number from 15 to 400: '14' (see --help)" --columns 14
refused "an option that is not there" "unrecognized arguments: --what (see --help)" --what
refused "a file as argument" "unrecognized arguments: tests/listing.in (see --help)" tests/listing.in
refused "a page that cannot be written" "$work/none/page.html cannot be written" --html "$work/none/page.html"
timeline < /dev/null > "$work/out" 2> "$work/said"
ends "empty input" "no frames on standard input" $?
timeline 0> "$work/empty" > "$work/out" 2> "$work/said"
ends "an input that cannot be read" "standard input cannot be read" $?
timeline <&- > "$work/out" 2> "$work/said"
ends "a closed input" "standard input cannot be read" $?
timeline < tests/listing.in >&- 2> "$work/said"
ends "a closed output" "standard output cannot be written" $?
if [ -e /dev/full ]; then
  timeline < tests/listing.in > /dev/full 2> "$work/said"
  ends "a full disk" "standard output cannot be written" $?
fi
timeline --help > "$work/out" 2> "$work/said" || wrong "--help fails"
grep -q '^usage: timeline.py' "$work/out" || wrong "--help says no usage"
[ ! -e tools/__pycache__ ] || wrong "tools/__pycache__ is left"

if [ "$failed" != 0 ]; then echo "timeline: $failed failed"; exit 1; fi
echo "timeline: $model; $pictures"
