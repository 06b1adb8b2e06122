#!/usr/bin/env bash
# The examples with threads: host/example_threads.c with the archive, under the thread sanitizer and under valgrind's helgrind, and with the C twin in the
# archive's place, since the sanitizer sees what it compiled alone. Without the mutex both must find a race. Then host/python/example.py over a shared library.
set -eu
cd "$(dirname "$0")/.."
. host/machine.sh
needs_compiler "the examples with threads"
bash host/archive.sh
there=$(mktemp -d)
trap 'rm -rf "$there"' EXIT
fail() { echo "examples: $1"; exit 1; }
flags=(-std=gnu11 -O2 -g -Wall -Wextra -Wpedantic -Wsign-conversion -Werror -Iinclude -pthread)
archive=target/staticlib/libcatalogue.a
example=host/example_threads.c
sed 's/{ pthread_mutex_[a-z]*lock(&mutex); }/{}/' $example > "$there/no_mutex.c"
[ "$(diff $example "$there/no_mutex.c" | grep -c '^>')" = 2 ] || fail "the mutex of $example is taken and let go in other words than this test knows"

compile_to "$there/example" "${flags[@]}" $example $archive
"$there/example" > "$there/said"
grep -q ' pages of 6 projects while 3 threads made 3000 relinks: each page added up to 46500 MiB$' "$there/said" || fail "it says $(cat "$there/said")"
grep -qx '70 daemons died in mid-relink, each on the same worker: 20 relinks stand, and no node is lost' "$there/said" || fail "of daemons that die it says $(cat "$there/said")"

checked="the example"
export TSAN_OPTIONS=halt_on_error=1:exitcode=66
if [ "$native" = yes ] && echo 'int main(void) { return 0; }' | "$compiler" -fsanitize=thread -x c - -o "$there/probe" 2> /dev/null && "$there/probe" 2> /dev/null; then
  twin=(host/bench/twin.c)
  for call in make register start_vread start_vcas start_take_snapshot start_read_snapshot start_total step abandon; do twin+=("-Dtwin_$call=goravesha_$call"); done
  compile_to "$there/sanitized" -fsanitize=thread "${flags[@]}" $example $archive
  "$there/sanitized" > /dev/null || fail "a race under the thread sanitizer"
  compile_to "$there/sanitized-twin" -fsanitize=thread "${flags[@]}" $example "${twin[@]}"
  "$there/sanitized-twin" > /dev/null || fail "a race under the thread sanitizer, with the twin"
  compile_to "$there/no_mutex-twin" -fsanitize=thread "${flags[@]}" -Wno-unused "$there/no_mutex.c" "${twin[@]}"
  if timeout 60 "$there/no_mutex-twin" > "$there/said" 2>&1; then fail "without the mutex the thread sanitizer finds no race"; fi
  grep -q 'ThreadSanitizer: data race' "$there/said" || fail "without the mutex it ended otherwise than with a race"
  checked="$checked, under the thread sanitizer"
else
  echo "not tested: the example with threads under -fsanitize=thread, which cannot be had here"
fi
if [ "$native" = yes ] && command -v valgrind > /dev/null; then
  valgrind -q --tool=helgrind --error-exitcode=9 "$there/example" > /dev/null || fail "a race under helgrind"
  compile_to "$there/no_mutex" "${flags[@]}" -Wno-unused "$there/no_mutex.c" $archive
  if timeout 60 valgrind -q --tool=helgrind --error-exitcode=9 "$there/no_mutex" > "$there/said" 2>&1; then fail "without the mutex helgrind finds no race"; fi
  grep -q 'Possible data race' "$there/said" || fail "without the mutex it ended otherwise than with a race"
  checked="$checked, under helgrind"
else
  echo "not tested: the example with threads under helgrind, since there is no valgrind for it here"
fi

python=
if [ "$native" = yes ]; then
  names=$(sed -n 's/^  GORAVESHA_\([A-Z_]*\) = \([0-9]*\),\{0,1\}$/\2 \1/p' include/goravesha.h | awk '$1 > 16 { print $1 - 16, $2 }')
  [ "$(cd host/python && python3 -B -c 'import example
for number, name in enumerate(example.REFUSALS, 1): print(number, name)')" = "$names" ] || fail "the names in host/python/example.py are not the header's"
  library=$(bash host/shared.sh "$there/shared" | tail -n 1)
  python3 -B host/python/example.py "$library" > "$there/said" || { cat "$there/said"; fail "the example in Python"; }
  for line in '[0-9]* pages of 3 projects while 2 threads made 600 relinks: each page added up to 1500 MiB' 'item 4 is refused: NOT_REGISTERED'; do
    grep -qx "$line" "$there/said" || fail "the example in Python says $(cat "$there/said")"
  done
  python="; the page from Python over a shared library"
else
  echo "not tested: the example in Python, since the shared library is for x86-64"
fi
echo "examples: three threads relink while each page adds up, and daemons die in mid-relink: $checked$python"
