#!/usr/bin/env bash
# The room's page: run, and its numbers worked out anew from what it prints. Then built over three faulty catalogues, of which it must say that
# something is wrong, with a status: totals that are of the newest handle, clips read as they are now, and a refusal with another's number.
set -eu
cd "$(dirname "$0")/.."
. host/machine.sh
needs_compiler "the room's page"
bash host/build.sh page
target/host/page > target/host/page.out
python3 tests/page_numbers.py < target/host/page.out

there=$(mktemp -d)
trap 'rm -rf "$there"' EXIT
# What README shows of the page stands in it.
# shellcheck disable=SC2016
sed -n '/^```text$/,/^```$/p' README.md | grep -v -e '^```' -e '^\.\.\.$' > "$there/shown"
while IFS= read -r line; do grep -qxF -e "$line" target/host/page.out || { echo "page: README shows a line that is not printed: $line"; exit 1; }; done < "$there/shown"
[ "$(wc -l < "$there/shown")" -gt 5 ] || { echo "page: README shows nothing of it"; exit 1; }

cat > "$there/faults.c" <<'C'
#include "goravesha.h"
#ifdef TOTALS_OF_THE_NEWEST_HANDLE
uint32_t __real_goravesha_start_total(uint32_t *, size_t, uint32_t, uint32_t, uint32_t, goravesha_answer *);
uint32_t __wrap_goravesha_start_total(uint32_t *words, size_t count, uint32_t worker, uint32_t project, uint32_t handle, goravesha_answer *answer) {
  return __real_goravesha_start_total(words, count, worker, project, words[5] ? words[5] - 1 : handle, answer); /* words[5] is the counter */
}
#elif defined CLIPS_AS_THEY_ARE_NOW
uint32_t __wrap_goravesha_start_read_snapshot(uint32_t *words, size_t count, uint32_t worker, uint32_t item, uint32_t handle, goravesha_answer *answer) {
  (void)handle;
  return goravesha_start_vread(words, count, worker, item, answer);
}
#else
uint32_t __real_goravesha_step(uint32_t *, size_t, uint32_t, goravesha_answer *);
uint32_t __wrap_goravesha_step(uint32_t *words, size_t count, uint32_t worker, goravesha_answer *answer) {
  uint32_t code = __real_goravesha_step(words, count, worker, answer);
  return code == GORAVESHA_WORKER_IDLE ? GORAVESHA_WORKER_BUSY : code;
}
#endif
C
notices() { # FAULT CALL SENTENCE: with this fault in the call the page fails and says so
  compile_to "$there/page" -std=gnu11 -O2 -Wall -Wextra -Werror -Iinclude -D"$1" -Wl,--wrap="$2" host/page.c "$there/faults.c" target/staticlib/libcatalogue.a
  if "$there/page" > "$there/out" 2>&1; then echo "page: $1 is not noticed"; exit 1; fi
  grep -q "WRONG: $3" "$there/out" || { echo "page: $1 ends it otherwise:"; tail -n 5 "$there/out"; exit 1; }
}
notices TOTALS_OF_THE_NEWEST_HANDLE goravesha_start_total 'a page is not of one moment'
notices CLIPS_AS_THEY_ARE_NOW goravesha_start_read_snapshot 'a page is not of one moment'
notices ANOTHER_NUMBER goravesha_step '5 was to be answered'

# Where a need is missing, one or all: one line that names it, and nothing is done.
cp -R host include crates.txt "$there"
needed=(rt bash cp find mkdir mv tee)
case $compiler in */*) ;; *) needed=(rt "$compiler" "${needed[@]:1}") ;; esac   # a path is found without PATH
without() { # PATH NEED..: run with this PATH, these are named in one line
  if said=$(PATH=$1 "$BASH" "$there/host/page.sh" 2>&1); then echo "page: it ran without ${*:2}"; exit 1; fi
  named=" $(grep -o '[^ ]* ([^)]*)' <<< "$said" | cut -d' ' -f1 | tr '\n' ' ')"
  for need in "${@:2}"; do [[ $named == *" $need "* ]] || { echo "page: without ${*:2} it says: $said"; exit 1; }; done
  [ "$(wc -l <<< "$said")" -eq 1 ] || { echo "page: not one line: $said"; exit 1; }
  [ ! -e "$there/target" ] || { echo "page: without ${*:2} it began all the same"; exit 1; }
}
for one in "${needed[@]}"; do
  rm -rf "${there:?}/bin"
  mkdir "$there/bin"
  # dirname and readlink: by these host/machine.sh finds the emulator
  for need in dirname readlink uname "${needed[@]}"; do if [ "$need" != "$one" ]; then ln -s "$(command -v "$need")" "$there/bin/$need"; fi; done
  without "$there/bin" "$one"
  [ "$named" = " $one " ] || { echo "page: without $one alone it says: $said"; exit 1; }
done
without /nowhere rt bash cp find mkdir mv tee uname
echo "page: of one moment, its numbers right; three faults noticed; what is missing is named in one line"
