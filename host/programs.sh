#!/usr/bin/env bash
# usage: bash host/programs.sh [NAME..]: proves and builds the programs target/bin/schedule and target/bin/soak, or those that are named, where one is missing,
# or older than any source of the crates (.rt, .antt) or crates.txt. What the prover says stands in target/NAME.log.
set -euo pipefail
cd "${0%"${0##*/}"}./.."   # as by dirname, which may be missing
. host/machine.sh
needs find
sources=(-name '*.rt' -o -name '*.antt' -o -name crates.txt)
[ "$#" -gt 0 ] || set -- schedule soak
for name in "$@"; do
  case $name in schedule | soak) ;; *) echo "no program: $name; there are schedule and soak" >&2; exit 2 ;; esac
  program=target/bin/$name
  if [ -f "$program" ] && [ -z "$(find crates crates.txt -name out -prune -o \( "${sources[@]}" \) -newer "$program" -print -quit)" ]; then continue; fi
  needs rt mkdir cp mv
  echo "Proving and building $program, and all below it, minutes from nothing. The prover's log: target/$name.log" >&2
  mkdir -p target/bin
  # rt run also runs it: schedule on no frames; soak on seed 0 and no round
  arguments=()
  if [ "$name" = soak ]; then arguments=(-- 0 0); fi
  if ! (cd "crates/$name" && rt run "${arguments[@]}") < /dev/null > "target/$name.log" 2>&1; then
    echo "Not proved or not built. From target/$name.log:" >&2
    { grep -E ': error|^error|not proved|did not build' "target/$name.log" || tail -n 5 "target/$name.log"; } | cut -c1-200 | head -n 8 >&2
    exit 1
  fi
  cp "crates/$name/out/$name" "$program.$$"   # at once, since another may be running it
  mv "$program.$$" "$program"
done
