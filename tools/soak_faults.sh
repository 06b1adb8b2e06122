#!/usr/bin/env bash
# usage: [SEEDS='0 1 2'] bash tools/soak_faults.sh [NAME..]: would soak notice? Puts each fault of tools/soak_faults into a copy of the crates and runs soak there
# unproved (`rt try`, 200,000 rounds), once a seed. The answer at which the first difference came must be the one that the line 'first:' has for that seed; without a
# fault ('unchanged') there must be none. The table of docs/SOAK.md is this. `rt try` shows nothing of a program that prints more than a megabyte: in the copy soak
# does not show the calls that lead to a difference.
set -eu
cd "$(dirname "$0")/.."

# first_difference FOLDER SEED: the answer at which the first difference came, or 0
first_difference() {
  (cd "$1/crates/soak" && rt try -- "$2" 200000 > ../../log 2>&1) || true
  sed -n 's/.*first difference at answer (0: none): \([0-9]*\).*/\1/p' "$1/log" | head -n 1
}

[ "$#" -gt 0 ] || set -- unchanged $(basename -s .edit tools/soak_faults/*.edit)
wrong=0
for name in "$@"; do
  there=$(mktemp -d)
  # all but the folders out/, which hold what checks kept
  for crate in crates/*; do mkdir -p "$there/$crate" && cp -R "$crate"/[!o]* "$there/$crate/"; done
  cp crates.txt "$there/"
  rm -rf "$there/crates/soak/stdout" "$there"/crates/*/must-fail
  sed -i '/frames::show/d' "$there/crates/soak/src/both.rt"
  wanted="0 0 0"
  if [ "$name" != unchanged ]; then
    python3 tools/put_edit.py "$there/crates" "tools/soak_faults/$name.edit"
    wanted=$(sed -n 's/^first: //p' "tools/soak_faults/$name.edit")
  fi
  for seed in ${SEEDS:-0 1 2}; do
    got=$(first_difference "$there" "$seed") said=$(echo "$wanted" | cut -d' ' -f$((seed + 1)))
    if [ "$got" = "$said" ]; then echo "as said: $name, seed $seed: first difference at answer $got"; else echo "NOT AS SAID: $name, seed $seed: $got, not $said"; wrong=1; fi
  done
  rm -rf "$there"
done
exit $wrong
