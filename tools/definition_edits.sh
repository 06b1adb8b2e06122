#!/usr/bin/env bash
# usage: bash tools/definition_edits.sh [NAME..]: puts each edit of tools/definition_edits into a copy of the crates, alone, and has the crate checked that its line
# 'by:' names: reached, which ties every call of the words to the machine that demands 2 and 3 are proved of; history, the machine's own theorems; or runs, the
# fifteen runs, the abandons and the refusals on any words. All below it must still be proved, and it must be refused, by an error in its own files; and without
# an edit all must be proved. rt's own must-fail edits cannot show this, since they check the edited crate alone. Two are tried at a time.
set -eu
cd "$(dirname "$0")/.."

# try_edit NAME: an edit, or 'unchanged-CRATE': that crate without one
try_edit() {
  edit=tools/definition_edits/$1.edit there=$(mktemp -d) below="definitions cells history"
  trap 'rm -rf "$there"' EXIT
  case $1 in unchanged-*) by=${1#unchanged-} edit= ;; *) by=$(sed -n 's/^by: //p' "$edit") ;; esac
  if [ "$by" = history ]; then below="definitions cells"; fi
  for crate in $below "$by"; do
    mkdir -p "$there/crates/$crate"
    for part in src specs proofs; do if [ -d "crates/$crate/$part" ]; then cp -R "crates/$crate/$part" "$there/crates/$crate/"; fi; done
  done
  grep -E "^(${below// /|}|$by):" crates.txt > "$there/crates.txt"
  [ -z "$edit" ] || python3 tools/put_edit.py "$there/crates" "$edit"
  cd "$there/crates/$by"
  # rt builds each crate below first, and says of one that is not proved that it did not build
  if rt check --jobs 1 > "$there/log" 2>&1; then
    if [ -z "$edit" ]; then echo "proved: $by, without an edit"; return; fi
    echo "NOT REFUSED: $1"; return 1
  fi
  reason=$(sed -n 's/^\.\/\([^ ]*: error: .\{1,100\}\).*/\1/p' "$there/log" | head -n 1)
  # that a text of the edit cannot be read shows nothing
  case $reason in *"is not in scope"* | *"has no field"* | *"is no name"* | *"operand is missing"* | *"expected the end"* | *"cannot continue"*) reason= ;; esac
  if [ -n "$edit" ] && [ -n "$reason" ] && grep -q "^crate $by: modules " "$there/log" && grep -q '^logic=not-proved' "$there/log"; then echo "refused: $1: $by/$reason"; return; fi
  echo "NOT REFUSED BY $by: $1: $(grep -m 1 error "$there/log" || tail -n 1 "$there/log")"; return 1
}

if [ "${1:-}" = --one ]; then try_edit "$2"; exit; fi
[ "$#" -gt 0 ] || set -- $(basename -s .edit tools/definition_edits/*.edit)
printf '%s\n' unchanged-reached unchanged-runs "$@" | xargs -P 2 -n 1 bash tools/definition_edits.sh --one
echo "all $# edits of the definitions are refused"
