#!/usr/bin/env bash
# usage: bash host/archive.sh: proves and builds target/staticlib/libcatalogue.a where it is missing, or older than any source of the crates
# (.rt, .antt) or crates.txt. All that links the archive asks here first. It says on standard error which crate is proved; what the prover says
# stands in target/archive.log.
set -euo pipefail
cd "${0%"${0##*/}"}./.."   # as by dirname, which may be missing
. host/machine.sh
needs find
archive=target/staticlib/libcatalogue.a
log=target/archive.log
sources=(-name '*.rt' -o -name '*.antt' -o -name crates.txt)
if [ -f "$archive" ] && [ -z "$(find crates crates.txt -name out -prune -o \( "${sources[@]}" \) -newer "$archive" -print -quit)" ]; then exit 0; fi
needs rt mkdir tee cp mv

# The catalogue's crate and all that it needs, by crates.txt, in the order in which rt builds them.
declare -A needed_by
while IFS=: read -r crate needed; do
  crate=${crate%%[ #]*}
  if [ -n "$crate" ]; then needed_by[$crate]=${needed%%#*}; fi
done < crates.txt
crates=()
add() { # CRATE: those that it needs, and then itself
  local each
  for each in ${needed_by[$1]}; do if [[ " ${crates[*]} " != *" $each "* ]]; then add "$each"; fi; done
  crates+=("$1")
}
add catalogue
total=${#crates[@]}

# rt's words in; out, a line for each crate below the catalogue's that was proved now. Of a crate that stands as it was rt says nothing.
progress() {
  local line at crate="" since=$SECONDS
  while IFS= read -r line; do
    case $line in
    "crate "*": modules "*) crate=${line#crate } crate=${crate%%:*} ;;
    logic=proved*)
      for at in "${!crates[@]}"; do
        if [ "${crates[at]}" = "$crate" ] && [ "$crate" != catalogue ]; then echo "  $((at + 1)) of $total proved: $crate ($((SECONDS - since)) s)"; fi
      done
      since=$SECONDS ;;
    esac
  done
}

echo "Proving that every call does what its definition says, on any input: $total crates, three to five minutes from nothing. The prover's log: $log" >&2
mkdir -p target/staticlib
if ! (cd crates/catalogue && rt lib) 2>&1 | tee "$log" | progress >&2; then
  echo "Not proved. From $log:" >&2
  { grep -E ': error|^error|not proved|did not build' "$log" || tail -n 5 "$log"; } | cut -c1-200 | head -n 8 >&2
  exit 1
fi
cp crates/catalogue/out/libcatalogue.a "$archive.$$"   # at once, since another may be linking it
mv "$archive.$$" "$archive"
echo "  $total of $total proved: catalogue (and compiled)" >&2
