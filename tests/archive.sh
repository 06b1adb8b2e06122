#!/usr/bin/env bash
# The archive is the same bytes when it is built again: in another folder, from a copy of the crates, where rt takes what was proved here of the same files
# and compiles all the code once more. (Two builds of every crate from nothing: docs/RELEASES.md.)
set -eu
cd "$(dirname "$0")/.."
bash host/archive.sh
there=$(mktemp -d)
trap 'rm -rf "$there"' EXIT
cp crates.txt "$there"
for part in crates/*/src crates/*/specs crates/*/proofs; do
  mkdir -p "$there/${part%/*}"
  cp -R "$part" "$there/$part"
done
(cd "$there/crates/catalogue" && rt lib) > "$there/log" 2>&1 || { tail -n 5 "$there/log"; exit 1; }
cmp target/staticlib/libcatalogue.a "$there/crates/catalogue/out/libcatalogue.a" || { echo "archive: built again it is not the same bytes"; exit 1; }
echo "archive: built again in another folder it is the same bytes, sha256 $(sha256sum < target/staticlib/libcatalogue.a | cut -d' ' -f1)"
