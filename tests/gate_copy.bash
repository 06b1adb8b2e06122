# shellcheck shell=bash
# Sourced, from the repository's root: $there is a copy of the gate and the host's scripts, without crates or tests, which goes when the test ends. What
# stand_in puts into its bin stands in for a program. The archive is newer than every source, so that nothing is to be proved.
there=$(mktemp -d)
trap 'rm -rf "$there"' EXIT
cp -R .ci host "$there"
mkdir -p "$there/bin" "$there/crates" "$there/target/staticlib"
touch "$there/crates.txt"
touch "$there/target/staticlib/libcatalogue.a"

# stand_in PROGRAM TEXT: a script of this text
stand_in() { printf '#!/bin/sh\n%s\n' "$2" > "$there/bin/$1"; chmod +x "$there/bin/$1"; }
