#!/usr/bin/env bash
# The exported calls from C: host/entry.c is built against the archive and run; what it prints is document 01's listing.
set -eu
cd "$(dirname "$0")/.."
. host/machine.sh
needs_compiler "the calls from C"
bash host/build.sh entry
target/host/entry > target/host/entry.out
diff tests/listing.out target/host/entry.out
echo "entry: the listing's answers, and the fixed numbers on words that are no catalogue"
