#!/usr/bin/env bash
# Two rows of docs/SOAK.md's table of faults, with one seed: soak notices an error put into the code, run unproved. All rows: bash tools/soak_faults.sh.
set -eu
cd "$(dirname "$0")/.."
if [ "$(uname -m)" != x86_64 ]; then echo "not tested: that soak notices a fault: rt try runs what is compiled for x86-64"; exit 0; fi
SEEDS=0 bash tools/soak_faults.sh stops_strictly_below abandon_keeps_the_node
