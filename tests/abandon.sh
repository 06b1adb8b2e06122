#!/usr/bin/env bash
# A worker abandoned at each of the 35 phases, from C: the archive against the oracle and against what an abandon may change.
set -eu
cd "$(dirname "$0")/.."
. host/machine.sh
needs_compiler "abandoned workers"
bash host/build.sh abandon archive oracle oracle_words
target/host/abandon
