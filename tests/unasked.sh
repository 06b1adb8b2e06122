#!/usr/bin/env bash
# Nothing is installed unasked: the gate on a machine without a compiler for x86-64, and the figures where programs are missing, say what to get and
# run no apt-get; with INSTALL_MISSING=yes they do. Tried on a copy, with stand-ins for rt, uname and apt-get.
set -eu
cd "$(dirname "$0")/.."
. tests/gate_copy.bash
stand_in rt 'echo "rt: ok; handles allowed: none"; echo "1 passed, 0 failed"'
stand_in python3 :
# shellcheck disable=SC2016
stand_in uname 'echo "$MACHINE"'
stand_in apt-get "echo \"\$*\" > '$there/installed'"
for program in bash sh cat cp cut dirname find grep gcc head id mkdir mktemp readlink rm sleep tail tee timeout touch wc; do
  if command -v "$program" > /dev/null; then ln -s "$(command -v "$program")" "$there/bin/$program"; fi
done
export PATH=$there/bin CC=no-such-compiler
fail() { echo "unasked: $1"; cat "$there/said"; exit 1; }
says() { # STATUS MACHINE SCRIPT: it ends with this status, and says what is missing
  status=0
  MACHINE=$2 bash "$there/$3" > "$there/said" 2>&1 || status=$?
  [ "$status" -eq "$1" ] || fail "$3 ended with $status"
  grep -q '^missing: ' "$there/said" || fail "$3 does not say what is missing"
  [ ! -e "$there/installed" ] || fail "$3 installed unasked"
}
says 0 aarch64 .ci/run
says 2 x86_64 host/bench/figures.sh
INSTALL_MISSING=yes MACHINE=aarch64 bash "$there/.ci/run" > "$there/said" 2>&1 || fail "asked to install, the gate failed"
grep -q gcc-x86-64-linux-gnu "$there/installed" || fail "asked to install, the gate did not"
echo "unasked: the gate and the figures install nothing unasked, and say what is missing"
