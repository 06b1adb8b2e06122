#!/usr/bin/env bash
# The hostile test, for so many seconds (30 unless said), with so many as its seed; and shorter runs of it with the sanitizers and under valgrind.
# A long run: bash tests/hostile.sh 600 7
set -eu
cd "$(dirname "$0")/.."
. host/machine.sh
needs_compiler "the hostile test"
seconds=${1:-30}
seed=${2:-1}
if [ "$native" = yes ]; then
  CFLAGS="-g -fsanitize=address,undefined -fno-sanitize-recover=all" bash host/build.sh hostile archive oracle oracle_words tables
  target/host/hostile -s 4 -x "$seed" > target/host/hostile.sanitized || { tail -n 40 target/host/hostile.sanitized; exit 1; }
fi
CFLAGS=-g bash host/build.sh hostile archive oracle oracle_words tables
if [ "$native" = no ]; then
  echo "not tested: the hostile test with sanitizers and under valgrind, since this machine emulates x86-64"
elif command -v valgrind > /dev/null; then
  valgrind -q --error-exitcode=9 target/host/hostile -n 800000 -x "$seed" > target/host/hostile.valgrind || { tail -n 40 target/host/hostile.valgrind; exit 1; }
else
  echo "not tested: the hostile test under valgrind, since there is no valgrind here"
fi
target/host/hostile -s "$seconds" -x "$seed"
