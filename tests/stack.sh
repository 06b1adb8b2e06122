#!/usr/bin/env bash
# The stack that each call uses, measured and printed; a call above its bound is a failure.
set -eu -o pipefail
cd "$(dirname "$0")/.."
. host/machine.sh
needs_compiler "the stack"
bash host/build.sh stack archive oracle oracle_words tables
calls=200000
if [ "$native" = no ]; then calls=20000; fi   # the emulator is slow
said=target/host/stack.out
target/host/stack "${1:-$calls}" | tee "$said"
failed=0 bounds=0
wrong() {
  echo "stack: $1"
  failed=1
}
# The most bytes that each call may use: what was measured, in steps of 16.
while read -r bound call; do
  bounds=$((bounds + 1))
  used=$(sed -n "s/^$call  *at most  *\([0-9]*\) bytes of stack, of [1-9].*/\1/p" "$said")
  if [ -z "$used" ]; then
    wrong "$call was not measured"
  elif [ "$used" -gt "$bound" ]; then
    wrong "$call uses $used bytes, above its bound of $bound"
  fi
done <<'BOUNDS'
96 make
48 register
96 start of vRead
144 start of vCAS
96 start of takeSnapshot
96 start of readSnapshot
96 start of total
128 step
32 abandon
BOUNDS
[ "$bounds" -eq "$(wc -l < "$said")" ] || wrong "a call has no bound"
exit "$failed"
