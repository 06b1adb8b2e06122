#!/bin/bash
# Runs schedule on every tests/vectors/NAME.in and holds what it prints to NAME.out, byte for byte. usage: tests/vectors.sh [PROGRAM]
cd "$(dirname "$0")/.." || exit 2
. host/machine.sh
[ "$#" -gt 0 ] || bash host/programs.sh schedule || exit 1
program=${1:-$(runnable target/bin/schedule)}
passed=0
failed=0
for input in tests/vectors/*.in; do
    name=${input%.in}
    if "$program" < "$input" | cmp -s - "$name.out"; then
        passed=$((passed + 1))
    else
        echo "vectors: $name differs"
        failed=$((failed + 1))
    fi
done
echo "vectors: $passed passed, $failed failed"
[ "$failed" = 0 ] && [ "$passed" -gt 0 ]
