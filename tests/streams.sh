#!/bin/bash
# How schedule reads and writes: empty input, no last line feed, one byte at a time, a line of a megabyte, an output that cannot be written,
# an input that cannot be read on; and that given an argument it reads and answers nothing.
# usage: tests/streams.sh [PROGRAM]
cd "$(dirname "$0")/.." || exit 2
. host/machine.sh
[ "$#" -gt 0 ] || bash host/programs.sh schedule || exit 1
program=${1:-$(runnable target/bin/schedule)}
bad=1d00000000000000000000
failed=0
expect() { # NAME GOT WANTED
    if [ "$2" != "$3" ]; then
        echo "streams: $1: got '${2:0:200}', wanted '${3:0:200}'"
        failed=$((failed + 1))
    fi
}
sum() { cksum | cut -d' ' -f1,2; }
slowly() { # one byte a write
    python3 -c 'import os, sys
for byte in sys.stdin.buffer.read(): os.write(1, bytes([byte]))'
}
spread() { # pieces of many sizes
    python3 -c 'import os, sys
text = sys.stdin.buffer.read()
at, size = 0, 1
while at < len(text):
    os.write(1, text[at:at + size]); at += size; size = size * 7 % 9973 + 1'
}
broken_off() { # the program on a pipe that gives this text, and then fails to be read: it does not wait, and its other end is open
    python3 -c 'import os, subprocess, sys
reads, writes = os.pipe()
os.set_blocking(reads, False)
os.write(writes, sys.argv[2].encode())
ran = subprocess.run([sys.argv[1]], stdin=reads, stdout=subprocess.PIPE, stderr=subprocess.STDOUT, timeout=60)
sys.stdout.buffer.write(ran.stdout)' "$program" "$1" | tr '\n' ' '
}

expect "empty input" "$("$program" < /dev/null)" ""
expect "a blank line" "$(printf '\n' | "$program")" "$bad"
expect "no last line feed" "$(printf '080000' | "$program")" "1200000000000000000000"
expect "a final line feed" "$(printf '080000\n' | "$program")" "1200000000000000000000"

sample=tests/vectors/ordinary_00
expect "one byte at a time" "$(slowly < $sample.in | "$program" | sum)" "$(sum < $sample.out)"
sample=tests/vectors/totals_00
expect "pieces of many sizes" "$(spread < $sample.in | "$program" | sum)" "$(sum < $sample.out)"

long() { head -c "$1" /dev/zero | tr '\0' '0'; }
expect "a line of a megabyte" "$({ long 1048576; printf '\n080000\n'; } | "$program" | tr '\n' ' ')" "$bad 1200000000000000000000 "
expect "a megabyte and no line feed" "$(long 1048576 | "$program")" "$bad"
for n in 63 64 65 66 16383 16384 16385 32768; do
    expect "a line of $n" "$({ long $n; printf '\n'; long $n; } | "$program" | tr '\n' ' ')" "$bad $bad "
done
expect "many blank lines" "$(yes '' | head -n 100000 | "$program" | sort | uniq -c | tr -s ' ')" " 100000 $bad"

if [ -e /dev/full ]; then
    expect "a full disk" "$("$program" < $sample.in 2>&1 > /dev/full)" "schedule: standard output cannot be written"
fi
expect "a closed output" "$("$program" < $sample.in 2>&1 >&-)" "schedule: standard output cannot be written"
expect "an input that cannot be read" "$("$program" < . 2>&1)" "schedule: standard input cannot be read"
unread="schedule: standard input cannot be read "
expect "a read that fails after a whole line" "$(broken_off $'080000\n')" "1200000000000000000000 $unread"
expect "a read that fails in a line" "$(broken_off $'080000\n0800')" "1200000000000000000000 $unread"
expect "a read that fails in the first line" "$(broken_off 080000)" "$unread"

printed_and_left() { # ARGUMENTS: what the program prints on the sample, and then what it leaves unread of it
    { timeout 60 "$program" "$@" 2> /dev/null; cat; } < $sample.in | sum
}
given() { # ARGUMENTS: the usage on standard error, nothing on standard output, and all of the input left
    expect "given '$*', standard error" "$(timeout 60 "$program" "$@" < $sample.in 2>&1 > /dev/null | head -n 1)" "usage: schedule < FRAMES > ANSWERS"
    expect "given '$*', standard output and the input" "$(printed_and_left "$@")" "$(sum < $sample.in)"
}
expect "given nothing, standard output and the input" "$(printed_and_left)" "$(sum < $sample.out)"
for argument in x 1 '' - -- -h --help "$sample.in"; do
    given "$argument"
    given "$argument" "$argument"
done

if [ "$failed" = 0 ]; then echo "streams: all passed"; else echo "streams: $failed failed"; exit 1; fi
