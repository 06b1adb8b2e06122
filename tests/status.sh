#!/usr/bin/env bash
# The wrappers schedule-status and soak-status, from a folder of their own as if installed: their status, and that output passes through unchanged.
cd "$(dirname "$0")/.." || exit 2
. host/machine.sh
bash host/programs.sh || exit 1
there=$(mktemp -d)
trap 'rm -rf "$there"' EXIT
failed=0
says() { # WHAT GOT WANTED
  if [ "$2" != "$3" ]; then echo "status: $1: got '${2:0:200}', wanted '$3'"; failed=$((failed + 1)); fi
}
# place FOLDER: both wrappers in it
place() { mkdir -p "$1" && cp tools/schedule-status tools/soak-status "$1"; }
place "$there/bin"
cp "$(runnable target/bin/schedule)" "$there/bin/schedule"
cp "$(runnable target/bin/soak)" "$there/bin/soak"
schedule() { timeout 60 "$there/bin/schedule-status" "$@"; }
soak() { timeout 60 "$there/bin/soak-status" "$@"; }

schedule < tests/listing.in > "$there/answers"
says "the listing" "$?" 0
cmp -s "$there/answers" tests/listing.out || says "the listing's answers" differ same
printf '\nzz\n080000\n' | schedule > /dev/null
says "frames that are refused" "$?" 0
says "an input that cannot be read" "$(schedule < . 2>&1; echo $?)" "schedule: standard input cannot be read"$'\n'1
schedule < tests/listing.in > /dev/full 2> "$there/said"
says "a full disk" "$? $(cat "$there/said")" "1 schedule: standard output cannot be written"
schedule < tests/listing.in 2> /dev/null >&-
says "a closed output" "$?" 1
schedule <&- > /dev/null 2>&1
says "a closed input" "$?" 1
schedule --help < tests/listing.in > "$there/answers" 2> "$there/said"
says "an argument that schedule refuses" "$? $(cat "$there/answers" "$there/said" | head -n 1)" "1 usage: schedule < FRAMES > ANSWERS"
says "nobody reads on" "$({ yes 080000 | { schedule; echo $? >&2; } | head -n 1 > /dev/null; } 2>&1)" 141

soak 3 1000 > "$there/report"
says "a run of soak" "$?" 0
"$there/bin/soak" 3 1000 | cmp -s - "$there/report" || says "soak's report" differ same
soak --help > "$there/said"
says "soak's help" "$? $(head -n 1 "$there/said")" "0 usage: soak [SEED [ROUNDS]]"
soak abc 2> "$there/said"
says "an argument that soak refuses" "$? $(head -n 1 "$there/said")" "1 usage: soak [SEED [ROUNDS]]"
soak 3 1000 > /dev/full 2> /dev/null
says "soak on a full disk" "$?" 1
soak 3 1000 2> /dev/null >&-
says "soak and a closed output" "$?" 1
# the reader is gone before the report comes
says "soak, and nobody reads on" "$({ { sleep 0.3; soak 3 1000; echo $? >&2; } | true; } 2>&1)" 141

# Programs that do what the proved ones do not, or do not yet: PREFIXschedule and PREFIXsoak, run by PREFIXschedule-status and PREFIXsoak-status.
stub() { # WRAPPER WANTED TEXT WANTED-OUTPUT: the wrapper's program is a script of this text
  printf '#!/bin/sh\n%s\n' "$3" > "$there/bin/our-$1"
  chmod +x "$there/bin/our-$1"
  cp "tools/$1-status" "$there/bin/our-$1-status"
  says "$1: $3" "$("$there/bin/our-$1-status" 7 2> "$there/said"; echo "$?")" "$4${4:+$'\n'}$2"
}
report=$'answers that differ: 0\nend of the report'
stub schedule 0 "echo \$1" 7
stub schedule 143 "kill -TERM \$\$" ''
stub soak 0 "echo '$report'" "$report"
stub soak 0 "echo soak: calls left 5 >&2; echo '$report'" "$report"
says "soak's progress" "$(cat "$there/said")" "soak: calls left 5"
stub soak 1 "echo 'answers that differ: 10'; echo end of the report" $'answers that differ: 10\nend of the report'
stub soak 1 "echo 'answers that differ: 0'" "answers that differ: 0"
stub soak 1 "echo '$report'; echo more" "$report"$'\n'more
stub soak 143 "kill -TERM \$\$" ''

# Where the program is looked for: beside the wrapper, also by a link to it; in PATH; nowhere.
ln -s "$there/bin/schedule-status" "$there/link"
"$there/link" < tests/listing.in | cmp -s - tests/listing.out || says "by a link" differ same
place "$there/alone"
says "in PATH" "$(PATH=$there/bin:$PATH "$there/alone/schedule-status" < tests/listing.in | tail -n 1)" "$(tail -n 1 tests/listing.out)"
says "schedule nowhere" "$(PATH=/usr/bin:/bin "$there/alone/schedule-status" < /dev/null 2> /dev/null; echo $?)" 127
says "soak nowhere" "$(PATH=/usr/bin:/bin "$there/alone/soak-status" 2> /dev/null; echo $?)" 127

if [ "$failed" = 0 ]; then echo "status: all passed"; else echo "status: $failed failed"; exit 1; fi
