#!/usr/bin/env bash
# The gate's own verdict: .ci/run calls rt ci with no names, and fails where that fails, where it doesn't say 'rt: ok', and where that line counts a
# must-fail edit that is bad. Tried on a copy without crates or tests, with a stand-in for rt.
set -eu
cd "$(dirname "$0")/.."
. tests/gate_copy.bash
# shellcheck disable=SC2016
stand_in rt "echo \"\$*\" >> '$there/called'; cat '$there/says'; exit \"\$STATUS\""
fail() { echo "gate: $1"; exit 1; }
gate() { # WHAT STATUS WANTED-STATUS WANTED-LAST-LINE: rt ci says what stands on standard input and ends with this status
  cat > "$there/says"
  : > "$there/called"
  ended=0
  PATH=$there/bin:$PATH STATUS=$2 bash "$there/.ci/run" > "$there/said" 2>&1 || ended=$?
  [ "$ended" -eq "$3" ] || fail "$1: status $ended"
  [ "$(tail -n 1 "$there/said")" = "$4" ] || fail "$1: the last line is $(tail -n 1 "$there/said")"
  [ "$(cat "$there/called")" = ci ] || fail "$1: it called rt with: $(cat "$there/called")"
}
ok='rt: ok; handles allowed: none; must-fail edits: 4 refused'
done_all='every proof and must-fail edit was done in this run'
printf '%s; %s\n6 passed, 0 failed\n' "$ok" "$done_all" | gate "all well" 0 0 '6 passed, 0 failed'
printf '%s, 1 of them only by a limit; %s\n6 passed, 0 failed\n' "$ok" "$done_all" | gate "one refused by a limit" 0 0 '6 passed, 0 failed'
printf '%s, 1 bad; %s\n6 passed, 0 failed\n' "$ok" "$done_all" | gate "a bad edit" 0 1 '6 passed, 1 failed'
printf '%s, 1 of them only by a limit, 12 bad; %s\n6 passed, 0 failed\n' "$ok" "$done_all" | gate "bad edits" 0 1 '6 passed, 1 failed'
printf 'rt: FAILED: steps\n5 passed, 1 failed\n' | gate "a crate that is not proved" 1 1 '5 passed, 1 failed'
printf '6 passed, 0 failed\n' | gate "status 1 alone" 1 1 '6 passed, 1 failed'
printf '6 passed, 0 failed\n' | gate "no 'rt: ok'" 0 1 '6 passed, 1 failed'
printf 'rt: the disk is full\n' | gate "no last line" 2 1 '0 passed, 1 failed'
echo "gate: it fails where rt ci fails, says no 'rt: ok' or counts a bad edit"
