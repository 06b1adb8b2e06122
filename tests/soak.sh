#!/usr/bin/env bash
# soak's arguments: an odd one is answered with the usage on standard error and nothing runs; -h and --help print it; good ones run as they say.
# usage: tests/soak.sh [PROGRAM]
cd "$(dirname "$0")/.." || exit 2
. host/machine.sh
[ "$#" -gt 0 ] || bash host/programs.sh soak || exit 1
program=${1:-$(runnable target/bin/soak)}
failed=0
usage='usage: soak [SEED [ROUNDS]]'
says() { # WHAT GOT WANTED
  if [ "$2" != "$3" ]; then echo "soak: $1: got '${2:0:200}', wanted '$3'"; failed=$((failed + 1)); fi
}
long=$(head -c 5000 /dev/zero | tr '\0' '1')
refused() { # ARGUMENTS: nothing on standard output, the usage on standard error
  says "$*, standard output" "$(timeout 60 "$program" "$@" 2> /dev/null | head -n 1)" ""
  says "$*, standard error" "$(timeout 60 "$program" "$@" 2>&1 > /dev/null | head -n 1)" "$usage"
}
helped() { # ARGUMENTS: the other way round
  says "$*, standard output" "$(timeout 60 "$program" "$@" 2> /dev/null | head -n 1)" "$usage"
  says "$*, standard error" "$(timeout 60 "$program" "$@" 2>&1 > /dev/null | head -n 1)" ""
}
runs() { # SEED ROUNDS ARGUMENTS
  says "${*:3}" "$(timeout 60 "$program" "${@:3}" 2>&1 | sed -n '1,2p;$p' | tr '\n' ' ')" "seed: $1 rounds: $2 end of the report "
}

for odd in abc -1 +1 1e3 0x10 ' 1' '1 ' '' 1. 4294967296 99999999999999999999 18446744073709551616 -- --helpme --hel -H / : "$long"; do
  refused "$odd"
  refused 1 "$odd$odd$odd$odd"
done
refused 1 abc
refused 0 1000000000001
refused 0 10000000000000000000000
refused 1 2 3
refused 1 2 ''
for help in -h --help; do helped $help; helped 1 $help; helped $help abc; done
runs 0 0 0 0
runs 7 10 007 10
runs 4294967295 100 4294967295 00000000000000000000000100
if [ "$failed" = 0 ]; then echo "soak: all passed"; else echo "soak: $failed failed"; exit 1; fi
