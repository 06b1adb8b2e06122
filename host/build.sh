#!/usr/bin/env bash
# usage: bash host/build.sh NAME [MORE..]: builds host/NAME.c, with host/MORE.c, against the proved archive, as target/host/NAME
set -eu
cd "${0%"${0##*/}"}./.."   # as by dirname, which may be missing
if [ $# -eq 0 ]; then echo "usage: bash host/build.sh NAME [MORE..]" >&2; exit 2; fi
. host/machine.sh
# rt proves the archive where there is none (host/archive.sh asks again where it is too old), and has the emulator for other machines
if [ "$native" = yes ] && [ -f target/staticlib/libcatalogue.a ]; then prover=(); else prover=(rt); fi
needs "${prover[@]}" "$compiler" bash cp find mkdir mv tee uname
if ! echo '#include <stdio.h>' | "$compiler" -E - > /dev/null 2>&1; then
  echo "missing: the C library's headers for $compiler (Debian: apt-get install libc6-dev, on Arm libc6-dev-amd64-cross). Nothing was done." >&2
  exit 1
fi
bash host/archive.sh
name=$1
mkdir -p target/host
sources=()
for source in "$@"; do sources+=("host/$source.c"); done
# shellcheck disable=SC2086
compile_to "target/host/$name" -std=gnu11 -O2 -Wall -Wextra -Werror -Iinclude ${CFLAGS:-} "${sources[@]}" target/staticlib/libcatalogue.a
