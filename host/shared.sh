#!/usr/bin/env bash
# usage: bash host/shared.sh [FOLDER]: the proved archive as a shared library for x86-64, in FOLDER (target/shared unless said): libgoravesha.so.VERSION, with
# the header's version, soname libgoravesha.so.MAJOR, and the two links to it that loaders and linkers look for (inside this checkout, where rt ci refuses
# links, the same file under their names). Its last line is the library's name.
set -eu
folder=${1:-}
case $folder in ''|/*) ;; *) folder=$PWD/$folder ;; esac
cd "$(dirname "$0")/.."
folder=${folder:-$PWD/target/shared}
. host/machine.sh
has_compiler >&2
bash host/archive.sh
version=$(sed -n 's/^#define GORAVESHA_VERSION "\([0-9.]*\)"$/\1/p' include/goravesha.h)
major=${version%%.*}
mkdir -p "$folder"
library=$folder/libgoravesha.so.$version
# All of the archive, not only what is asked for; nothing may be missing but what libc has. At once, since another may be loading it.
"$compiler" -shared -Wl,-soname,"libgoravesha.so.$major" -Wl,-z,defs -Wl,--whole-archive target/staticlib/libcatalogue.a -Wl,--no-whole-archive -o "$library.$$"
mv "$library.$$" "$library"
if [[ $(realpath -m -- "$folder")/ == "$(pwd -P)"/* ]]; then
  for name in "libgoravesha.so.$major" libgoravesha.so; do ln -f "$library" "$folder/$name"; done
else
  ln -sfn "libgoravesha.so.$version" "$folder/libgoravesha.so.$major"
  ln -sfn "libgoravesha.so.$major" "$folder/libgoravesha.so"
fi
echo "$library"
