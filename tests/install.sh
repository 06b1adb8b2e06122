#!/usr/bin/env bash
# The package: installed into a fresh folder, and every example built from what stands there alone, by pkg-config where it is; then by a relative
# PREFIX, which is of the caller's folder, with characters that sed would take for its own; below a DESTDIR; with LIBDIR, with a prefix for the
# programs' names, with the shared library. Each time uninstalled: what stood there before, and nothing else, is left.
set -eu
cd "$(dirname "$0")/.."
. host/machine.sh
needs_compiler "the package"
there=$(mktemp -d)
trap 'rm -rf "$there"' EXIT
repository=$PWD
fail() { echo "install: $1"; exit 1; }
version=$(sed -n 's/^#define GORAVESHA_VERSION "\([0-9.]*\)"$/\1/p' include/goravesha.h)
[ -n "$version" ] || fail "the header has no version"

installs() { # FOLDER PREFIX [LIBDIR [PROGRAM_PREFIX]]: all stands in FOLDER, and the pkg-config file says PREFIX and LIBDIR
  local folder=$1 libdir=${3:-lib} before=${4:-} program
  for file in include/goravesha.h include/goravesha_record.h "$libdir/libgoravesha.a" "$libdir/pkgconfig/goravesha.pc" share/doc/goravesha/README.md \
    share/doc/goravesha/docs/FIELDS.md share/goravesha/examples/example.c share/goravesha/tools/timeline.py share/goravesha/tools/explain.py share/goravesha/tools/dump.py share/goravesha/rust/Cargo.toml; do [ -f "$folder/$file" ] || fail "no $folder/$file"; done
  for line in "prefix=$2" "libdir=\${prefix}/$libdir" "Version: $version"; do
    grep -qxF "$line" "$folder/$libdir/pkgconfig/goravesha.pc" || fail "$folder/$libdir/pkgconfig/goravesha.pc does not say $line"
  done
  for program in schedule soak; do
    if [ -f "target/bin/$program" ]; then
      cmp "target/bin/$program" "$folder/bin/$before$program" || fail "no $folder/bin/$before$program"
      cmp "tools/$program-status" "$folder/bin/$before$program-status" || fail "no $folder/bin/$before$program-status"
    fi
    # a man page stands there exactly where its program does
    if [ -f "$folder/bin/$before$program" ]; then [ -f "$folder/share/man/man1/$before$program.1" ] || fail "no page of $program"
    elif [ -f "$folder/share/man/man1/$before$program.1" ]; then fail "a page of $program without the program"; fi
  done
}
flags_of() { # FOLDER LIBDIR: how to build against what is installed there
  if command -v pkg-config > /dev/null; then PKG_CONFIG_PATH="$1/$2/pkgconfig" pkg-config --cflags --libs goravesha
  else echo "-I$1/include -L$1/$2 -lgoravesha"; fi
}
examples_run() { # FOLDER LIBDIR: each is built in a folder of its own from the installed files, and run
  local example
  for example in "$1"/share/goravesha/examples/*.c; do
    # shellcheck disable=SC2046
    (cd "$there/empty" && compile_to example -std=c11 -O2 -Wall -Wextra -Werror -pthread "$example" $(flags_of "$1" "$2") && LD_LIBRARY_PATH="$1/$2" ./example > /dev/null) || fail "$example"
  done
}
files_in() { (cd "$1" && find . | LC_ALL=C sort); }
mkdir "$there/empty"

# As said, in a folder where others have files too.
mkdir -p "$there/plain/bin" "$there/plain/lib"
touch "$there/plain/bin/other" "$there/plain/lib/libother.a"
before=$(files_in "$there/plain")
bash host/install.sh "$there/plain" > /dev/null
touch "$there/plain/include/other.h"   # into a folder that was made for ours
installs "$there/plain" "$there/plain"
examples_run "$there/plain" lib
# The header alone, as C and as C++.
echo '#include <goravesha.h>' | "$compiler" -std=c11 -Wall -Wextra -Wpedantic -Werror -I"$there/plain/include" -x c -c - -o /dev/null
if command -v g++ > /dev/null; then echo '#include <goravesha.h>' | g++ -Wall -Wextra -Wpedantic -Werror -I"$there/plain/include" -x c++ -c - -o /dev/null; fi
# The wrapper for Rust, and a tool, each from where it stands.
if [ "$native" = yes ] && command -v cargo > /dev/null; then
  (cd "$there/plain/share/goravesha/rust" && GORAVESHA_LIB_DIR=$there/plain/lib GORAVESHA_LIB=goravesha cargo build --lib --examples --quiet --offline --target-dir "$there/cargo") || fail "the Rust wrapper"
fi
(cd "$there/empty" && python3 "$there/plain/share/goravesha/tools/timeline.py" < "$repository/tests/listing.in" > listing.svg && grep -q '</svg>' listing.svg) || fail "the timeline"
# Once more, now with the shared library and then without: the list keeps it, so all is removed.
bash host/install.sh --shared "$there/plain" > /dev/null
major=${version%%.*}
readelf=$("$compiler" -print-prog-name=readelf)
"$readelf" -d "$there/plain/lib/libgoravesha.so" | grep -qF "soname: [libgoravesha.so.$major]" || fail "not the soname libgoravesha.so.$major"
if [ "$native" = yes ]; then
  examples_run "$there/plain" lib
  example=$there/plain/share/goravesha/examples/example.py
  if [ -f "$example" ]; then python3 -B "$example" "$there/plain/lib/libgoravesha.so" > /dev/null || fail "$example"; fi
  "$readelf" -d "$there/empty/example" | grep -qF "[libgoravesha.so.$major]" || fail "the example was not linked to the shared library"
fi
bash host/install.sh "$there/plain" > /dev/null
bash host/install.sh --uninstall "$there/plain" > /dev/null
[ -f "$there/plain/include/other.h" ] || fail "another's header is gone"
rm -r "$there/plain/include"
[ "$(files_in "$there/plain")" = "$before" ] || fail "after uninstalling there stands: $(files_in "$there/plain")"
if bash host/install.sh --uninstall "$there/plain" > /dev/null 2>&1; then fail "uninstalled what was not installed"; fi

# A relative PREFIX, and the uninstaller that was installed.
(cd "$there" && bash "$repository/host/install.sh" 'empty/../a,b&c' > /dev/null)
installs "$there/a,b&c" "$there/a,b&c"
[ ! -e 'a,b&c' ] || fail "a relative PREFIX lands in the repository"
mv "$there/a,b&c" "$there/moved"
if bash "$there/moved/share/goravesha/uninstall.sh" 2> /dev/null; then fail "uninstalled what was moved by a list of other places"; fi
mv "$there/moved" "$there/a,b&c"
(cd "$there" && bash 'a,b&c/share/goravesha/uninstall.sh' > /dev/null)
[ ! -e "$there/a,b&c" ] || fail "after uninstalling there stands: $(files_in "$there/a,b&c")"

# Below a DESTDIR.
(cd "$there" && DESTDIR=staged bash "$repository/host/install.sh" "$there/later" > /dev/null)
[ ! -e "$there/later" ] || fail "DESTDIR is not kept to"
installs "$there/staged$there/later" "$there/later"
DESTDIR=$there/staged bash host/install.sh --uninstall "$there/later" > /dev/null
[ "$(files_in "$there/staged")" = . ] || fail "below DESTDIR there stands: $(files_in "$there/staged")"

# LIBDIR and a prefix for the programs' names.
LIBDIR=lib/x86_64-linux-gnu PROGRAM_PREFIX=goravesha- bash host/install.sh "$there/named" > /dev/null
installs "$there/named" "$there/named" lib/x86_64-linux-gnu goravesha-
[ ! -e "$there/named/bin/schedule" ] || fail "a program without its prefix"
examples_run "$there/named" lib/x86_64-linux-gnu
LIBDIR=$there/apart bash host/install.sh "$there/named" > /dev/null
grep -qxF "libdir=$there/apart" "$there/apart/pkgconfig/goravesha.pc" || fail "a LIBDIR elsewhere is not in the pkg-config file"
bash host/install.sh --uninstall "$there/named" > /dev/null
if [ -e "$there/named" ] || [ -e "$there/apart" ]; then fail "LIBDIR: not all was removed"; fi

# A program, a wrapper or a page of that name that is none of ours stays, and nothing is installed.
if [ -f target/bin/schedule ]; then
  for other in bin/schedule bin/schedule-status share/man/man1/schedule.1; do
    rm -rf "$there/taken"
    mkdir -p "$there/taken/${other%/*}"
    echo other > "$there/taken/$other"
    if bash host/install.sh "$there/taken" > /dev/null 2>&1; then fail "another's $other was written over"; fi
    [ "$(cd "$there/taken" && find . -type f)" = "./$other" ] || fail "beside another's $other there stands: $(files_in "$there/taken")"
  done
fi

# Help does nothing; an odd option neither, and has a status.
[[ $(PREFIX=$there/helped bash host/install.sh --help) == usage:* ]] || fail "--help says no usage"
if bash host/install.sh --odd "$there/helped" 2> /dev/null; then fail "an odd option is taken"; fi
[ ! -e "$there/helped" ] || fail "--help or an odd option installs"
grep -q "^## $version\b" docs/RELEASES.md || fail "docs/RELEASES.md has no $version"
echo "install: examples built from the installed package alone, by the archive and by the shared library; PREFIX, LIBDIR, DESTDIR, names kept to; uninstalling leaves nothing"
