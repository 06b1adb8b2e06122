#!/usr/bin/env bash
# usage: bash host/install.sh [--shared] [PREFIX], or --uninstall [PREFIX]; --help says all (host/package/usage.txt)
set -eu
root=$(cd "${0%"${0##*/}"}./.." && pwd)   # as by dirname, which may be missing
. "$root/host/machine.sh"
shared=no uninstall=no
while [ $# -gt 0 ]; do
  case $1 in
  -h | --help) printf '%s\n' "$(< "$root/host/package/usage.txt")"; exit ;;
  --shared) shared=yes ;;
  --uninstall) uninstall=yes ;;
  -*) echo "unknown: $1; bash host/install.sh --help says what there is" >&2; exit 2 ;;
  *) break ;;
  esac
  shift
done
if [ $# -gt 1 ]; then echo "one PREFIX, and options before it; bash host/install.sh --help says more" >&2; exit 2; fi

needed=(bash cmp find install ln realpath sed sort)
if [ "$shared" = yes ]; then needed=("$compiler" "${needed[@]}"); fi
if [ ! -f "$root/target/staticlib/libcatalogue.a" ] && [ "$uninstall" = no ]; then needed=(rt "${needed[@]}"); fi
needs "${needed[@]}"

absolute() { realpath -sm -- "$1"; }
prefix=$(absolute "${1:-${PREFIX:-/usr/local}}")
libdir=${LIBDIR:-lib}
case $libdir in /*) libdir=$(absolute "$libdir") ;; *) libdir=$(absolute "$prefix/$libdir") ;; esac
below=
if [ -n "${DESTDIR:-}" ]; then below=$(absolute "$DESTDIR"); fi
case $below$prefix$libdir in *$'\n'*) echo "a folder's name of more than one line" >&2; exit 2 ;; esac
prefix=${prefix%/} below=${below%/}   # of / alone nothing stays
share=$prefix/share/goravesha
kept=$below$share/installed.txt
cd "$root"

if [ "$uninstall" = yes ]; then
  if [ ! -f "$kept" ]; then echo "nothing is installed below $below$prefix/ (there is no $kept)" >&2; exit 1; fi
  exec "$BASH" "$below$share/uninstall.sh"
fi

# What an earlier install put there and this one may not: it stays in the list.
list=()
if [ -f "$kept" ]; then mapfile -t list < "$kept"; fi

folder() { # PLACE: made if need be, and then listed, with those above it
  if [ -d "$below$1" ]; then return; fi
  if [ -n "$1" ]; then folder "${1%/*}"; list+=("$1/"); fi
  install -d "$below$1"
}
put() { # MODE FILE PLACE
  folder "${3%/*}"
  install -m "$1" "$2" "$below$3"
  list+=("$3")
}
put_link() { # NAME PLACE
  folder "${2%/*}"
  ln -sfn "$1" "$below$2"
  list+=("$2")
}
put_all() { # FOLDER FILE..: those that are there
  local file
  for file in "${@:2}"; do if [ -f "$file" ]; then put 644 "$file" "$1/${file##*/}"; fi; done
}

programs=() missing=
for program in schedule soak; do
  if [ -f "target/bin/$program" ]; then programs+=("$program"); else missing="$missing $program"; fi
done
# What is there of the same name and none of ours is not written over: a program, its wrapper, its page.
ours() { # FILE PLACE
  if [ ! -e "$below$2" ] || cmp -s "$1" "$below$2" || [[ $'\n'$(printf '%s\n' "${list[@]}")$'\n' == *$'\n'"$2"$'\n'* ]]; then return; fi
  echo "there is another $below$2: nothing was installed. PROGRAM_PREFIX=goravesha- gives ours another name" >&2
  exit 1
}
for program in "${programs[@]}"; do
  name=${PROGRAM_PREFIX:-}$program
  ours "target/bin/$program" "$prefix/bin/$name"
  ours "tools/$program-status" "$prefix/bin/$name-status"
  ours "docs/man/$program.1" "$prefix/share/man/man1/$name.1"
done
if [ "$shared" = no ] && [ -e "$below$libdir/libgoravesha.so" ]; then
  echo "note: the shared library of an earlier install stays, and -lgoravesha takes it: --uninstall first, or --shared again"
fi

bash host/archive.sh
if [ "$shared" = yes ]; then bash host/shared.sh target/shared > /dev/null; fi
version=$(sed -n 's/^#define GORAVESHA_VERSION "\([0-9.]*\)"$/\1/p' include/goravesha.h)
put_all "$prefix/include" include/*.h
put 644 target/staticlib/libcatalogue.a "$libdir/libgoravesha.a"
if [ "$shared" = yes ]; then
  put 755 "target/shared/libgoravesha.so.$version" "$libdir/libgoravesha.so.$version"
  put_link "libgoravesha.so.$version" "$libdir/libgoravesha.so.${version%%.*}"
  put_link "libgoravesha.so.${version%%.*}" "$libdir/libgoravesha.so"
fi

# The pkg-config file; quoted, so that a folder's name may hold any character.
said_libdir=$libdir
case $libdir in "$prefix"/*) said_libdir="\${prefix}${libdir#"$prefix"}" ;; esac
text=$(< host/package/goravesha.pc.in)
text=${text//@PREFIX@/"${prefix:-/}"} text=${text//@LIBDIR@/"$said_libdir"} text=${text//@VERSION@/"$version"}
folder "$libdir/pkgconfig"
printf '%s\n' "$text" > "$below$libdir/pkgconfig/goravesha.pc"
list+=("$libdir/pkgconfig/goravesha.pc")

for program in "${programs[@]}"; do
  put 755 "target/bin/$program" "$prefix/bin/${PROGRAM_PREFIX:-}$program"
  put 644 "docs/man/$program.1" "$prefix/share/man/man1/${PROGRAM_PREFIX:-}$program.1"
  if [ -f "tools/$program-status" ]; then put 755 "tools/$program-status" "$prefix/bin/${PROGRAM_PREFIX:-}$program-status"; fi
done
put_all "$prefix/share/doc/goravesha" README.md
put_all "$prefix/share/doc/goravesha/docs" docs/*
put_all "$prefix/share/doc/goravesha/docs/landings" docs/landings/*
put_all "$share/examples" host/example* host/python/example*
for file in tools/*.py tools/*.html; do
  # put_edit.py is the gate's own, and the other two brought the repository to a newer Rattle
  case $file in tools/put_edit.py | tools/respell_names.py | tools/theorems_to_proofs.py) ;; *) put_all "$share/tools" "$file" ;; esac
done
# the wrapper without its tests, which are of this repository
while IFS= read -r file; do put 644 "$file" "$share/rust/${file#host/rust/}"; done < <(find host/rust \( -name target -o -name tests \) -prune -o -type f -print)
put 644 host/package/uninstall.sh "$share/uninstall.sh"
list+=("$share/installed.txt")
printf '%s\n' "${list[@]}" | LC_ALL=C sort -u > "$kept"

if [ -n "$missing" ]; then echo "not built, so neither installed nor its man page:$missing ('bash host/programs.sh$missing' proves and builds)"; fi
if [ "$shared" = yes ]; then echo "run ldconfig, or set LD_LIBRARY_PATH, where the loader does not look into $libdir"; fi
echo "installed below $below$prefix/; 'bash $below$share/uninstall.sh' removes it again"
