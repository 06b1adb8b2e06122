#!/usr/bin/env bash
# The header by itself: it is C99, C11, C++98 and C++17 without a warning; its own functions (host/header.c) give exact numbers, built as C and as C++;
# an answer's code that is ignored, an answer that is NULL and an answer that is not four numbers are refused by the compiler; its version is the package's.
set -eu
cd "$(dirname "$0")/.."
. host/machine.sh
needs_compiler "the header's functions"
bash host/archive.sh
there=$(mktemp -d)
trap 'rm -rf "$there"' EXIT
fail() { echo "header: $1"; exit 1; }
archive=target/staticlib/libcatalogue.a
warnings=(-O2 -Wall -Wextra -Wpedantic -Wsign-conversion -Wconversion -Wshadow -Werror)
plus=${CXX:-${compiler%gcc}g++}

# alone_by COMPILER LANGUAGE STANDARD..: the header alone, by each standard; as C++ without a cast of C, which some projects forbid
alone_by() {
  for standard in "${@:3}"; do
    flags=("${warnings[@]}")
    if [ "$2" = c++ ]; then flags+=(-Wold-style-cast); fi
    echo '#include <goravesha.h>' | "$1" -x "$2" "-std=$standard" "${flags[@]}" -Iinclude -c - -o /dev/null || fail "not $standard by $1"
  done
}
alone_by "$compiler" c c99 c11 gnu17
if command -v clang > /dev/null; then alone_by clang c c99 c11 gnu17; fi

compile_to "$there/header" -std=c11 "${warnings[@]}" -Iinclude host/header.c "$archive"
"$there/header" > "$there/said"
if [ "$native" = yes ]; then
  compile_to "$there/header-sanitized" -std=c11 -g -fsanitize=address,undefined -fno-sanitize-recover=all "${warnings[@]}" -Iinclude host/header.c "$archive"
  "$there/header-sanitized" > "$there/said-sanitized" || fail "wrong with sanitizers"
  cmp "$there/said" "$there/said-sanitized"
else
  echo "not tested: the header's functions with sanitizers, since this machine emulates x86-64"
fi
as="as C"
if command -v "$plus" > /dev/null; then
  alone_by "$plus" c++ c++98 c++17
  if command -v clang++ > /dev/null; then alone_by clang++ c++ c++98 c++17; fi
  compiler=$plus compile_to "$there/header-plus" -x c++ -std=c++11 "${warnings[@]}" -Iinclude host/header.c -x none "$archive"
  "$there/header-plus" > "$there/said-plus" || fail "wrong as C++"
  cmp "$there/said" "$there/said-plus"
  as="as C and as C++"
else
  echo "not tested: the header's functions as C++, since there is no $plus here"
fi

# refused_for MESSAGE WHAT FOLDER: the text on standard input, with the header of FOLDER, is refused with this message
refused_for() {
  if "$compiler" -x c -std=c11 "${warnings[@]}" -I"$3" -c - -o /dev/null 2> "$there/refused"; then fail "$2 is compiled"; fi
  grep -q "$1" "$there/refused" || { cat "$there/refused"; fail "$2 is refused for another reason"; }
}
mkdir "$there/five"
sed 's/uint64_t value, steps, stamped,/uint64_t value, steps, stamped, more,/' include/goravesha.h > "$there/five/goravesha.h"
echo '#include <goravesha.h>' | refused_for 'goravesha_answer_is_32_bytes' "an answer of five numbers" "$there/five"
# Each call with its last argument, the answer, at hand; then ignored, and then NULL.
calls=("make 1,1,1,1,1" "register 1,1" "start_vread 0,0" "start_vcas 0,0,1,2" "start_take_snapshot 0" "start_read_snapshot 0,0,0" "start_total 0,1,0" "step 0" "abandon 0" "finish 0")
for call in "${calls[@]}"; do
  begin="#include <goravesha.h>
uint32_t f(uint32_t *words, size_t count, goravesha_answer *answer); uint32_t f(uint32_t *words, size_t count, goravesha_answer *answer) {"
  name=goravesha_${call% *} arguments=words,count,${call#* }
  echo "$begin return $name($arguments, answer); }" | "$compiler" -x c -std=c11 "${warnings[@]}" -Iinclude -c - -o /dev/null || fail "$name is not compiled"
  echo "$begin $name($arguments, answer); return 0; }" | refused_for 'warn_unused_result' "$name with its code ignored" include
  echo "$begin if (answer) return 0; return $name($arguments, NULL); }" | refused_for 'nonnull' "$name with a NULL answer" include
done

version=$(sed -n 's/^#define GORAVESHA_VERSION "\(.*\)"$/\1/p' include/goravesha.h)
# the pkg-config file names the version, or leaves its place to what installs it
grep -qxE "Version: ($version|@VERSION@)" host/package/goravesha.pc.in || fail "the pkg-config file has another version than $version"
sed -n '/^\[package\]/,/^$/p' host/rust/Cargo.toml | grep -qx "version = \"$version\"" || fail "the Rust wrapper has another version than $version"
echo "header: its functions $as: $(cat "$there/said"); ${#calls[@]} calls refused by the compiler where the code is ignored or the answer is NULL; version $version"
