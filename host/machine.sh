# shellcheck shell=bash
# Sourced, from the repository's root: how the host's programs are built and run on this machine. The archive and the programs of the kit are for x86-64. On
# another machine (the kit also proves on Arm) the host's are built by a C compiler for x86-64, and all are run under the emulator that the kit has there.
machine=$(uname -m 2> /dev/null || echo x86_64)   # without uname, `needs` below ends the script
if [ "$machine" = x86_64 ]; then
  native=yes
  compiler=${CC:-gcc}
else
  native=no
  compiler=${CC:-x86_64-linux-gnu-gcc}
  if kit=$(command -v rt); then toolchain=${RATTLE_HOME:-$(dirname "$(dirname "$(readlink -f "$kit")")")}/on/$machine/toolchain; fi
fi

# what_to_install PROGRAM: prints where it comes from
what_to_install() {
  case $1 in
  rt) echo "the Rattle kit, its folder bin on PATH" ;;
  x86_64-linux-gnu-gcc) echo "a C compiler for x86-64; Debian: apt-get install gcc-x86-64-linux-gnu libc6-dev-amd64-cross; or CC=.." ;;
  "$compiler") echo "a C compiler; Debian: apt-get install gcc libc6-dev; or CC=.." ;;
  bash | python3 | sed) echo "Debian: apt-get install $1" ;;
  find) echo "Debian: apt-get install findutils" ;;
  cmp) echo "Debian: apt-get install diffutils" ;;
  *) echo "Debian: apt-get install coreutils" ;;
  esac
}

# needs PROGRAM..: where one is missing, ends the script with one line that names it and what to install. Called before a script does anything;
# it uses no program itself.
needs() {
  local program missing=
  for program in "$@"; do
    command -v "$program" > /dev/null || missing="$missing${missing:+; }$program ($(what_to_install "$program"))"
  done
  if [ -z "$missing" ]; then return; fi
  echo "missing: $missing. Nothing was done." >&2
  exit 1
}

# wants_packages PACKAGE..: says how to get Debian's packages, and fails. Nothing is installed unasked: only INSTALL_MISSING=yes has it install them, as root.
wants_packages() {
  local install="apt-get install -y --no-install-recommends $*"
  if [ "${INSTALL_MISSING:-}" != yes ]; then
    echo "missing: Debian's $* ('$install', as root, installs them; INSTALL_MISSING=yes has it done here)"
    return 1
  fi
  DEBIAN_FRONTEND=noninteractive timeout 300 sh -c "$install || { apt-get update && $install; }" > /dev/null
}

# Says what is missing, and fails, where there is no compiler for x86-64.
has_compiler() {
  command -v "$compiler" > /dev/null && return
  echo "there is no $compiler here ($(what_to_install "$compiler"))"
  return 1
}

# needs_compiler WHAT: ends a test of WHAT where there is none: as failed, or on another machine, where it may be had no more easily, as not tested
needs_compiler() {
  has_compiler && return
  if [ "$native" = yes ]; then exit 1; fi
  echo "not tested: $1"
  exit 0
}

# wrap FILE COMMAND..: writes FILE, which runs the command with its arguments; at once, since another may be running it
wrap() {
  { echo '#!/bin/sh'; printf 'exec'; printf " '%s'" "${@:2}"; echo ' "$@"'; } > "$1.$$"
  chmod +x "$1.$$"
  mv "$1.$$" "$1"
}

# compile_to FILE ARGUMENTS..: builds FILE for x86-64; elsewhere FILE runs FILE.x86-64 under the emulator
compile_to() {
  if [ "$native" = yes ]; then "$compiler" "${@:2}" -o "$1"; return; fi
  "$compiler" "${@:2}" -static -o "$1.x86-64" && wrap "$1" "$toolchain/bin/qemu-x86_64" "$(readlink -f "$1.x86-64")"
}

# runnable PROGRAM: prints what runs a program of the kit here: itself, or a file that runs it under the emulator
runnable() {
  if [ "$native" = yes ]; then echo "$1"; return; fi
  mkdir -p target/emulated
  wrap "target/emulated/${1##*/}" "$toolchain/bin/qemu-x86_64" "$toolchain/lib/ld-linux-x86-64.so.2" --library-path "$toolchain/lib" "$(readlink -f "$1")"
  echo "target/emulated/${1##*/}"
}
