# shellcheck shell=bash
# How to build and run a program for x86-64 on this machine; the product's archives are for x86-64. To be sourced:
#   . compare/x86_64.sh
#   x86_64_ready || echo "not run, because $x86_64_why"
# x86_64_ready finds the tools, and installs Debian's where they are absent, apt-get is there and the user is root. Then
#   $x86_64_cc, $x86_64_rustc   are the words of a C and a Rust compiler (to be split at spaces),
#   $x86_64_runner              is the emulator, and empty on an x86-64 machine,
#   x86_64_run PROGRAM WORDS    runs a program,
#   x86_64_run_small PROGRAM WORDS   runs it on a stack of $x86_64_small_stack KiB.
x86_64_cc='' x86_64_rustc='' x86_64_runner='' x86_64_why=''
x86_64_target=x86_64-unknown-linux-gnu
x86_64_small_stack=1024
x86_64_packages=(qemu-user gcc-x86-64-linux-gnu libc6-dev:amd64 rustc-web libstd-rust-web-dev:amd64)

x86_64_run() { $x86_64_runner "$@"; }
x86_64_run_small() {
  if [ -n "$x86_64_runner" ]; then
    "$x86_64_runner" -s "$((x86_64_small_stack << 10))" "$@"
  else
    (ulimit -s "$x86_64_small_stack" && "$@")
  fi
}

# The first of these compilers that has a standard library for x86-64.
x86_64_find_rustc() { # rustc, another one...
  local rustc library
  for rustc in "$@"; do
    library=$("$rustc" --print target-libdir --target "$x86_64_target" 2> /dev/null) || continue
    if compgen -G "$library/libstd-*.rlib" > /dev/null; then
      echo "$rustc"
      return
    fi
  done
  return 1
}

# What is absent, for messages; nothing if all is there.
x86_64_absent() {
  command -v qemu-x86_64 > /dev/null || echo "no qemu-x86_64"
  command -v x86_64-linux-gnu-gcc > /dev/null || echo "no x86_64-linux-gnu-gcc"
  [ -e /lib64/ld-linux-x86-64.so.2 ] || echo "no C library for x86-64"
  x86_64_find_rustc rustc /usr/bin/rustc > /dev/null || echo "no Rust compiler with a library for x86-64"
}

x86_64_install() {
  command -v apt-get > /dev/null && [ "$(id -u)" -eq 0 ] || return
  echo "x86-64: installing ${x86_64_packages[*]}" >&2
  {
    dpkg --add-architecture amd64 && timeout 120 apt-get update &&
      DEBIAN_FRONTEND=noninteractive timeout 300 apt-get install -y --no-install-recommends "${x86_64_packages[@]}"
  } > /dev/null 2>&1 || echo "x86-64: the packages could not be installed" >&2
}

x86_64_ready() {
  if [ "$(uname -m)" = x86_64 ]; then
    x86_64_cc=$(command -v gcc || command -v cc || command -v clang) || x86_64_why="this machine has no C compiler"
    x86_64_rustc=$(command -v rustc) || x86_64_why="this machine has no rustc"
    [ -z "$x86_64_why" ]
    return
  fi
  [ -z "$(x86_64_absent)" ] || x86_64_install
  local absent
  absent=$(x86_64_absent)
  if [ -n "$absent" ]; then
    x86_64_why="the product's archives are for x86-64 and this is $(uname -m), with ${absent//$'\n'/, }"
    return 1
  fi
  x86_64_runner=qemu-x86_64
  x86_64_cc=x86_64-linux-gnu-gcc
  x86_64_rustc="$(x86_64_find_rustc rustc /usr/bin/rustc) --target $x86_64_target -C linker=$x86_64_cc"
}
