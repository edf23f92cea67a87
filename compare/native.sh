#!/bin/bash
# Builds the product's library for this machine, target/native/MACHINE/libfarthingmoss.a, where a file of crates/ or
# crates.txt is newer: the archives of compare/archive.sh are for x86-64.
#   native.sh [MACHINE]
# MACHINE is a processor as uname -m names it, of those for which the toolchain compiles, x86_64 and aarch64: this
# machine's if it is not named. For x86_64 the library must be the archive, byte for byte.
set -euo pipefail
cd "$(dirname "$0")/.."
machine=${1:-$(uname -m)}
out=$PWD/target/native/$machine
library=$out/libfarthingmoss.a made=crates/farthingmoss_c/out/libfarthingmoss_c.a
oldest=() # for every processor of that kind, as the archive is
[ "$machine" != x86_64 ] || oldest=(--cpu x86-64)

if [ ! -e "$library" ] ||
  [ -n "$(find crates.txt crates/*/* -path 'crates/*/out' -prune -o -newer "$library" -print -quit)" ]; then
  compare/archive.sh farthingmoss
  mkdir -p "$out"
  touch "$out/began" # so that what is edited meanwhile is newer
  (cd crates/farthingmoss_c && rt lib --target "$machine-unknown-linux-gnu" "${oldest[@]}")
  [ "$machine" != x86_64 ] || cmp "$made" target/staticlib/libfarthingmoss.a
  touch -r "$out/began" "$made"
  rm "$out/began"
  mv "$made" "$library" # and so no archive for another processor is left where rt leaves that for x86-64
fi
echo "native.sh: $library is for $machine"
