#!/bin/bash
# Builds the static libraries of these names, target/staticlib/lib*.a, where a file of crates/ or crates.txt is newer.
#   archive.sh NAME...
# NAME is a crate that is a static library, or farthingmoss: a crate that others build on is none, so its export to C
# is a crate of its own, farthingmoss_c.
set -euo pipefail
cd "$(dirname "$0")/.."

build() { # name
  local crate=$1 archive=target/staticlib/lib$1.a
  [ "$1" != farthingmoss ] || crate=farthingmoss_c
  touch "$archive.began" # so that what is edited meanwhile is newer
  (cd "crates/$crate" && rt lib --cpu x86-64) # for every processor of that kind: rt's own choice is younger
  cp "crates/$crate/out/lib$crate.a" "$archive.new"
  touch -r "$archive.began" "$archive.new"
  rm "$archive.began"
  mv "$archive.new" "$archive"
}

mkdir -p target/staticlib
for name in "$@"; do
  archive=target/staticlib/lib$name.a
  # crates/NAME itself is not looked at: it is touched wherever rt makes crates/NAME/out anew
  if [ ! -e "$archive" ] ||
    [ -n "$(find crates.txt crates/*/* -path 'crates/*/out' -prune -o -newer "$archive" -print -quit)" ]; then
    build "$name"
  fi
done
