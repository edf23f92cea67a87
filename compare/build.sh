#!/bin/bash
# Builds the crate and the oracle, with the crate's checks on and without them, by rustc alone.
#   build.sh CRATE_SOURCE OUT [VENDOR]
# CRATE_SOURCE has src/lib.rs, to which one function is appended (src/consumed.rs), nothing else.
# Into OUT/checked and OUT/unchecked go the libraries and `oracle`. Into OUT/mended goes the same, without checks, of a
# copy in which one line is another: the one rule of the writer that the product has and the crate has not (mend).
# Over the stand-ins of compare/standin/, or over the real bitflags and itoa in the folder VENDOR:
# then with the checks on only, since that build is what the stand-ins are compared by.
# The variable RUSTC has the compiler's words: rustc if it is not set.
set -euo pipefail
[ $# -ge 2 ] || { echo "usage: build.sh CRATE_SOURCE OUT [VENDOR]" >&2; exit 2; }
here=$(dirname "$0")
crate=$1/src/lib.rs
out=$2
read -ra rustc <<< "${RUSTC:-rustc}"
bitflags=$here/standin/bitflags.rs
itoa=$here/standin/itoa.rs
if [ $# -ge 3 ]; then
  bitflags=$(echo "$3"/bitflags-*/src/lib.rs)
  itoa=$(echo "$3"/itoa-*/src/lib.rs)
fi

# The metadata keeps the builds of a library apart in a program that links them all.
build() { # profile, the crate's source, rustc's flags
  local profile=$1 source=$2 dir=$out/$1
  shift 2
  mkdir -p "$dir"
  library() { # name, source
    "${rustc[@]}" --crate-name "$1" --crate-type rlib --edition 2021 --cap-lints allow \
      -C metadata="$profile" "${@:3}" -L "$dir" --out-dir "$dir" "$2"
  }
  library bitflags "$bitflags" "$@"
  library itoa "$itoa" "$@"
  cat "$source" "$here/src/consumed.rs" > "$dir/msvc_demangler.rs"
  library msvc_demangler "$dir/msvc_demangler.rs" "$@" \
    --extern bitflags="$dir/libbitflags.rlib" --extern itoa="$dir/libitoa.rlib"
  "${rustc[@]}" --crate-name oracle --edition 2021 -D warnings "$@" -L "$dir" \
    --extern msvc_demangler="$dir/libmsvc_demangler.rlib" -o "$dir/oracle" "$here/src/oracle.rs"
}
# M-106: in write_post RValueRef joins Ptr and Ref.
mend() {
  local arm='Type::Ptr(ref inner, _sc) | Type::Ref(ref inner, _sc)'
  if [ "$(grep -cF "$arm => {" "$crate")" != 1 ]; then
    echo "build.sh: there must be one line to mend in $crate, with '$arm'" >&2
    return 1
  fi
  sed "s/$arm => {/$arm | Type::RValueRef(ref inner, _sc) => {/" "$crate"
}
build checked "$crate" -C opt-level=2 -C debug-assertions=on -C overflow-checks=on &
if [ $# -lt 3 ]; then
  build unchecked "$crate" -C opt-level=3
  mend > "$out/mended.rs"
  build mended "$out/mended.rs" -C opt-level=3
fi
wait $! # fails where the build in the background did
