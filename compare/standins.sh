#!/bin/bash
# Compares the crate over our stand-ins for bitflags and itoa with the crate over the real ones.
#   standins.sh CRATE_SOURCE OUT LISTS VENDOR
# OUT has what build.sh made over the stand-ins; LISTS has *.txt, one symbol a line; VENDOR the real
# sources. A symbol too heavy for the crate in either build is left out.
set -euo pipefail
[ $# -eq 4 ] || { echo "usage: standins.sh CRATE_SOURCE OUT LISTS VENDOR" >&2; exit 2; }
here=$(dirname "$0")
crate=$1 out=$2 lists=$3 vendor=$4
flag_words=(0 0x1FFFFFF)
work=$out/standins
mkdir -p "$work"
rm -f "$work"/heavy.*
"$here/build.sh" "$crate" "$out/real" "$vendor"

LC_ALL=C sort -u "$lists"/*.txt > "$work/symbols"
for flags in "${flag_words[@]}"; do
  "$out/checked/oracle" "$flags" --guard 3 < "$work/symbols" > "$work/standin.$flags"
  "$out/real/checked/oracle" "$flags" --guard 3 < "$work/symbols" > "$work/real.$flags"
  paste -d '\n' "$work/standin.$flags" "$work/real.$flags" "$work/symbols" |
    LC_ALL=C awk 'NR % 3 == 1 { ours = $0 }
         NR % 3 == 2 { theirs = $0 }
         NR % 3 == 0 && (ours == "heavy" || theirs == "heavy") { print > heavy; next }
         NR % 3 == 0 && ours != theirs {
           print "stand-ins differ: " $0 "\n  " ours "\n  " theirs; different = 1
         }
         END { exit different }' heavy="$work/heavy.$flags"
done
touch "$work/heavy.none" # so that there is a file to read where no symbol is heavy
left_out=$(cat "$work"/heavy.* | LC_ALL=C sort -u | wc -l)
compared=$(($(wc -l < "$work/symbols") - left_out))
echo "stand-ins: $compared symbols x ${#flag_words[@]} flag words, same answers"
[ "$left_out" -eq 0 ] || echo "stand-ins: $left_out symbols too heavy for the crate, left out"
