#!/bin/sh
# Reads 5,000,000 entries by turns with the proved reader and with a C program, and prints both times and
# their ratio; then reads the largest files. Without a C compiler the comparison is skipped.
# Words: how many entries (5000000), how many turns (5). Ends with 1 where the ratio is above 1.5.
set -eu
cd "$(dirname "$0")/.."
entries=${1:-5000000}
turns=${2:-5}
here=$(pwd)
work=$(mktemp -d)
trap 'rm -rf "$work"' EXIT
(cd crates/bench_read && rt run >"$work/built" 2>&1) || { cat "$work/built" >&2; exit 1; }
proved=$here/crates/bench_read/out/bench_read
[ -x "$proved" ] || proved=$(find "$here/crates/bench_read/out" -type f -name bench_read -perm -u+x | head -n 1)
[ -n "$proved" ] || { echo "read.sh: the program wasn't built" >&2; exit 1; }
compiler=
for name in "${CC:-}" cc gcc clang; do
  if [ -n "$name" ] && command -v "$name" >/dev/null 2>&1; then compiler=$name; break; fi
done
field() { awk -v name="$1" '$1 == name { print $2 }' "$2"; }
least() { if [ -z "$1" ] || [ "$2" -lt "$1" ]; then echo "$2"; else echo "$1"; fi; }
best_proved= best_c=
turn=0
while [ "$turn" -lt "$turns" ]; do
  "$proved" matrix "$entries" 1 >"$work/proved"
  best_proved=$(least "$best_proved" "$(field nanoseconds "$work/proved")")
  if [ -n "$compiler" ]; then
    [ -x "$work/read_c" ] || "$compiler" -O2 -o "$work/read_c" bench/read.c
    "$work/read_c" "$entries" 1 >"$work/c"
    [ "$(head -n 1 "$work/proved")" = "$(head -n 1 "$work/c")" ] || { echo "read.sh: the two readers differ" >&2; exit 1; }
    best_c=$(least "$best_c" "$(field nanoseconds "$work/c")")
  fi
  turn=$((turn + 1))
done
head -n 1 "$work/proved"
echo "proved $best_proved ns"
status=0
if [ -n "$compiler" ]; then
  echo "C ($compiler -O2) $best_c ns"
  awk -v p="$best_proved" -v c="$best_c" 'BEGIN { r = p / c; printf "ratio %.2f, at most 1.50\n", r; exit r > 1.5 }' || status=1
else
  echo "skipped: no C compiler"
fi
"$proved" limits
exit "$status"
