#!/bin/sh
# Checks the properties of forward substitution over the 5-point grid, by turns with the proved check and
# with a C program of the same passes, and prints the least time of each and their ratio. Then it checks
# segments that overlap (2^20 of them over 2^23 entries, of which every second holds all) and lists of
# distinct entries, and prints the least milliseconds. Without a C compiler the comparison is skipped.
#
# usage: bench/properties.sh [SIDE [TURNS]]      (1000 5)
# Ends with 1 where the ratio is above 4 or a time is above its bar, or where one doesn't pass.
set -eu
cd "$(dirname "$0")/.."
side=${1:-1000}
turns=${2:-5}
here=$(pwd)
work=$(mktemp -d)
trap 'rm -rf "$work"' EXIT
proved=$here/crates/bench_check/out/bench_check
if [ ! -x "$proved" ]; then
    # built, and then run without words, which it refuses
    (cd crates/bench_check && rt run >"$work/built" 2>&1) || true
    [ -x "$proved" ] || { cat "$work/built" >&2; exit 1; }
fi
compiler=
for name in "${CC:-}" cc gcc clang; do
    if [ -n "$name" ] && command -v "$name" >/dev/null 2>&1; then compiler=$name; break; fi
done
[ -z "$compiler" ] || "$compiler" -O2 -o "$work/properties_c" bench/properties.c
took() { sed -n 's/^nanoseconds //p' "$1"; }
least() { if [ -z "$1" ] || [ "$2" -lt "$1" ]; then echo "$2"; else echo "$1"; fi; }

status=0
best_proved='' best_c='' turn=0
while [ "$turn" -lt "$turns" ]; do
    "$proved" grid "$side" 3 >"$work/one" 2>"$work/time"
    best_proved=$(least "$best_proved" "$(took "$work/time")")
    if [ -n "$compiler" ]; then
        "$work/properties_c" grid "$side" 3 >"$work/other" 2>"$work/time"
        best_c=$(least "$best_c" "$(took "$work/time")")
        cmp -s "$work/one" "$work/other" || { echo "properties.sh: the two answers differ" >&2; exit 1; }
    fi
    turn=$((turn + 1))
done
echo "grid of side $side"
cat "$work/one"
echo "proved $best_proved ns"
if [ -n "$best_c" ]; then
    awk -v p="$best_proved" -v c="$best_c" 'BEGIN { printf "C %d ns, ratio %.2f\n", c, p / c; exit p > 4 * c }' || status=1
else
    echo "no C compiler: the comparison is skipped"
fi

# a shape, its size, and the most milliseconds
bar() {
    "$proved" "$1" "$2" 3 >"$work/one" 2>"$work/time"
    grep -q '^passed$' "$work/one" || status=1
    took "$work/time" | awk -v what="$1 $2" -v most="$3" '{ printf "%s: %d ms, at most %d\n", what, $1 / 1000000, most; exit $1 > most * 1000000 }' || status=1
}
bar sorted 1048576 5000
bar below 1048576 5000
bar upto 1048576 5000
bar injective 1000000 150
bar injective 16777216 5000
exit "$status"
