#!/bin/sh
# Runs two inspection plans over the 5-point grid, by one thread and by several, by turns with a C program
# that walks the same arrays, and prints the least milliseconds of each and their ratios. Without a C
# compiler the comparison is skipped.
#
# usage: bench/inspect.sh [SIDE [TURNS]]      (1000 5)
# Ends with 1 where the numbers of pairs differ.
set -eu
cd "$(dirname "$0")/.."
side=${1:-1000}
turns=${2:-5}
here=$(pwd)
work=$(mktemp -d)
trap 'rm -rf "$work"' EXIT
proved=$here/crates/bench_inspect/out/bench_inspect
if [ ! -x "$proved" ]; then
    # built, and then run without words, which it refuses
    (cd crates/bench_inspect && rt run >"$work/built" 2>&1) || true
    [ -x "$proved" ] || { cat "$work/built" >&2; exit 1; }
fi
compiler=
for name in "${CC:-}" cc gcc clang; do
    if [ -n "$name" ] && command -v "$name" >/dev/null 2>&1; then compiler=$name; break; fi
done
[ -z "$compiler" ] || "$compiler" -O2 -o "$work/inspect_c" bench/inspect.c
took() { sed -n "s/^$1 //p" "$2"; }
least() { if [ -z "$1" ] || [ "$2" -lt "$1" ]; then echo "$2"; else echo "$1"; fi; }

for plan in columns values; do
    best_pairs='' best_split='' best_c='' turn=0
    while [ "$turn" -lt "$turns" ]; do
        "$proved" "$plan" "$side" 1 >"$work/one" 2>"$work/time"
        best_pairs=$(least "$best_pairs" "$(took pairs "$work/time")")
        best_split=$(least "$best_split" "$(took pairs_split "$work/time")")
        if [ -n "$compiler" ]; then
            "$work/inspect_c" "$plan" "$side" 1 >"$work/other" 2>"$work/time"
            best_c=$(least "$best_c" "$(took pairs "$work/time")")
            cmp -s "$work/one" "$work/other" || { echo "inspect.sh: the two answers of $plan differ" >&2; exit 1; }
        fi
        turn=$((turn + 1))
    done
    echo "$plan, grid of side $side"
    cat "$work/one"
    awk -v p="$best_pairs" -v s="$best_split" 'BEGIN { printf "pairs %d ms, pairs_split %d ms, ratio %.2f\n", p / 1000000, s / 1000000, p / s }'
    if [ -n "$best_c" ]; then
        awk -v p="$best_pairs" -v c="$best_c" 'BEGIN { printf "C %d ms, pairs to C %.2f\n", c / 1000000, p / c }'
    else
        echo "no C compiler: the comparison is skipped"
    fi
done
