#!/bin/sh
# Plans a million rows with four pairs each, by turns with the proved plan and with a C program: a chain, a
# grid of 1,999 levels and one wide level; then 1,048,576 rows that each depend on seven earlier ones, which
# are drawn. Prints what came out, the least milliseconds of each from the pairs to the schedule, their ratio,
# and the most memory held, where /usr/bin/time is there. The pairs alone take 32 MB. Without a C compiler the
# comparison is skipped.
#
# usage: bench/plan.sh [ROWS [WORKERS [TURNS [DRAWN]]]]      (1000000 4 3 1048576)
# Ends with 1 where the two plans differ or the proved one takes more than 3 seconds.
set -eu
cd "$(dirname "$0")/.."
rows=${1:-1000000}
workers=${2:-4}
turns=${3:-3}
drawn=${4:-1048576}
here=$(pwd)
work=$(mktemp -d)
trap 'rm -rf "$work"' EXIT
(cd crates/bench_plan && rt run >"$work/built" 2>&1) || { cat "$work/built" >&2; exit 1; }
proved=$here/crates/bench_plan/out/bench_plan
[ -x "$proved" ] || proved=$(find "$here/crates/bench_plan/out" -type f -name bench_plan -perm -u+x | head -n 1)
[ -n "$proved" ] || { echo "plan.sh: the program wasn't built" >&2; exit 1; }
compiler=
for name in "${CC:-}" cc gcc clang; do
    if [ -n "$name" ] && command -v "$name" >/dev/null 2>&1; then compiler=$name; break; fi
done
[ -z "$compiler" ] || "$compiler" -O2 -o "$work/plan_c" bench/plan.c bench/schedule.c
took() { awk '$1 == "milliseconds" { print $2 }' "$1"; }
least() { if [ -z "$1" ] || [ "$2" -lt "$1" ]; then echo "$2"; else echo "$1"; fi; }

status=0
for shape in chain grid wide random; do
    [ "$shape" != random ] || rows=$drawn
    best_proved= best_c= turn=0
    while [ "$turn" -lt "$turns" ]; do
        "$proved" "$shape" "$rows" 1000 "$workers" time >"$work/proved"
        best_proved=$(least "$best_proved" "$(took "$work/proved")")
        if [ -n "$compiler" ]; then
            "$work/plan_c" "$shape" "$rows" 1000 "$workers" time >"$work/c"
            best_c=$(least "$best_c" "$(took "$work/c")")
            head -n 3 "$work/proved" >"$work/one"
            head -n 3 "$work/c" >"$work/other"
            cmp -s "$work/one" "$work/other" || { echo "plan.sh: the two plans of $shape differ" >&2; exit 1; }
        fi
        turn=$((turn + 1))
    done
    echo "$shape"
    head -n 3 "$work/proved"
    echo "proved $best_proved ms"
    [ "$best_proved" -le 3000 ] || status=1
    [ -z "$best_c" ] || awk -v p="$best_proved" -v c="$best_c" 'BEGIN { printf "C %d ms, ratio %.2f\n", c, c ? p / c : 0 }'
    if [ -x /usr/bin/time ]; then
        /usr/bin/time -f 'kilobytes %M' "$proved" "$shape" "$rows" 1000 "$workers" 2>&1 >/dev/null
    fi
done
exit "$status"
