#!/bin/sh
# Times the workers of forward substitution with division alone, from the first of them to the last one's end,
# by turns with a C program whose workers go by the same plan and make the same sequentially consistent loads
# and stores. The shapes are those of bench/end_to_end.py: a 5-point grid of SIDE * SIDE points, ROWS rows
# that each depend on seven drawn earlier ones, a stripe, an arrow and a diagonal of ROWS rows. Compares the
# sums that they leave, and prints for 1, 2, 4 and 64 workers the least milliseconds of both, their ratio, and
# how many times faster than one worker that is.
#
# usage: bench/team.sh [TURNS [SIDE [ROWS]]]      (3 1000 1048576)
# It needs a C compiler and Python 3.9, and 500 MB of room for files in TMPDIR. Ends with 1 where the sums differ.
set -eu
cd "$(dirname "$0")/.."
turns=${1:-3}
side=${2:-1000}
rows=${3:-1048576}
here=$(pwd)
work=$(mktemp -d)
trap 'rm -rf "$work"' EXIT
proved=$here/crates/bench_team/out/bench_team
if [ ! -x "$proved" ]; then
    # built, and then run without words, which it refuses
    (cd crates/bench_team && rt run >"$work/built" 2>&1) || true
    [ -x "$proved" ] || { cat "$work/built" >&2; exit 1; }
fi
compiler=
for name in "${CC:-}" cc gcc clang; do
    if [ -n "$name" ] && command -v "$name" >/dev/null 2>&1; then compiler=$name; break; fi
done
[ -n "$compiler" ] || { echo "team.sh: there is no C compiler" >&2; exit 1; }
"$compiler" -O2 -pthread -o "$work/team_c" bench/team.c bench/forward.c bench/schedule.c
python3 bench/end_to_end.py make "$work" "$side" "$rows" 1
loop=examples/forward_divided/divided.loop

for shape in grid random stripe arrow diagonal; do
    one=''
    for workers in 1 2 4 64; do
        "$proved" "$turns" "$loop" "$work/$shape.mtx" "$workers" "$work/${shape}_b.mtx" >"$work/sum" 2>"$work/time"
        "$work/team_c" "$turns" "$work/$shape.mtx" "$workers" "$work/${shape}_b.mtx" >"$work/other_sum" 2>"$work/other_time"
        cmp -s "$work/sum" "$work/other_sum" || { echo "team.sh: the two sums of $shape differ" >&2; exit 1; }
        team=$(sed -n 's/^team //p' "$work/time")
        c=$(sed -n 's/^team //p' "$work/other_time")
        one=${one:-$team}
        awk -v s="$shape" -v w="$workers" -v t="$team" -v c="$c" -v one="$one" \
            'BEGIN { printf "%-9s %2d workers  wave %6d ms  C %6d ms  ratio %5.2f  to one worker %5.2f\n", s, w, t / 1000000, c / 1000000, t / c, one / t }'
    done
done
