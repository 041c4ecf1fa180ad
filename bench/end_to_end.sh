#!/bin/sh
# Runs and plans forward substitution with division from files to printed text, by turns with `wave` and with
# a C program of the same work: `run` with one worker and with 4, `plan` with 4 and with 64. The matrices are
# 5-point grids of SIDE * SIDE points and of a side of three tenths of SIDE; ROWS rows that each depend on
# seven drawn earlier ones, with their entries in the order of rows and shuffled; a stripe, an arrow and a
# diagonal of ROWS rows; and a full lower triangle of FULL rows. Compares what they print byte for byte, and
# prints the medians of processor time, of time and of peak memory, and their ratios. Then it prints how long
# `wave` takes to read and analyse a loop, without a matrix and with one of three rows.
#
# usage: bench/end_to_end.sh [PROGRAM [TURNS [SIDE [ROWS [FULL]]]]]
# PROGRAM is the built program (crates/wave/out/wave), TURNS at least 1 (3), SIDE 1 to 1024 (1000), ROWS 1 to
# 1048576 (1048576), FULL 1 to 4095 (1000). It needs a C compiler and Python 3.9, 700 MB of room for files in
# TMPDIR, and 1 GB of memory. Ends with 1 where a program fails or the outputs differ, never for being slow.
set -eu
top=$(CDPATH='' cd -- "$(dirname -- "$0")/.." && pwd -P)
program=${1:-$top/crates/wave/out/wave}
turns=${2:-3}
side=${3:-1000}
rows=${4:-1048576}
full=${5:-1000}
fail() {
    echo "end_to_end.sh: $1" >&2
    exit 1
}
case $program in
/*) ;;
*) program=$(pwd -P)/$program ;;
esac
[ -x "$program" ] || fail "there is no program at $program"
[ "$turns" -ge 1 ] || fail "no turn"
compiler=
for name in "${CC:-}" cc gcc clang; do
    if [ -n "$name" ] && command -v "$name" >/dev/null 2>&1; then
        compiler=$name
        break
    fi
done
[ -n "$compiler" ] || fail "there is no C compiler"
work=$(mktemp -d)
trap 'rm -rf "$work"' EXIT
"$compiler" -O2 -o "$work/end_to_end_c" "$top/bench/end_to_end.c" "$top/bench/forward.c" "$top/bench/schedule.c"
bench="$top/bench/end_to_end.py"
python3 "$bench" make "$work" "$side" "$rows" "$full"
status=0
python3 "$bench" turns "$work" "$turns" "$top" "$program" "$work/end_to_end_c" || status=$?
python3 "$bench" loops "$work" 11 "$top" "$program"
exit "$status"
