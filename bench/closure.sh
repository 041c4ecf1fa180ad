#!/bin/sh
# Closes systems of two chains of loops, a contradictory one too, and prints the atoms, constraints
# and instances, what came out, and the least microseconds of TURNS for a closure with a certificate.
#
# usage: bench/closure.sh [TURNS [LEVELS ..]]
# Three levels are 33 atoms and about 2,000 instances, ten are 89 atoms and about 41,000.
# The program is built by `rt run` in crates/bench_close.
set -eu
cd "$(dirname "$0")/../crates/bench_close"
program=out/bench_close
[ -x "$program" ] || rt run > /dev/null || [ -x "$program" ]
turns=${1:-20}
[ $# -eq 0 ] || shift
[ $# -gt 0 ] || set -- 3 10
for levels in "$@"; do
    "$program" "$levels" "$turns"
done
