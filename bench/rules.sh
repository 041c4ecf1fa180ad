#!/bin/sh
# Times the universe and the instances of a system of 90 atoms and 44,376 instances, and prints the
# least time of ten turns in microseconds.
#
# usage: bench/rules.sh [TURNS]
# The program is built by `rt run` in crates/bench_rules.
set -eu
cd "$(dirname "$0")/../crates/bench_rules"
program=out/bench_rules
[ -x "$program" ] || rt run > /dev/null || [ -x "$program" ]
"$program" time "${1:-10}"
