#!/bin/sh
# Runs a loop by the walk and by a direct runner, by turns, and prints the ratio of their times.
#
# usage: bench/loop.sh [ROWS [ROUNDS [TURNS]]]
# The program is built by `rt run` in crates/bench_loop. Of each body the least time counts.
set -eu
cd "$(dirname "$0")/../crates/bench_loop"
rows=${1:-200000}
rounds=${2:-5}
turns=${3:-9}
program=out/bench_loop
[ -x "$program" ] || rt run > /dev/null || [ -x "$program" ]

nanoseconds() {
    "$program" "$1" "$rows" "$rounds" 2>&1 > /dev/null | sed -n 's/^nanoseconds //p'
}

turn=0
while [ "$turn" -lt "$turns" ]; do
    printf 'walk %s\ndirect %s\n' "$(nanoseconds walk)" "$(nanoseconds direct)"
    turn=$((turn + 1))
done | awk '
    !($1 in least) || $2 < least[$1] { least[$1] = $2 }
    END {
        printf "walk %d ns, direct %d ns, ratio %.3f\n", least["walk"], least["direct"], least["walk"] / least["direct"]
    }
'
