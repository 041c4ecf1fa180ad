#!/bin/sh
# Replays forward substitution with division over the 5-point grid of SIDE times SIDE points (at most 400): by
# whole rounds of the workers alone, and then in a drawn order of EVENTS events with rounds after it. A row has
# nine reads and writes, so the largest grid has 1.4 million. Prints the looks, the last word of x, and the least
# milliseconds of the start, in which scripts are unrolled, and of the replay.
#
# usage: bench/core.sh [SIDE [WORKERS [EVENTS [TURNS]]]]      (400 4 1400000 3)
set -eu
cd "$(dirname "$0")/.."
side=${1:-400}
workers=${2:-4}
events=${3:-1400000}
turns=${4:-3}
here=$(pwd)
work=$(mktemp -d)
trap 'rm -rf "$work"' EXIT
proved=$here/crates/bench_core/out/bench_core
if [ ! -x "$proved" ]; then
    # built, and then run without words, which it refuses
    (cd crates/bench_core && rt run >"$work/built" 2>&1) || true
    [ -x "$proved" ] || { cat "$work/built" >&2; exit 1; }
fi
took() { sed -n "s/^$1 //p" "$work/time"; }
least() { if [ -z "$1" ] || [ "$2" -lt "$1" ]; then echo "$2"; else echo "$1"; fi; }

for order in 0 "$events"; do
    start='' replay='' turn=0
    while [ "$turn" -lt "$turns" ]; do
        "$proved" "$side" "$workers" "$order" >"$work/out" 2>"$work/time"
        start=$(least "$start" "$(took start)")
        replay=$(least "$replay" "$(took replay)")
        turn=$((turn + 1))
    done
    echo "$order events, then rounds of $workers workers"
    cat "$work/out"
    echo "start $((start / 1000000)) ms, replay $((replay / 1000000)) ms"
done
