#!/bin/sh
# Times acceptance: of the loops in examples/, at most 3 ms each; and of 95 guards in one another, 93 brackets in
# systems of up to 96 atoms and 453,132 instances, at most 12 s and 1.5 GB, also with one property declared 100
# times. Then the verdicts on the relations of these loops, at most 5 ms each and 20 ms of incomplete LU; and of
# six loops in one another with 112 relations, at most 250 ms and 40 MB. Prints what is answered and the least
# time of TURNS.
#
# usage: bench/analysis.sh [TURNS]      (20; of the guards always one)
# Ends with 1 where a loop isn't accepted, where another number of relations is kept, or where a figure is above
# its bar.
set -eu
cd "$(dirname "$0")/.."
turns=${1:-20}
here=$(pwd)
work=$(mktemp -d)
trap 'rm -rf "$work"' EXIT
proved=$here/crates/bench_analysis/out/bench_analysis
if [ ! -x "$proved" ]; then
    # built, and then run without words, which it refuses
    (cd crates/bench_analysis && rt run >"$work/built" 2>&1) || true
    [ -x "$proved" ] || { cat "$work/built" >&2; exit 1; }
fi

# guards TIMES: the nest with `sorted` declared so many times
guards() {
    echo 'matrix a csr'
    echo 'index f nnz'
    echo 'index p n+1'
    echo 'range f 0 nnz'
    for _ in $(seq "$1"); do echo 'sorted f by p'; done
    echo 'rising p'
    echo 'loop i'
    echo 'when i+99 < n'
    echo 'when i+99 < nnz'
    for k in $(seq 32); do echo "when 0 <= p[i+$k]"; done
    for k in $(seq 0 59); do echo "when 0 <= f[i+$k]"; done
    echo 'when 0 <= p[i]'
    for _ in $(seq 95); do echo end; done
    echo end
}

# chained: six loops, of the columns of each other's entries, and four statements through all their columns
chained() {
    echo 'matrix a csr'
    echo 'vector x n file'
    echo 'range a.ptr 0 nnz+1'
    echo 'range a.col 0 n'
    echo 'rising a.ptr'
    echo 'sorted a.col by a.ptr'
    echo 'diagonal a.diag of a.col by a.ptr'
    echo 'loop i'
    echo 'for p in a.ptr[i]..a.ptr[i+1]'
    for pair in p:q q:r r:s s:t; do
        echo "for ${pair#*:} in a.ptr[a.col[${pair%:*}]]..a.ptr[a.col[${pair%:*}]+1]"
    done
    echo 'set x[i] = x[a.col[p]] + x[a.col[q]] + x[a.col[r]]'
    echo 'set x[a.col[s]] = x[a.col[t]] + x[i] + x[a.col[p]]'
    echo 'set x[a.col[q]] = x[a.col[r]] + x[a.col[s]] + x[a.col[t]]'
    echo 'set x[i] = x[a.col[p]] + x[a.col[q]] + x[a.col[r]]'
    for _ in $(seq 6); do echo end; done
}

# accept NAME FILE TURNS MOST: the least milliseconds, of which there may be so many at most; sets `spent`
status=0
accept() {
    "$proved" accept "$2" "$3" >"$work/said" 2>"$work/time"
    spent=$(sed -n 's/^nanoseconds //p' "$work/time")
    grep -q '^accepted$' "$work/said" || status=1
    awk -v what="$1" -v said="$(cat "$work/said")" -v ns="$spent" -v most="$4" \
        'BEGIN { printf "%s: %s, %.2f ms, at most %d\n", what, said, ns / 1000000, most; exit ns > most * 1000000 }' || status=1
}

# judge NAME FILE TURNS MOST: how many relations of each verdict, and the least milliseconds
judge() {
    "$proved" verdicts "$2" "$3" >"$work/said" 2>"$work/time"
    grep -q '^relations ' "$work/said" || status=1
    awk -v what="$1" -v said="$(cat "$work/said")" -v ns="$(sed -n 's/^nanoseconds //p' "$work/time")" -v most="$4" \
        'BEGIN { printf "%s: %s, %.2f ms, at most %d\n", what, said, ns / 1000000, most; exit ns > most * 1000000 }' || status=1
}

# memory MODE FILE MOST: the most megabytes of one turn
memory() {
    [ -x /usr/bin/time ] || return 0
    /usr/bin/time -f %M "$proved" "$1" "$2" 1 >/dev/null 2>"$work/most"
    tail -1 "$work/most" | awk -v most="$3" '{ printf "memory %d MB, at most %d\n", $1 / 1024, most; exit $1 > most * 1024 }' || status=1
}

for file in examples/*/*.loop; do
    name=${file%/*}
    accept "${name##*/}" "$file" "$turns" 3
done

guards 1 >"$work/once.loop"
guards 100 >"$work/often.loop"
accept guards "$work/once.loop" 1 12000
once=$spent
accept 'guards, one property 100 times' "$work/often.loop" 1 14400
awk -v often="$spent" -v once="$once" 'BEGIN { printf "ratio %.2f, at most 1.20\n", often / once; exit often > 1.2 * once }' || status=1
memory accept "$work/once.loop" 1500

for file in examples/*/*.loop; do
    name=${file%/*}
    most=5
    [ "${name##*/}" != incomplete_lu ] || most=20
    judge "${name##*/}" "$file" "$turns" "$most"
done
chained >"$work/chained.loop"
judge 'six loops' "$work/chained.loop" "$turns" 250
grep -qx 'relations 112 dropped 8 covered 78 kept 26' "$work/said" || status=1
memory verdicts "$work/chained.loop" 40
exit "$status"
