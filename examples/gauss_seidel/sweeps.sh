#!/bin/sh
# Does many Gauss-Seidel sweeps: each starts from what the one before has printed.
#
# usage: examples/gauss_seidel/sweeps.sh NUMBER MATRIX RIGHT_SIDE START
# It prints the last answer.
set -u

here=$(CDPATH='' cd -- "$(dirname -- "$0")" && pwd -P) || exit 1
if [ $# -ne 4 ]; then
    sed -n 's/^# usage/usage/p' "$0" >&2
    exit 2
fi
# the launcher of the repository, of the prefix under which this script is installed, or on the path
wave=wave
for place in "$here/../../wave" "$here/../../../../bin/wave"; do
    [ ! -f "$place" ] || wave=$place
done
scratch=${TMPDIR:-/tmp}/wave-sweeps.$$
mkdir "$scratch" || exit 1
trap 'rm -rf "$scratch"' EXIT
cp "$4" "$scratch/start" || exit 1

# vector: the printed array on standard input as a vector file, without the summary before it
vector() {
    echo '%%MatrixMarket matrix array integer general'
    sed -n -e '/^[-0-9]/p' -e 's/^array x \(.*\)$/\1 1/p'
}

sweep=0
while [ "$sweep" -lt "$1" ]; do
    "$wave" run "$here/sweep.loop" "$2" 1 "$3" "$scratch/start" >"$scratch/answer" || exit
    vector <"$scratch/answer" >"$scratch/start"
    sweep=$((sweep + 1))
done
[ ! -f "$scratch/answer" ] || cat "$scratch/answer"
