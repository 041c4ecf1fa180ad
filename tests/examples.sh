#!/bin/sh
# Runs the commands of the pages of README.md, docs/use/ and examples/, and compares what they print.
#
# usage: tests/examples.sh [PROGRAM]
# On those pages a fenced block of one line that begins with `./wave `, `examples/` or `tools/` and sends
# nothing into a file is a command for the top folder, and the fenced block after it is its standard output, byte
# for byte; the status has to be 0 and standard error empty. Each loop file of examples/, and each fenced
# block of docs/use/LANGUAGE.md that begins with `matrix`, is canonical text, so `show` has to print its bytes.
# Each such command of README.md and examples/ that is one `./wave run` is run with 1, 2, 3, 4 and 64 workers,
# too, and has to print the same arrays each time.
# The last line is `N passed, M failed, K skipped`.
set -u

here=$(CDPATH='' cd -- "$(dirname -- "$0")" && pwd -P) || exit 1
program=${1:-$here/../crates/wave/out/wave}
case $program in
/*) ;;
*) program=$(pwd -P)/$program ;;
esac
cd "$here/.." || exit 1
scratch=${TMPDIR:-/tmp}/wave-examples.$$
mkdir "$scratch" || exit 1
trap 'rm -rf "$scratch"' EXIT
passed=0
failed=0
skipped=0
unset WAVE_HINT
WAVE_PROGRAM=$program
export WAVE_PROGRAM

# judge NAME WANTED COMMAND: whether a command of the shell prints the bytes of the file WANTED.
judge() {
    if [ ! -x "$program" ]; then
        failed=$((failed + 1))
        echo "$1: there is no program at $program"
        return
    fi
    sh -c "$3" >"$scratch/stdout" 2>"$scratch/stderr" </dev/null
    status=$?
    if [ "$status" -eq 0 ] && [ ! -s "$scratch/stderr" ] && cmp -s "$2" "$scratch/stdout"; then
        passed=$((passed + 1))
    else
        failed=$((failed + 1))
        echo "$1: wrong, status $status"
        sed 3q "$scratch/stderr"
    fi
}

# commands_of PAGE: its commands in $scratch/N.command, what they print in $scratch/N.wanted, N from 1.
commands_of() {
    rm -f "$scratch"/*.command "$scratch"/*.wanted
    awk -v at="$scratch/" '
        /^```/ && inside { inside = 0; wanted = 0; next }
        /^```/ { inside = 1; first = 1; wanted = due; due = 0; if (wanted) printf "" > (at count ".wanted"); next }
        inside && wanted { print > (at count ".wanted"); next }
        inside && first && /^(\.\/wave |examples\/|tools\/)[^>]*$/ { count++; due = 1; print > (at count ".command") }
        inside { first = 0 }
    ' "$1"
}

# loops_of PAGE: the fenced blocks that are whole loops, in $scratch/N.loop, N from 1.
loops_of() {
    rm -f "$scratch"/*.loop
    awk -v at="$scratch/" '
        /^```/ { inside = !inside; first = inside; taken = 0; next }
        first && /^matrix / { count++; taken = 1 }
        { first = 0 }
        taken { print > (at count ".loop") }
    ' "$1"
}

# with_workers PAGE NUMBER: whether that command, where it is one run, leaves the same arrays with each number of workers.
with_workers() {
    page_of=$1
    number_of=$2
    # shellcheck disable=SC2046
    set -- $(cat "$scratch/$number_of.command")
    case "$* " in
    *'|'*) return ;;
    './wave run '*) ;;
    *) return ;;
    esac
    files="$3 $4"
    shift 5
    sed 1,3d "$scratch/$number_of.wanted" >"$scratch/arrays"
    for workers in 1 2 3 4 64; do
        judge "$page_of, command $number_of with $workers workers" "$scratch/arrays" "./wave run $files $workers $* | sed 1,3d"
    done
}

for page in README.md docs/use/*.md examples/*/README.md; do
    commands_of "$page"
    number=1
    while [ -f "$scratch/$number.command" ]; do
        judge "$page, command $number" "$scratch/$number.wanted" "$(cat "$scratch/$number.command")"
        case $page in
        docs/*) ;;
        *) with_workers "$page" "$number" ;;
        esac
        number=$((number + 1))
    done
    case $page in
    docs/*) continue ;;
    esac
    if [ "$number" -eq 1 ]; then
        failed=$((failed + 1))
        echo "$page: has no command"
    fi
done

loops_of docs/use/LANGUAGE.md
for loop in examples/*/*.loop "$scratch"/*.loop; do
    judge "show ${loop##"$scratch"/}" "$loop" "./wave show '$loop'"
done

echo "$passed passed, $failed failed, $skipped skipped"
[ "$failed" -eq 0 ] && [ "$passed" -gt 0 ]
