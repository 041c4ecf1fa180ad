#!/bin/sh
# Runs the black-box cases on the built program, and then the other scripts of this folder.
#
# usage: tests/run.sh [PROGRAM]
# A case is a folder of cases/ with
#   words    one word of the command line a line (none where it is empty)
#   files/   the files that lie where the program runs, if there are any
#   status   the wanted status
#   stdout   the wanted standard output, byte for byte
#   stderr   the wanted standard error, byte for byte
#   output   a file that standard output goes to instead, if there is one; stdout is then empty
# The last line is `N passed, M failed, K skipped`. A case is skipped, and says so, where a shell or a
# module that it needs is missing. A missing program is a failure of every case.
set -u

here=$(CDPATH='' cd -- "$(dirname -- "$0")" && pwd -P) || exit 1
program=${1:-$here/../crates/wave/out/wave}
case $program in
/*) ;;
*) program=$(pwd -P)/$program ;;
esac
scratch=${TMPDIR:-/tmp}/wave-tests.$$
mkdir "$scratch" || exit 1
trap 'rm -rf "$scratch"' EXIT
passed=0
failed=0
skipped=0

# run_case FOLDER: runs the program on the words of the case, in a fresh folder with its files.
run_case() {
    rm -rf "$scratch/at" && mkdir "$scratch/at" || return 1
    [ ! -d "$1/files" ] || cp "$1/files/"* "$scratch/at/" || return 1
    set -- "$1"
    folder=$1
    shift
    while IFS= read -r word; do
        set -- "$@" "$word"
    done <"$folder/words"
    output=$scratch/stdout
    : >"$output"
    [ ! -f "$folder/output" ] || output=$(cat "$folder/output")
    (cd "$scratch/at" && exec "$program" "$@") >"$output" 2>"$scratch/stderr" </dev/null
    echo $? >"$scratch/status"
}

for folder in "$here"/cases/*/; do
    folder=${folder%/}
    name=${folder##*/}
    if [ ! -x "$program" ]; then
        echo "$name: there is no program at $program"
        failed=$((failed + 1))
        continue
    fi
    wrong=
    run_case "$folder" || wrong=" (could not be run)"
    for part in status stdout stderr; do
        cmp -s "$folder/$part" "$scratch/$part" || wrong="$wrong $part"
    done
    if [ -z "$wrong" ]; then
        passed=$((passed + 1))
    else
        failed=$((failed + 1))
        echo "$name: wrong$wrong"
        [ ! -f "$scratch/stderr" ] || sed 3q "$scratch/stderr"
    fi
done

# add COMMAND SCRIPT: runs another script on the program, and adds its counts.
add() {
    "$1" "$here/$2" "$program" >"$scratch/other"
    sed '$d' "$scratch/other"
    # shellcheck disable=SC2046
    set -- "$2" $(sed -n '$s/^\([0-9]*\) passed, \([0-9]*\) failed, \([0-9]*\) skipped$/\1 \2 \3/p' "$scratch/other")
    if [ $# -eq 4 ]; then
        passed=$((passed + $2))
        failed=$((failed + $3))
        skipped=$((skipped + $4))
    else
        failed=$((failed + 1))
        echo "$1 came to no end"
    fi
}

for script in examples.sh launcher.sh completions.sh; do
    add sh "$script"
done
for script in mistakes.py tools.py pages.py workers.py demos.py; do
    if command -v python3 >/dev/null 2>&1; then
        add python3 "$script"
    else
        skipped=$((skipped + 1))
        echo "$script: skipped, there is no python3"
    fi
done

echo "$passed passed, $failed failed, $skipped skipped"
[ "$failed" -eq 0 ] && [ "$passed" -gt 0 ]
