#!/bin/sh
# Runs the completions of docs/use/ in their shells, without a terminal.
#
# usage: tests/completions.sh
# A shell that isn't there is skipped. The last line is `N passed, M failed, K skipped`.
set -u

here=$(CDPATH='' cd -- "$(dirname -- "$0")" && pwd -P) || exit 1
pages=${here%/*}/docs/use
scratch=${TMPDIR:-/tmp}/wave-completions.$$
mkdir "$scratch" || exit 1
trap 'rm -rf "$scratch"' EXIT
cd "$scratch" || exit 1
: >a.loop
passed=0
failed=0
skipped=0

# The words that a shell offers after the words $2.. of a call, the last of which is begun, in order.
cat >in.bash <<'END'
. "$1"
shift
COMP_WORDS=("$@")
COMP_CWORD=$(($# - 1))
_wave
printf '%s\n' "${COMPREPLY[@]}"
END
cat >in.zsh <<'END'
page=$1
shift
words=("$@")
CURRENT=$#
begun=$words[$#]
compadd() { shift; for word; do [[ $word == $begun* ]] && print -r -- $word; done }
_files() { print -rl -- $begun*(N) }
complete_wave() { . $page }
complete_wave
END
cat >in.fish <<'END'
set -l page $argv[1]
source $page
complete -C (string join ' ' -- $argv[2..-1]) | string replace -r '\t.*' ''
END

# offer SHELL WANTED WORD..: whether the shell offers these words, in any order.
offer() {
    shell=$1
    wanted=$2
    shift 2
    if ! command -v "$shell" >/dev/null 2>&1; then
        skipped=$((skipped + 1))
        echo "completions: $shell: skipped, there is none"
        return
    fi
    got=$(HOME=$scratch "$shell" "in.$shell" "$pages/wave.$shell" "$@" 2>"$shell.stderr" | sed '/^$/d' | LC_ALL=C sort | tr '\n' ' ')
    if [ "$got" = "$wanted" ] && [ ! -s "$shell.stderr" ]; then
        passed=$((passed + 1))
    else
        failed=$((failed + 1))
        echo "completions: $shell: '$*' offers '$got'"
        sed 3q "$shell.stderr"
    fi
}

for shell in bash zsh fish; do
    offer "$shell" '--help --version check demo explain help plan replay run show ' wave ''
    offer "$shell" 'replay run ' wave r
    offer "$shell" 'grid lower ' wave demo ''
    offer "$shell" '1 16 2 32 4 64 8 ' wave run a.loop a.mtx ''
    offer "$shell" '1 16 2 32 4 64 8 ' wave plan a.loop a.mtx ''
    offer "$shell" '1 16 2 32 4 64 8 ' wave replay a.loop a.mtx ''
    offer "$shell" 'a.loop ' wave replay a.loop a.mtx 2 a.l
    offer "$shell" 'a.loop ' wave show a.l
    offer "$shell" 'a.loop ' wave run a.l
    offer "$shell" 'a.loop ' wave run a.loop a.mtx 4 a.l
    offer "$shell" '' wave show a.loop ''
done

echo "$passed passed, $failed failed, $skipped skipped"
[ "$failed" -eq 0 ] && [ $((passed + skipped)) -gt 0 ]
