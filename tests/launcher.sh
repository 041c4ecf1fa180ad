#!/bin/sh
# Runs the launcher `wave` and install.sh as a user would: on a copy of the top folder, in which scripts
# stand in for the program and for the toolchain's command `rt`.
#
# usage: tests/launcher.sh [PROGRAM]
# What needs the built program is skipped where it isn't there. The last line is
# `N passed, M failed, K skipped`.
set -u

here=$(CDPATH='' cd -- "$(dirname -- "$0")" && pwd -P) || exit 1
top=${here%/*}
program=${1:-$top/crates/wave/out/wave}
case $program in
/*) ;;
*) program=$(pwd -P)/$program ;;
esac
scratch=${TMPDIR:-/tmp}/wave-launcher.$$
mkdir "$scratch" || exit 1
scratch=$(CDPATH='' cd -- "$scratch" && pwd -P) || exit 1
trap 'rm -rf "$scratch"' EXIT
passed=0
failed=0
skipped=0
unset WAVE_PROGRAM WAVE_HINT WAVE_JOBS NO_COLOR
TERM=xterm
export TERM

# judge NAME COMMAND..: whether the command ends with 0.
judge() {
    name=$1
    shift
    if "$@"; then
        passed=$((passed + 1))
    else
        failed=$((failed + 1))
        echo "launcher: $name"
        sed 4q "$scratch/stderr"
    fi
}

# call WORD..: runs a command in the scratch folder; its status, standard output and error are kept.
call() {
    (cd "$scratch" && exec "$@") >"$scratch/stdout" 2>"$scratch/stderr" </dev/null
    status=$?
}

ended() {
    [ "$status" -eq "$1" ]
}

# prints TEXT: standard output is this line, and ends with 0.
prints() {
    ended 0 && [ "$(cat "$scratch/stdout")" = "$1" ]
}

# complains STATUS TEXT: this status, nothing on standard output, and a line that begins with the text.
complains() {
    ended "$1" && [ ! -s "$scratch/stdout" ] && grep -q "^$2" "$scratch/stderr"
}

says() {
    grep -qF -- "$1" "$scratch/stderr"
}

silent() {
    [ ! -s "$scratch/stderr" ]
}

no() {
    ! "$@"
}

# A stand-in for the program: it prints its words, one a line in brackets, and the fault line $FAULT.
mkdir "$scratch/bin" "$scratch/clone" "$scratch/elsewhere"
cat >"$scratch/program" <<'END'
#!/bin/sh
for word; do printf '[%s]' "$word"; done
echo
[ -z "${FAULT:-}" ] || echo "$FAULT" >&2
exit "${STATUS:-0}"
END
# A stand-in for rt: as rt does, it refuses a list with a crate that isn't there; it notes each crate, fails at the crate $REFUSED, and builds the stand-in.
cat >"$scratch/bin/rt" <<END
#!/bin/sh
sed -n 's/^\([a-z_]*\):.*/\1/p' ../../crates.txt | while read -r crate; do [ -d "../\$crate" ] || exit 1; done || exit 1
echo "\${PWD##*/}" >>"$scratch/proved"
echo "a line of the log"
[ "\${PWD##*/}" != "\${REFUSED:-}" ] || exit 1
[ "\$1" = run ] || exit 0
mkdir -p out && cp "$scratch/program" out/wave
exit 2
END
chmod +x "$scratch/program" "$scratch/bin/rt"
clone=$scratch/clone
cp -R "$top/wave" "$top/install.sh" "$top/tools" "$top/docs" "$top/examples" "$top/HANDLES" "$clone/"
cat >"$clone/crates.txt" <<'END'
# a comment: with a colon
low: arrayvec
middle: low
bench_low: low
wave: middle low
END
for crate in low middle bench_low wave; do
    mkdir -p "$clone/crates/$crate/src" "$clone/crates/$crate/specs" "$clone/crates/$crate/must-fail"
    : >"$clone/crates/$crate/src/lib.rt"
done

# without a build
bare=/usr/bin:/bin
for word in --help -h help; do
    call env PATH="$bare" "$clone/wave" $word
    judge "$word needs no program" ended 0
    judge "$word says nothing else" silent
    cp "$scratch/stdout" "$scratch/$word.help"
done
judge 'all help is alike' cmp -s "$scratch/--help.help" "$scratch/-h.help"
judge 'all help is alike, without dashes' cmp -s "$scratch/--help.help" "$scratch/help.help"
call env PATH="$bare" "$clone/wave" --version
judge 'the version' prints 'wave 0.1'
call env PATH="$bare" "$clone/wave"
judge 'no words' complains 2 'usage word 0$'
judge 'no words: a synopsis' says 'wave run LOOP MATRIX WORKERS FILE..'
call env PATH="$bare" "$clone/wave" show a.loop
judge 'without rt: status 1' complains 1 'wave: .*rt.*toolchain'
judge 'without rt: one line' test "$(wc -l <"$scratch/stderr")" -eq 1

# builds
build="env PATH=$scratch/bin:$PATH"
# shellcheck disable=SC2086
{
    call $build "$clone/wave" show 'a b' '' '*'
    judge 'the words are passed on' prints '[show][a b][][*]'
    judge 'crates that the program stands on, lower ones first' test "$(uniq "$scratch/proved" | tr '\n' ' ')" = 'low middle wave '
    judge 'a build says which crate of how many' says 'proving middle (2 of 3)'
    judge 'a build says where the log is' says "$clone/.build/"
    judge 'a build says how long' says 'minutes'
    call $build "$clone/wave" show x
    judge 'nothing is built twice' silent
    sleep 1
    touch "$clone/crates/bench_low/src/lib.rt" "$clone/crates/low/must-fail/a.edit" "$clone/docs/use/LANGUAGE.md" "$clone/wave"
    call $build "$clone/wave" show x
    judge 'benches, edits and pages start no build' silent
    touch "$clone/crates/low/specs/A.antt"
    call $build "$clone/wave" show x
    judge 'a definition starts a build' says 'proving'
    sleep 1
    touch "$clone/HANDLES"
    REFUSED=middle
    export REFUSED
    call $build "$clone/wave" show x
    unset REFUSED
    judge 'a refused crate ends the build' complains 1 'wave: middle could not be proved'
    judge 'a refused crate: its log' says 'a line of the log'
    call $build "$clone/wave" show x
    judge 'the next build goes on' prints '[show][x]'
    call $build "$clone/wave" show x
    judge 'and is the last' silent
}

# links and folders
ln -s ../clone/wave "$scratch/elsewhere/first"
ln -s elsewhere/first "$scratch/second"
call "$scratch/second" show x
judge 'through two links' prints '[show][x]'
call env PATH="$scratch/elsewhere:$PATH" first show x
judge 'through a link on the path' prints '[show][x]'
call "$scratch/second" --version
judge 'the version through links' prints 'wave 0.1'

# WAVE_PROGRAM
printf 'no program\n' >"$scratch/text"
: >"$scratch/empty"
chmod +x "$scratch/text" "$scratch/empty"
cp "$scratch/program" "$scratch/no-right"
chmod -x "$scratch/no-right"
for broken in missing text empty no-right elsewhere; do
    for hint in 0 1; do
        call env WAVE_HINT=$hint WAVE_PROGRAM=$broken "$clone/wave" show x
        judge "WAVE_PROGRAM=$broken, WAVE_HINT=$hint" complains 1 'wave: .*WAVE_PROGRAM'
    done
done
printf '#!/there/is/no/shell\n' >"$scratch/no-shell"
chmod +x "$scratch/no-shell"
call env WAVE_PROGRAM="$scratch/no-shell" "$clone/wave" show x
judge 'WAVE_PROGRAM without its shell' ended 1
call env WAVE_PROGRAM=program "$clone/wave" show x
judge 'WAVE_PROGRAM in this folder' prints '[show][x]'

# explanations
printf 'loop i\n  set x[i] = -b[i]\nend\n' >"$scratch/a.loop"
# explained FAULT WORD..: the explanation of this fault of a call with these words.
explained() {
    FAULT=$1
    shift
    call env FAULT="$FAULT" STATUS=3 WAVE_HINT=1 NO_COLOR=1 WAVE_PROGRAM="$scratch/program" "$clone/wave" "$@"
}
explained 'loop text line 2' run a.loop a.mtx 1
judge 'an explanation keeps the status' ended 3
judge 'an explanation keeps standard output' test "$(cat "$scratch/stdout")" = '[run][a.loop][a.mtx][1]'
judge 'the fault line is first' test "$(sed q "$scratch/stderr")" = 'loop text line 2'
judge 'the file is named' says 'word 1 is a.loop'
judge 'the line is quoted' says 'set x[i] = -b[i]'
judge 'the remedy is given' says '0 - b[i]'
judge 'NO_COLOR has no escapes' no grep -q "$(printf '\033')" "$scratch/stderr"
call env FAULT='loop text line 2' WAVE_HINT=1 WAVE_PROGRAM="$scratch/program" "$clone/wave" run a.loop
judge 'else it is dimmed' grep -q "$(printf '\033')\[2m" "$scratch/stderr"
call env FAULT='loop text line 2' STATUS=3 WAVE_PROGRAM="$scratch/program" "$clone/wave" run a.loop
judge 'without a terminal the fault line is alone' test "$(cat "$scratch/stderr")" = 'loop text line 2'
judge 'without a terminal the status is kept' ended 3
explained 'read word 4' run a.loop a.mtx 1 nowhere.mtx
judge 'a missing file is named' says "nowhere.mtx, which isn't there"
explained 'usage word 3' run a.loop a.mtx
judge 'a missing word' says 'word 3 is missing'
printf 'loop i\n  set x[i] = \033[31m-b[i]\nend\n' >"$scratch/red.loop"
explained 'loop text line 2' show red.loop
judge 'no escape is quoted' no grep -q "$(printf '\033')" "$scratch/stderr"

# Each row of the table is given for its line, where the row has no pattern.
cut -f 2,4,6 "$top/docs/use/faults.tsv" | sed 1d | grep "$(printf '\t\t')" >"$scratch/rows"
while IFS=$(printf '\t') read -r line remedy; do
    explained "$(echo "$line" | sed 's/ [A-Z]$/ 9/; s/ [A-Z] / 9 /g')" run none.loop none.mtx 1
    remedy=$(echo "$remedy" | sed 's/ [A-Z] .*//')
    judge "the remedy of '$line'" says "$remedy"
done <"$scratch/rows"
judge 'help has each line' test "$(grep -c '' "$scratch/rows")" -eq "$(grep -Ec '^ *[0-9]+  [a-z]' "$scratch/--help.help")"

# a terminal
if command -v python3 >/dev/null 2>&1; then
    cat >"$scratch/terminal.py" <<'END'
import os, pty, sys
pid, end = pty.fork()
if pid == 0:
    os.execv(sys.argv[1], sys.argv[1:])
text = b""
while True:
    try:
        part = os.read(end, 4096)
    except OSError:
        break
    if not part:
        break
    text += part
os.waitpid(pid, 0)
sys.stderr.buffer.write(text)
END
    call env FAULT='loop text line 2' WAVE_PROGRAM="$scratch/program" python3 "$scratch/terminal.py" "$clone/wave" run a.loop
    judge 'a terminal has explanations' says '0 - b[i]'
    call env FAULT='loop text line 2' WAVE_HINT=0 WAVE_PROGRAM="$scratch/program" python3 "$scratch/terminal.py" "$clone/wave" run a.loop
    judge 'WAVE_HINT=0 has none' no says '0 - b[i]'
else
    skipped=$((skipped + 2))
    echo 'launcher: a terminal: skipped, there is no python3'
fi

# an installed prefix
prefix="$scratch/a prefix"
call env WAVE_PROGRAM="$scratch/program" "$clone/install.sh" "$prefix"
judge 'install.sh' ended 0
for file in bin/wave lib/wave/wave share/wave/faults.tsv share/wave/LANGUAGE.md share/man/man1/wave.1 \
    share/bash-completion/completions/wave share/zsh/site-functions/_wave \
    share/fish/vendor_completions.d/wave.fish share/wave/examples/forward/unit.loop share/wave/tools/wave.py share/wave/tools/draw_plan; do
    judge "install.sh puts $file" test -s "$prefix/$file"
done
ln -s "../a prefix/bin/wave" "$scratch/elsewhere/installed"
call env PATH="$bare" "$scratch/elsewhere/installed" show x
judge 'the installed launcher through a link' prints '[show][x]'
judge 'the installed launcher builds nothing' silent
call env PATH="$bare" "$prefix/bin/wave" -h
judge 'the installed help' ended 0
judge 'the installed help is as long' test "$(wc -l <"$scratch/stdout")" -eq "$(wc -l <"$scratch/help.help")"
call env FAULT='memory' WAVE_HINT=1 "$prefix/bin/wave" show x
judge 'the installed launcher explains' says 'give the process more'
call "$clone/install.sh"
judge 'install.sh without a prefix' ended 2
call env WAVE_PROGRAM=missing "$clone/install.sh" "$scratch/none"
judge 'install.sh with a broken program' ended 1
judge 'and puts nothing there' test ! -e "$scratch/none"

# a file limit, with the built program
if [ -x "$program" ]; then
    printf 'matrix a csr\nvector x n zero\nloop i\n  set x[i] = 1\nend\n' >"$scratch/ones.loop"
    printf '%%%%MatrixMarket matrix coordinate pattern general\n4000 4000 0\n' >"$scratch/empty.mtx"
    (
        cd "$scratch" || exit
        ulimit -f 2
        WAVE_PROGRAM=$program
        export WAVE_PROGRAM
        exec "$clone/wave" run ones.loop empty.mtx 1
    ) 2>"$scratch/to-pipe" >"$scratch/limited" </dev/null
    status=$?
    cp "$scratch/to-pipe" "$scratch/stderr"
    judge 'a file limit is a fault of writing' ended 8
    judge 'a file limit has its fault line' test "$(cat "$scratch/stderr")" = write
else
    skipped=$((skipped + 2))
    echo "launcher: a file limit: skipped, there is no program at $program"
fi

echo "$passed passed, $failed failed, $skipped skipped"
[ "$failed" -eq 0 ] && [ "$passed" -gt 0 ]
