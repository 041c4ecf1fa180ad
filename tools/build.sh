#!/bin/sh
# Proves the crates that the program stands on, several side by side, and then builds the program.
#
# usage: tools/build.sh            proves and builds; says on standard error what it does
#        tools/build.sh --crates   prints the names of these crates, each after those that it uses
# A crate's log is .build/NAME.log in the top folder. As many crates are proved side by side as there are
# processors, or as WAVE_JOBS says.
set -u

top=$(CDPATH='' cd -- "$(dirname -- "$0")/.." && pwd -P) || exit 1
logs=$top/.build
program=$top/crates/wave/out/wave

# sizes: for each crate a line with its name and the bytes of its sources, which say about how long its
# proof takes.
sizes() {
    for folder in "$top"/crates/*/; do
        name=${folder%/}
        echo "${name##*/} $(cat "$folder"src/*.rt "$folder"specs/*.antt "$folder"proofs/*.antt 2>/dev/null | wc -c)"
    done
}

# uses: for each crate that the program stands on a line with its name and the crates of the repository that
# it uses. The longest chain of proofs comes first, so a crate stands after those that it uses.
uses() {
    { sizes; echo; cat "$top/crates.txt"; } | awk '
        function visit(crate, list, count, i) {
            if (crate in done || !(crate in needs)) return
            done[crate] = 1
            count = split(needs[crate], list, " ")
            for (i = 1; i <= count; i++) visit(list[i])
            order[++known] = crate
        }
        !sized && NF == 0 { sized = 1; next }
        !sized { size[$1] = $2; next }
        { sub(/#.*/, "") }
        /:/ { split($0, half, ":"); split(half[1], name, " "); needs[name[1]] = half[2] }
        END {
            visit("wave")
            for (k = known; k >= 1; k--) {
                crate = order[k]
                chain[crate] = size[crate] + above[crate]
                line = chain[crate] " " crate
                count = split(needs[crate], list, " ")
                for (i = 1; i <= count; i++) {
                    if (!(list[i] in needs)) continue
                    line = line " " list[i]
                    if (above[list[i]] < chain[crate]) above[list[i]] = chain[crate]
                }
                print line
            }
        }' | sort -rn | cut -d ' ' -f 2-
}

say() {
    echo "wave: $*" >&2
}

# Whether the crates $2.. are all done.
are_done() {
    for below; do
        [ -f "$logs/$below.done" ] || return 1
    done
}

# copy_sources: for each processor a copy of the sources. Two proofs side by side in one folder would wait for
# each other wherever they use a common crate.
copy_sources() {
    copies=$(mktemp -d "${TMPDIR:-/tmp}/wave-build-XXXXXX") || exit 1
    for slot in $(seq "$most"); do
        mkdir -p "$copies/$slot/crates"
        cp "$top/HANDLES" "$copies/$slot"
        # of crates.txt the lines of the copied crates
        awk 'NR == FNR { wanted[$1]; next }
            { sub(/#.*/, "") }
            /:/ { split($0, half, ":"); split(half[1], name, " "); if (name[1] in wanted) print }' \
            "$logs/uses" "$top/crates.txt" >"$copies/$slot/crates.txt"
        cut -d ' ' -f 1 "$logs/uses" | while read -r crate; do
            mkdir "$copies/$slot/crates/$crate"
            for part in src specs proofs; do
                [ ! -d "$top/crates/$crate/$part" ] || cp -R "$top/crates/$crate/$part" "$copies/$slot/crates/$crate"
            done
        done
    done
}

# prove CRATE SLOT: proves one crate in a copy, takes over here what was kept there, and builds the program where
# the crate is that.
prove() {
    if [ "$1" = wave ]; then
        cd "$top/crates/wave" || return 1
        # rt also runs the program; whether it was built shows in the program alone
        rt run
        [ -x "$program" ]
    else
        cd "$copies/$2/crates/$1" && rt lib && cd "$top/crates/$1" && rt lib
    fi
}

# free_slot: the first copy in which nothing is proved.
free_slot() {
    for slot in $(seq "$most"); do
        [ -f "$logs/$slot.taken" ] || break
    done
    echo "$slot"
}

# start CRATE: proves it in the background.
start() {
    started="$started $1"
    begun=$((begun + 1))
    say "proving $1 ($begun of $count)"
    slot=$(free_slot)
    : >"$logs/$slot.taken"
    (
        trap - INT TERM
        if prove "$1" "$slot" >"$logs/$1.log" 2>&1 </dev/null; then
            rm -f "$logs/$slot.taken"
            : >"$logs/$1.done"
        else
            rm -f "$logs/$slot.taken"
            : >"$logs/$1.failed"
        fi
    ) &
    jobs="$jobs $!"
}

# running: how many crates were started and aren't ended.
running() {
    number=0
    for crate in $started; do
        [ -f "$logs/$crate.done" ] || [ -f "$logs/$crate.failed" ] || number=$((number + 1))
    done
    echo "$number"
}

# start_ready: starts each crate whose lower ones are done, as long as a processor is free.
start_ready() {
    while read -r crate below; do
        case " $started " in
        *" $crate "*) continue ;;
        esac
        [ "$(running)" -lt "$most" ] || return
        # shellcheck disable=SC2086
        if are_done $below; then
            start "$crate"
        fi
    done <"$logs/uses"
}

# tell_failed: the end of the log of the first crate that failed.
tell_failed() {
    for mark in "$logs"/*.failed; do
        crate=${mark##*/}
        crate=${crate%.failed}
        tail -n 15 "$logs/$crate.log" >&2
        say "$crate could not be proved or built; the whole log is $logs/$crate.log"
        return
    done
}

# kill_tree PROCESS: ends a process that this script started, after those that it started itself.
kill_tree() {
    for child in $(ps -e -o pid= -o ppid= | awk -v parent="$1" '$2 == parent { print $1 }'); do
        kill_tree "$child"
    done
    kill "$1" 2>/dev/null
}

kill_jobs() {
    trap '' INT TERM
    for job in $jobs; do
        kill_tree "$job"
    done
    wait
}

# The end after Ctrl-C.
# shellcheck disable=SC2317
stop() {
    kill_jobs
    rm -rf "$logs/lock" "${copies:-}"
    say "stopped; what is proved stays, and the next call goes on from there"
    exit 130
}

# lock: waits for another build in this folder. It is given up where that one's process has gone.
lock() {
    until mkdir "$logs/lock" 2>/dev/null; do
        other=$(cat "$logs/lock/process" 2>/dev/null)
        if [ -n "$other" ] && ! kill -0 "$other" 2>/dev/null; then
            rm -rf "$logs/lock"
        else
            [ -n "${waited:-}" ] || say "another build is at work here; waiting for it"
            waited=1
            sleep 1
        fi
    done
    echo $$ >"$logs/lock/process"
}

if [ "${1:-}" = --crates ]; then
    uses | cut -d ' ' -f 1
    exit
fi
if ! command -v rt >/dev/null 2>&1; then
    say "the program isn't built from these sources, and \`rt\`, the command of the Rattle toolchain that proves and builds it, isn't on the path: see $top/CONTRIBUTING.md"
    exit 1
fi

mkdir -p "$logs" || exit 1
jobs=
trap stop INT TERM
lock
if [ -n "${waited:-}" ] && [ -x "$program" ]; then
    rm -rf "$logs/lock"
    exit 0
fi
rm -f "$logs"/*.done "$logs"/*.failed "$logs"/*.taken "$logs"/*.log "$program"
: >"$logs/begun"
uses >"$logs/uses"
count=$(wc -l <"$logs/uses" | tr -d ' ')
most=${WAVE_JOBS:-$(getconf _NPROCESSORS_ONLN 2>/dev/null || echo 2)}
copy_sources
started=
begun=0
from=$(date +%s)
say "the program isn't built, or a source is newer. Each function is proved before the program is built:"
say "$count crates, from scratch about half an hour on four processors; only what changed is proved again."
say "The logs are $logs/NAME.log."
while ! [ -f "$logs/wave.done" ]; do
    if ls "$logs"/*.failed >/dev/null 2>&1; then
        break
    fi
    start_ready
    sleep 1
done
if [ -f "$logs/wave.done" ]; then
    # what changed since the start is newer than the program
    touch -r "$logs/begun" "$program"
    say "built after $((($(date +%s) - from) / 60)) minutes and $((($(date +%s) - from) % 60)) seconds"
    rm -rf "$logs/lock" "$copies"
    exit 0
fi
kill_jobs
tell_failed
rm -rf "$logs/lock" "$copies"
exit 1
