#!/bin/sh
# Puts wave under a prefix, where it runs without this repository and without the toolchain.
#
# usage: ./install.sh PREFIX
# The program is built first where it isn't there; WAVE_PROGRAM=FILE takes another one.
#   PREFIX/bin/wave                 the launcher
#   PREFIX/lib/wave/wave            the program
#   PREFIX/share/wave/              fault lines, pages, examples, and the tools for Python and matrix files
#   PREFIX/share/man/man1/wave.1    the man page
#   PREFIX/share/bash-completion, zsh/site-functions, fish/vendor_completions.d
set -u

top=$(CDPATH='' cd -- "$(dirname -- "$0")" && pwd -P) || exit 1
case $#:${1:-} in
1:-* | 1: | 0:)
    sed -n '2,/^set/s/^# \{0,1\}//p' "$0" >&2
    exit 2
    ;;
1:*) ;;
*)
    echo 'usage: ./install.sh PREFIX' >&2
    exit 2
    ;;
esac

program=${WAVE_PROGRAM:-$top/crates/wave/out/wave}
WAVE_HINT=1 "$top/wave" show "$top/examples/forward/unit.loop" >/dev/null || exit 1

# put MODE FILE FOLDER [NAME]: copies a file with these rights.
put() {
    to=$3/${4:-${2##*/}}
    # a new file in place of the old one, which may be running
    mkdir -p "$3" && rm -f "$to" && cp "$2" "$to" && chmod "$1" "$to" && return
    echo "install.sh: $to can't be written" >&2
    exit 1
}

share=$1/share
put 755 "$top/wave" "$1/bin"
put 755 "$program" "$1/lib/wave" wave
put 644 "$top/docs/use/faults.tsv" "$share/wave"
for page in "$top"/docs/use/*.md; do
    put 644 "$page" "$share/wave"
done
put 644 "$top/docs/use/wave.1" "$share/man/man1"
put 644 "$top/docs/use/wave.bash" "$share/bash-completion/completions" wave
put 644 "$top/docs/use/wave.zsh" "$share/zsh/site-functions" _wave
put 644 "$top/docs/use/wave.fish" "$share/fish/vendor_completions.d"
for file in "$top"/examples/*/*.loop "$top"/examples/*/*.mtx; do
    folder=${file%/*}
    put 644 "$file" "$share/wave/examples/${folder##*/}"
done
put 755 "$top/examples/gauss_seidel/sweeps.sh" "$share/wave/examples/gauss_seidel"
put 644 "$top/tools/wave.py" "$share/wave/tools"
for tool in check_matrix draw_plan to_mtx; do
    put 755 "$top/tools/$tool" "$share/wave/tools"
done
echo "wave is installed: $1/bin/wave"
