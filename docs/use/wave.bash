# Completion of the words of `wave` for bash: `. docs/use/wave.bash`, or a copy of it among the completions.

# Fills COMPREPLY with the files and folders whose names begin with $1.
_wave_files() {
    compopt -o filenames 2>/dev/null
    mapfile -t COMPREPLY < <(compgen -f -- "$1")
}

# Fills COMPREPLY with those of the words $2.. that begin with $1.
_wave_words() {
    local begun=$1
    shift
    mapfile -t COMPREPLY < <(compgen -W "$*" -- "$begun")
}

_wave() {
    local word=${COMP_WORDS[COMP_CWORD]}
    COMPREPLY=()
    if [ "$COMP_CWORD" -eq 1 ]; then
        _wave_words "$word" run show demo plan replay check explain help --help --version
        return
    fi
    case ${COMP_WORDS[1]}:$COMP_CWORD in
    demo:2) _wave_words "$word" grid lower ;;
    run:4 | plan:4 | replay:4 | demo:4) _wave_words "$word" 1 2 4 8 16 32 64 ;;
    show:2 | explain:2) _wave_files "$word" ;;
    show:* | explain:* | demo:* | help:* | -*) ;;
    run:* | plan:* | replay:* | check:*) _wave_files "$word" ;;
    esac
}

complete -F _wave wave ./wave
