# Completion of the words of `wave` for fish: a copy of it in a folder of $fish_complete_path.

# Whether the command line has the command $argv[1] and the word to complete is at the place $argv[2].
function __wave_at
    set -l words (commandline -opc)
    test (count $words) -eq $argv[2]; and test "$words[2]" = $argv[1]
end

# Whether the word to complete names a file.
function __wave_takes_file
    set -l words (commandline -opc)
    switch "$words[2]:"(count $words)
        case run:4 plan:4 replay:4
            return 1
        case 'run:*' 'plan:*' 'replay:*' 'check:*' show:2 explain:2
            return 0
    end
    return 1
end

complete -c wave -f
complete -c wave -n 'test (count (commandline -opc)) -eq 1' -a 'run show demo plan replay check explain help --help --version'
complete -c wave -n '__wave_at demo 2' -a 'grid lower'
complete -c wave -n '__wave_at run 4; or __wave_at plan 4; or __wave_at replay 4; or __wave_at demo 4' -a '1 2 4 8 16 32 64'
complete -c wave -n __wave_takes_file -F
