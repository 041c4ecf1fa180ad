#compdef wave
# Completion of the words of `wave` for zsh: a copy of it named _wave in a folder of $fpath.

# CURRENT counts from 1 with the program's name, so the words of `wave` have the places 2, 3, ..
if (( CURRENT == 2 )); then
    compadd -- run show demo plan replay check explain help --help --version
    return
fi
case $words[2]:$CURRENT in
demo:3) compadd -- grid lower ;;
run:5 | plan:5 | replay:5 | demo:5) compadd -- 1 2 4 8 16 32 64 ;;
show:3 | explain:3) _files ;;
show:* | explain:* | demo:* | help:* | -*) ;;
run:* | plan:* | replay:* | check:*) _files ;;
esac
