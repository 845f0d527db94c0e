#!/usr/bin/env zsh
# Prints what zsh offers for a command line, one to a line: offers.zsh FOLDER LINE. FOLDER has the completion functions. zsh completes
# only where a person types, so one is started in a terminal of its own, which gets the line and a tab. The status is 1 where it says
# nothing in ten seconds.
zmodload zsh/zpty || exit 2
folder=$1 line=$2

# What the inner zsh does instead of showing what it offers: it prints that between two lines.
print_offers='
PROMPT= RPROMPT=
fpath=(${(q)FOLDER} $fpath)
autoload -Uz compinit && compinit -u -D
setopt no_auto_list no_list_beep no_beep
bindkey "^I" complete-word
before_offers() { print -r -- "<<" }
after_offers() { print -r -- ">>" }
compprefuncs=(before_offers)
comppostfuncs=(after_offers)
compadd() {
    local -a hits
    if [[ ${@[1,(i)(-|--)]} == *-(O|A|D)\ * ]]; then
        builtin compadd "$@"
        return
    fi
    builtin compadd -A hits "$@"
    (($#hits)) && print -rl -- $hits
}
print -r -- ready
'
file=$(mktemp) || exit 2
trap 'rm -f -- $file; zpty -d inner 2>/dev/null' EXIT
print -r -- ${print_offers/'${(q)FOLDER}'/${(q)folder}} >$file

zpty inner zsh -f -i
zpty -w inner "stty -echo; source ${(q)file}"

# Reads lines from the inner zsh until one is this word, and prints those in between where a second word is given.
text=
await() {
    local word=$1 left=100 REPLY
    until [[ $text == *$word$'\r\n'* ]]; do
        ((left-- > 0)) || exit 1
        if zpty -r -t inner REPLY; then
            text+=$REPLY
        else
            sleep 0.1
        fi
    done
}
await ready
text=
zpty -w -n inner "$line"$'\t'
await '>>'
text=${text#*'<<'$'\r\n'}
print -rn -- ${${text%%'>>'*}//$'\r'/}
