# Completes the words of `cnitool` and `./try` in bash:
#
#     source tools/completion.bash

_cnitool() {
    local word=${COMP_WORDS[COMP_CWORD]} before=${COMP_WORDS[COMP_CWORD - 1]}
    COMPREPLY=()
    case $before,$word in
        --threads,*) mapfile -t COMPREPLY < <(compgen -W "$(echo {1..16})" -- "$word") ;;
        *,-*) mapfile -t COMPREPLY < <(compgen -W "--threads --stop-at --trace --dump --requests --probe" -- "$word") ;;
    esac
}
# a word that is no option is a file's name
complete -o default -F _cnitool cnitool ./try
