# Completion of stp for bash: source this file. Made by tools/make-help from tools/commands.
_stp() {
    local word=${COMP_WORDS[COMP_CWORD]} before=${COMP_WORDS[COMP_CWORD - 1]} files=0 options=''
    COMPREPLY=()
    case ${COMP_WORDS[1]} in
        check) files=3 options='' ;;
        plan) files=2 options='--budget' ;;
        replay) files=3 options='--durations' ;;
        help) [ "$COMP_CWORD" -gt 2 ] || options='check plan replay demo build help' ;;
    esac
    if [ "$COMP_CWORD" = 1 ]; then
        options='check plan replay demo build help --help'
    elif [ "$COMP_CWORD" -le "$((files + 1))" ]; then
        compopt -o filenames 2>/dev/null
        mapfile -t COMPREPLY < <(compgen -f -- "$word")
        return
    elif [ "$before" = --durations ]; then
        options=none
    elif [ "$before" = --budget ]; then
        options=
    fi
    mapfile -t COMPREPLY < <(compgen -W "$options" -- "$word")
}
complete -F _stp stp ./stp
