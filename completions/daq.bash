# Completes the words of daq in bash: commands, files, and the options of a query.

_daq() {
    local word=${COMP_WORDS[COMP_CWORD]} before=${COMP_WORDS[COMP_CWORD - 1]} choices=
    COMPREPLY=()
    # Bash takes the colons of a schema for ends of words, so the words before an option are not counted.
    case ${COMP_CWORD}-${COMP_WORDS[1]}-$before$word in
    1-*) choices='load query session info upgrade ask demo combine help --help --version' ;;
    [23]-load-* | 2-query-* | [23]-session-* | 2-info-* | [23]-upgrade-* | 2-ask-* | 3-combine-*)
        compopt -o filenames
        mapfile -t COMPREPLY < <(compgen -f -- "$word")
        return ;;
    *-query---policy* | *-session---policy* | *-ask---policy* | *-demo---policy*) choices='widest order filter balanced' ;;
    *-query-* | *-ask-* | *-demo-*)
        case $word in -*) choices='--width --rounds --policy --reads --list --part --keys --clip --exact-avg' ;; esac ;;
    *-combine-*)
        case $word in -*) choices='--width --rounds --keys' ;; esac ;;
    *-session-*)
        case $word in -*) choices='--width --rounds --policy --list --part --keys --clip --exact-avg' ;; esac ;;
    esac
    mapfile -t COMPREPLY < <(compgen -W "$choices" -- "$word")
}

complete -F _daq daq
