# Completion of dummynet's command line for bash.
_dummynet() {
    local word=${COMP_WORDS[COMP_CWORD]} before=${COMP_WORDS[COMP_CWORD - 1]} command=${COMP_WORDS[1]}
    COMPREPLY=()
    if [ "$COMP_CWORD" = 1 ]; then
        mapfile -t COMPREPLY < <(compgen -W 'replay audit live help --help --version' -- "$word")
    elif [ "$before" = --callers ]; then
        mapfile -t COMPREPLY < <(compgen -W '1 2 4 8 16' -- "$word")
    elif [ "$before" = --most-packets ] || [ "$before" = --most-history ]; then
        mapfile -t COMPREPLY < <(compgen -W '1073741824 4294967296' -- "$word")
    elif [ "$command" = replay ] && [ "${word#-}" != "$word" ]; then
        mapfile -t COMPREPLY < <(compgen -W '--callers --history --most-packets --help' -- "$word")
    elif [ "$command" = audit ] && [ "${word#-}" != "$word" ]; then
        mapfile -t COMPREPLY < <(compgen -W '--most-history --help' -- "$word")
    elif [ "$command" = replay ] || [ "$command" = audit ]; then
        mapfile -t COMPREPLY < <(compgen -f -- "$word")
    fi
}
complete -o filenames -F _dummynet dummynet ./dummynet
