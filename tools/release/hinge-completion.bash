# Completion of hinge's command line for bash, and for zsh by hinge-completion.zsh. All words are from what hinge prints: its commands
# and their options from its help, presets, pages, words of events, and the names and hosts of nets and runs in the background.
_hinge_names() {
    local place=/tmp/hinge-$(id -u)
    [ "$(id -u)" != 0 ] || place=/run/hinge
    [ -z "$XDG_RUNTIME_DIR" ] || place=$XDG_RUNTIME_DIR/hinge
    ls "$place" 2>/dev/null
}
_hinge() {
    local word=${COMP_WORDS[COMP_CWORD]} before=${COMP_WORDS[COMP_CWORD-1]} command=${COMP_WORDS[1]} hinge=${COMP_WORDS[0]} words= acts=
    COMPREPLY=()
    if [ "$COMP_CWORD" = 1 ] || { [ "$COMP_CWORD" = 2 ] && [ "$command" = help ]; }; then
        words=$("$hinge" help 2>/dev/null | sed -n 's/^  \([a-z-]*\)  *.*/\1/p')
        [ "$COMP_CWORD" != 1 ] || words="$words help --help --version"
    elif [ "$before" = --preset ]; then
        words=$("$hinge" run --list-presets 2>/dev/null | sed -n '1!s/^\([a-z0-9-]*\)  *.*/\1/p')
    elif [ "$command" = docs ]; then
        words=$("$hinge" docs 2>/dev/null | sed -n 's/^  \([A-Z]*\)  .*/\1/p')
    elif [ "${word#-}" != "$word" ]; then
        words=$("$hinge" $command --help 2>/dev/null | grep '^  *-' | grep -o -e '--[a-z0-9-]*' | sort -u)
    else
        [ "$command:$COMP_CWORD" != change:3 ] || acts=$("$hinge" change --help 2>/dev/null | tr -s '\n ' ' ' | grep -o '[a-z]* \(A\|HOST\)\b' | sed 's/ .*//')
        case $command:$COMP_CWORD in
        down:2 | change:2 | status:2 | exec:2) words=$(_hinge_names) ;;
        change:[34] | exec:3) words=$("$hinge" status "${COMP_WORDS[2]}" 2>/dev/null | sed -n 's/^ *"\(from\|to\|name\)": "\(.*\)",*$/\2/p' | sort -u) ;;
        esac
        words="$words $acts"
    fi
    [ -z "${words# }" ] || COMPREPLY=($(compgen -W "$words" -- "$word"))
}
# Where there is no word, the shell's own completion names files.
complete -o default -F _hinge hinge ./hinge
