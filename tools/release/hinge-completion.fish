# Completion of hinge's command line for fish: its commands and their options are from its help, as are presets and pages.
function __hinge_words
    set -l words (commandline -opc)
    set -l command $words[2]
    switch "$command:$words[-1]"
        case ':*'
            hinge help 2>/dev/null | string replace -rf '^  ([a-z-]+) +(.*)' '$1\t$2'
            printf '%s\n' help --help --version
        case '*:--preset'
            hinge run --list-presets 2>/dev/null | string replace -rf '^([a-z0-9-]+)  +(.*)' '$1\t$2' | string match -v 'preset*'
        case 'help:*'
            hinge help 2>/dev/null | string replace -rf '^  ([a-z-]+) +(.*)' '$1\t$2'
        case 'docs:*'
            hinge docs 2>/dev/null | string replace -rf '^  ([A-Z]+) +(.*)' '$1\t$2'
        case '*'
            hinge $command --help 2>/dev/null | string match -r '^ +-.*' | string match -ra -- '--[a-z0-9-]+' | sort -u
            contains -- $command down change status exec; and test (count $words) = 2; and __hinge_names
    end
end
function __hinge_names
    set -l place /tmp/hinge-(id -u)
    test (id -u) = 0; and set place /run/hinge
    test -n "$XDG_RUNTIME_DIR"; and set place $XDG_RUNTIME_DIR/hinge
    ls $place 2>/dev/null
end
complete -c hinge -n 'not string match -q -- "-*" (commandline -ct)' -F
complete -c hinge -n 'test (count (commandline -opc)) = 1' -f
complete -c hinge -a '(__hinge_words)'
