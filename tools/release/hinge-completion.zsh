#compdef hinge
# Completion of hinge's command line for zsh, by that for bash, which ./install and pip put below the same folder `share`.
autoload -Uz bashcompinit && bashcompinit
for place in "${${(%):-%x}:A:h}"/{../../bash-completion/completions/hinge,hinge-completion.bash}; do
    [[ ! -f $place ]] || . "$place"
done
_bash_complete -o default -F _hinge
