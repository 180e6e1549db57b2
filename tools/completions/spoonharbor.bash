# Completion of the command spoonharbor for bash.

# What compgen finds, a line for each.
_spoonharbor_offer() {
    local found
    found=$(compgen "$@") && mapfile -t COMPREPLY <<<"$found"
}

_spoonharbor() {
    local verbs='check explain rows tree layout figures store load move mend --help --version' options=
    local word=${COMP_WORDS[COMP_CWORD]} before=${COMP_WORDS[COMP_CWORD - 1]}
    COMPREPLY=()
    if [ "$COMP_CWORD" -eq 1 ]; then
        _spoonharbor_offer -W "$verbs" -- "$word"
        return
    fi
    case $before in
    --color) _spoonharbor_offer -W 'auto always never' -- "$word"; return ;;
    --deny) _spoonharbor_offer -W 'warnings' -- "$word"; return ;;
    --form) _spoonharbor_offer -W '1 2' -- "$word"; return ;;
    esac
    case ${COMP_WORDS[1]} in
    check) options='--style --deny --json --color --help' ;;
    layout) options='--check --diff --write --drop-comments --force --help' ;;
    figures) options='--each --json --csv --bars --help' ;;
    store) options='-o --force --help' ;;
    load) options='--text --help' ;;
    move) options='--form --text -o --force --help' ;;
    mend) options='--check --form --text --force --help' ;;
    *) options='--help' ;;
    esac
    case $word in
    -*) _spoonharbor_offer -W "$options" -- "$word" ;;
    *) _spoonharbor_offer -f -- "$word" ;;
    esac
}
complete -o filenames -F _spoonharbor spoonharbor
