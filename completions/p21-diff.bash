# Completions of p21-diff for bash. Made by making/make-pages from the tool's own options.

_p21_diff() {
    local word=${COMP_WORDS[COMP_CWORD]}
    COMPREPLY=()
    case ${COMP_WORDS[COMP_CWORD - 1]}:$word in
        *:-*) COMPREPLY=($(compgen -W '--help --schemas --data --ignore --full --names --pairing --stat --tolerance --format' -- "$word")) ;;
    esac
    case ${COMP_WORDS[COMP_CWORD - 1]} in
        --ignore) compopt +o default ;;
        --tolerance) compopt +o default ;;
        --format) COMPREPLY=($(compgen -W 'text json html' -- "$word")) ;;
    esac
}
complete -o default -F _p21_diff p21-diff
