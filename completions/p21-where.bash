# Completions of p21-where for bash. Made by making/make-pages from the tool's own options.

_p21_where() {
    local word=${COMP_WORDS[COMP_CWORD]}
    COMPREPLY=()
    case ${COMP_WORDS[COMP_CWORD - 1]}:$word in
        *:-*) COMPREPLY=($(compgen -W '--help --schemas --schema --all --most --format' -- "$word")) ;;
    esac
    case ${COMP_WORDS[COMP_CWORD - 1]} in
        --most) compopt +o default ;;
        --format) COMPREPLY=($(compgen -W 'text lines json sarif' -- "$word")) ;;
    esac
}
complete -o default -F _p21_where p21-where
