# Completions of p21-table for bash. Made by making/make-pages from the tool's own options.

_p21_table() {
    local word=${COMP_WORDS[COMP_CWORD]}
    COMPREPLY=()
    case ${COMP_WORDS[COMP_CWORD - 1]}:$word in
        *:-*) COMPREPLY=($(compgen -W '--help --schemas --data --names --schema --manifest --resume --bagit --verify --full --base --files-from --format --database --retry --jobs' -- "$word")) ;;
    esac
    case ${COMP_WORDS[COMP_CWORD - 1]} in
        --format) COMPREPLY=($(compgen -W 'text tsv csv json sqlite' -- "$word")) ;;
        --retry) compopt +o default ;;
        -j | --jobs) compopt +o default ;;
    esac
}
complete -o default -F _p21_table p21-table
