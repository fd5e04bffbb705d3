# Completion of fts for bash.
_fts() {
    local word=$2 before=$3
    # bash cuts --merge=policy into three words.
    if [[ $word == = ]]; then
        word=
    elif [[ $before == = ]]; then
        before=${COMP_WORDS[COMP_CWORD - 2]}
    fi
    local choices
    case $before in
        --merge) choices="off policy" ;;
        --workers | --runs | --deal) choices= ;;
        *)
            case ${COMP_WORDS[1]} in
                run) choices="--workers --runs --deal --merge --help" ;;
                help) choices="run" ;;
                *) choices="run help --help --version" ;;
            esac
            ;;
    esac
    mapfile -t COMPREPLY < <(compgen -W "$choices" -- "$word")
}
complete -F _fts fts
