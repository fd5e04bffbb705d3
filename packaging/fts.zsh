#compdef fts
# Completion of fts for zsh.

_fts() {
    local state line
    _arguments -C \
        '(- *)'{-h,--help}'[print help]' \
        '(- *)'{-V,--version}'[print the version]' \
        '1:command:((run\:"run the script on standard input" help\:"print help"))' \
        '*::argument:->arguments'
    case $state in
        arguments)
            case $words[1] in
                run)
                    _arguments \
                        '--workers=[threads that commit and search]:threads (1 to 64):' \
                        '(--deal)--runs=[a segment takes N adds in a row]:adds (1 to 65536):' \
                        '(--runs)--deal=[M segments take the adds in turn]:segments (1 to 64):' \
                        '--merge=[when segments are merged]:when:(off policy)' \
                        '(- *)'{-h,--help}'[print help]'
                    ;;
                help) _values 'command' 'run[run the script on standard input]' ;;
            esac
            ;;
    esac
}

_fts "$@"
