# What bash completes behind `idlc` and `idltool`: options, names of files, and the codes that `idltool explain` knows.

_idl_files() {
    compopt -o filenames 2>/dev/null
    mapfile -t COMPREPLY < <(compgen -f -X '!*.idl' -- "$1"; compgen -d -- "$1")
}

_idl_directories() {
    compopt -o filenames 2>/dev/null
    mapfile -t COMPREPLY < <(compgen -d -- "$1")
}

_idlc() {
    local word=${COMP_WORDS[COMP_CWORD]} before=${COMP_WORDS[COMP_CWORD - 1]}
    case $before in
        -I) _idl_directories "$word" ;;
        -D | -U) ;;
        *)
            case $word in
                -*) mapfile -t COMPREPLY < <(compgen -W '-D -U -I -d --listing --session --help --version' -- "$word") ;;
                *) _idl_files "$word" ;;
            esac
            ;;
    esac
}

_idltool() {
    local word=${COMP_WORDS[COMP_CWORD]} before=${COMP_WORDS[COMP_CWORD - 1]}
    if [ "$COMP_CWORD" = 1 ]; then
        mapfile -t COMPREPLY < <(compgen -W 'explain deps check json diff lsp help --help --version' -- "$word")
        return
    fi
    case ${COMP_WORDS[1]} in
        help) mapfile -t COMPREPLY < <(compgen -W 'explain deps check json diff lsp' -- "$word") ;;
        explain)
            mapfile -t COMPREPLY < <(compgen -W "$(idltool explain 2>/dev/null | sed 's/^refused //; s/:.*//')" -- "${word^}")
            ;;
        lsp)
            mapfile -t COMPREPLY < <(compgen -W '--stdio --help' -- "$word")
            ;;
        deps)
            case $before in
                -I) _idl_directories "$word" ;;
                -D | -U | -t) ;;
                *)
                    case $word in
                        -*) mapfile -t COMPREPLY < <(compgen -W '-D -U -I -t --generated --present --help' -- "$word") ;;
                        *) _idl_files "$word" ;;
                    esac
                    ;;
            esac
            ;;
        check | json)
            case $before in
                -I) _idl_directories "$word" ;;
                -D | -U) ;;
                *)
                    case ${COMP_WORDS[1]}$word in
                        check-*) mapfile -t COMPREPLY < <(compgen -W '-D -U -I --werror --help' -- "$word") ;;
                        json-*) mapfile -t COMPREPLY < <(compgen -W '-D -U -I --help' -- "$word") ;;
                        *) _idl_files "$word" ;;
                    esac
                    ;;
            esac
            ;;
        diff)
            case $before in
                -I | --old | --old-I | --new-I) _idl_directories "$word" ;;
                -D | -U) ;;
                --fail-on) mapfile -t COMPREPLY < <(compgen -W 'never wire client servant names new' -- "$word") ;;
                --format) mapfile -t COMPREPLY < <(compgen -W 'text json' -- "$word") ;;
                *)
                    case $word in
                        -*) mapfile -t COMPREPLY < <(compgen -W '-D -U -I --old --old-I --new-I --fail-on --format --help' -- "$word") ;;
                        *) _idl_files "$word" ;;
                    esac
                    ;;
            esac
            ;;
    esac
}

complete -F _idlc idlc
complete -F _idltool idltool
