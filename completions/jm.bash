# Completion of jm for bash, to be sourced, or as ~/.local/share/bash-completion/completions/jm. Made by bench/user-files of what jm says of itself.
_jm_words() {
    mapfile -t COMPREPLY < <(compgen -W "$*" -- "$word")
}
_jm_directories() {
    compopt -o filenames 2> /dev/null
    mapfile -t COMPREPLY < <(compgen -d -- "${word//\\/}")
}
# The files whose names end so, and directories.
_jm_files() {
    local end
    compopt -o filenames 2> /dev/null
    (($#)) || set -- ""
    mapfile -t COMPREPLY < <({ for end; do compgen -f -X "!*$end" -- "${word//\\/}"; done; compgen -d -- "${word//\\/}"; } | sort -u)
}
# How many arguments stand before the word, behind the command: neither options nor their values.
_jm_arguments_before() {
    local at count=0
    for ((at = 2; at < COMP_CWORD; at++)); do
        if [[ " $valued " == *" ${COMP_WORDS[at]} "* ]]; then
            ((at++))
            [[ ${COMP_WORDS[at]} != = ]] || ((at++))
        elif [[ ${COMP_WORDS[at]} != -* ]]; then
            ((count++))
        fi
    done
    echo "$count"
}
_jm() {
    local word=${COMP_WORDS[COMP_CWORD]} before=${COMP_WORDS[COMP_CWORD - 1]} names="" valued="" more="" at
    local -a rest=()
    COMPREPLY=()
    if [[ $word == = ]]; then
        word=""
    elif [[ $before == = ]]; then
        before=${COMP_WORDS[COMP_CWORD - 2]}
    fi
    if ((COMP_CWORD == 1)); then
        _jm_words run replay explore check why trace film asm dis debug explain version -h --help
        return
    fi
    case ${COMP_WORDS[1]} in
        run)
            names="--heap --copiers --schedule --steps --quantum --workers --stress --record --show-heap --tell --path --main -h --help"
            valued="--heap --copiers --schedule --steps --quantum --workers --stress --record --path --main"
            case $before in
                --heap | --copiers | --steps | --quantum | --workers | --main)
                    :
                    return
                    ;;
                --schedule | --record)
                    _jm_files
                    return
                    ;;
                --stress)
                    _jm_words minor full
                    return
                    ;;
                --path)
                    _jm_directories
                    return
                    ;;
            esac
            rest=('_jm_files .class .j')
            more=1
            ;;
        replay)
            names="--heap --copiers --show-heap --tell --path --main -h --help"
            valued="--heap --copiers --path --main"
            case $before in
                --heap | --copiers | --main)
                    :
                    return
                    ;;
                --path)
                    _jm_directories
                    return
                    ;;
            esac
            rest=('_jm_files' '_jm_files .class .j')
            more=1
            ;;
        explore)
            names="--switches --steps --runs --slice --outcome --heap --tell --path --main -h --help"
            valued="--switches --steps --runs --slice --outcome --heap --path --main"
            case $before in
                --switches | --steps | --runs | --slice | --outcome | --heap | --main)
                    :
                    return
                    ;;
                --path)
                    _jm_directories
                    return
                    ;;
            esac
            rest=('_jm_files .class .j')
            more=1
            ;;
        check)
            names="--list --path --main -h --help"
            valued="--path --main"
            case $before in
                --path)
                    _jm_directories
                    return
                    ;;
                --main)
                    :
                    return
                    ;;
            esac
            rest=('_jm_files .class .j')
            more=1
            ;;
        why)
            names="--heap --copiers --schedule --steps --quantum --path --main -h --help"
            valued="--heap --copiers --schedule --steps --quantum --path --main"
            case $before in
                --heap | --copiers | --steps | --quantum | --main)
                    :
                    return
                    ;;
                --schedule)
                    _jm_files
                    return
                    ;;
                --path)
                    _jm_directories
                    return
                    ;;
            esac
            rest=('_jm_files .class .j')
            more=1
            ;;
        trace)
            names="--thread --from --most --heap --copiers --schedule --steps --quantum --path --main -h --help"
            valued="--thread --from --most --heap --copiers --schedule --steps --quantum --path --main"
            case $before in
                --thread | --from | --most | --heap | --copiers | --steps | --quantum | --main)
                    :
                    return
                    ;;
                --schedule)
                    _jm_files
                    return
                    ;;
                --path)
                    _jm_directories
                    return
                    ;;
            esac
            rest=('_jm_files .class .j')
            more=1
            ;;
        film)
            names="--from --heap --copiers --schedule --steps --quantum --source --path --main -h --help"
            valued="--from --heap --copiers --schedule --steps --quantum --source --path --main"
            case $before in
                --from | --heap | --copiers | --steps | --quantum | --main)
                    :
                    return
                    ;;
                --schedule)
                    _jm_files
                    return
                    ;;
                --source | --path)
                    _jm_directories
                    return
                    ;;
            esac
            rest=('_jm_files .class .j')
            more=1
            ;;
        asm)
            names="-h --help"
            rest=('_jm_files .j' '_jm_files .class')
            ;;
        dis)
            names="--bare -h --help"
            rest=('_jm_files .class .j')
            ;;
        debug)
            names="--heap --copiers --tell --path --main -h --help"
            valued="--heap --copiers --path --main"
            case $before in
                --heap | --copiers | --main)
                    :
                    return
                    ;;
                --path)
                    _jm_directories
                    return
                    ;;
            esac
            rest=('_jm_files .class .j')
            more=1
            ;;
        explain)
            names="-h --help"
            rest=('_jm_words 0 1 2 3 4 5 6 7 8 9 10 11 12 13 14 15 20 21 22 23 24 30 31 32 33 34 35 36 40 41 42 43 45 46 50 51 52 53 54 55 56 57 60 61 62 63 64 65 70 71 80 81 90')
            ;;
        version)
            names="-h --help"
            rest=()
            ;;
    esac
    if [[ $word == -* ]]; then
        _jm_words $names
        return
    fi
    at=$(_jm_arguments_before)
    [[ -z $more ]] || ((at < ${#rest[@]})) || at=$((${#rest[@]} - 1))
    ${rest[at]}
}
complete -F _jm jm
