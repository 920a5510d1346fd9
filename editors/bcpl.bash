# Completion of bcpl for bash.
_bcpl() {
    local word=${COMP_WORDS[COMP_CWORD]} before=${COMP_WORDS[COMP_CWORD - 1]} options='-h --help -V --version' ending
    local subcommands='compile generate run check show interpret help'
    COMPREPLY=()
    if [ "$COMP_CWORD" -eq 1 ]; then
        mapfile -t COMPREPLY < <(compgen -W "$subcommands $options" -- "$word")
        return
    fi
    case $before in
        -s|-t|--from|--to) return ;;
        --only) [ "${COMP_WORDS[1]}" = show ] || return
            mapfile -t COMPREPLY < <(compgen -W 'all tokens tree names ocode intcode map dot' -- "$word"); return ;;
        --ocode) compopt -o filenames; mapfile -t COMPREPLY < <(compgen -f -X '!*.ocode' -- "$word"; compgen -d -- "$word"); return ;;
    esac
    case ${COMP_WORDS[1]} in
        help) mapfile -t COMPREPLY < <(compgen -W "$subcommands" -- "$word"); return ;;
        compile|generate) mapfile -t COMPREPLY < <(compgen -W '-h --help' -- "$word"); return ;;
        run) options='-s -t --trace --from --to --only -h --help' ending=b ;;
        check) options='-t -h --help' ending=b ;;
        show) options='--only -h --help' ending=b ;;
        interpret) options='-s -t --sizes --trace --ocode -h --help' ending=int ;;
        *) return ;;
    esac
    case $word in
        -*) mapfile -t COMPREPLY < <(compgen -W "$options" -- "$word") ;;
        *) compopt -o filenames
           mapfile -t COMPREPLY < <(compgen -f -X "!*.$ending" -- "$word"; compgen -d -- "$word") ;;
    esac
}
complete -F _bcpl bcpl ./bcpl
