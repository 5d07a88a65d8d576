# Completion of fdbench for bash (docs/program.md). bench/completions.py compares it with the program's help.
_fdbench() {
    local word=${COMP_WORDS[COMP_CWORD]} before=${COMP_WORDS[COMP_CWORD - 1]} options
    COMPREPLY=()
    if [ "$COMP_CWORD" -eq 1 ]; then
        mapfile -t COMPREPLY < <(compgen -W 'check list run compare help --help' -- "$word")
        return
    fi
    case $before in
        --print)
            mapfile -t COMPREPLY < <(compgen -W 'trace report both' -- "$word")
            return
            ;;
        --workers | --window) return ;;
    esac
    case ${COMP_WORDS[1]} in
        check) options='--help' ;;
        list) options='--print --help' ;;
        run) options='--workers --window --print --help' ;;
        compare) options='--workers --window --help' ;;
        help)
            mapfile -t COMPREPLY < <(compgen -W 'check list run compare' -- "$word")
            return
            ;;
        *) return ;;
    esac
    case $word in
        -*) mapfile -t COMPREPLY < <(compgen -W "$options" -- "$word") ;;
        *) mapfile -t COMPREPLY < <(compgen -f -- "$word") ;;
    esac
}
complete -o filenames -F _fdbench fdbench
