# Completions of sideways for bash: source this file, or put it where bash-completion looks.
_sideways() {
    local word=${COMP_WORDS[COMP_CWORD]} before=${COMP_WORDS[COMP_CWORD-1]}
    COMPREPLY=()
    if [ "$COMP_CWORD" -eq 1 ]; then
        COMPREPLY=($(compgen -W "run shell check describe order import explain help -h --help -V --version" -- "$word"))
        return
    fi
    case ${COMP_WORDS[1]}:$before in
    run:--output) COMPREPLY=($(compgen -W "lines csv json table" -- "$word")); return ;;
    describe:--output) COMPREPLY=($(compgen -W "table json" -- "$word")); return ;;
    order:--by) COMPREPLY=($(compgen -W "times sessions" -- "$word")); return ;;
    order:--keys) COMPREPLY=($(compgen -W "counted any" -- "$word")); return ;;
    import:--times) COMPREPLY=($(compgen -W "seconds days text" -- "$word")); return ;;
    import:--long) COMPREPLY=($(compgen -W "cut drop number" -- "$word")); return ;;
    import:--ragged) COMPREPLY=($(compgen -W "fill" -- "$word")); return ;;
    *:--table | *:--script | *:--history | *:--dictionary | *:--where | *:--from-logs | *:--log) COMPREPLY=($(compgen -f -- "$word")); return ;;
    esac
    case ${COMP_WORDS[1]} in
    run) COMPREPLY=($(compgen -W "--table --header --script -e --budget --maps --cuts --limit --threads --stats --times --quiet --all-faults --output --history --log -h --help" -- "$word")) ;;
    shell) COMPREPLY=($(compgen -W "--header --budget --maps --cuts --limit --all-faults --history --names -h --help" -- "$word") $(compgen -f -- "$word")) ;;
    check) COMPREPLY=($(compgen -W "--explain --from-logs -h --help" -- "$word") $(compgen -f -- "$word")) ;;
    describe) COMPREPLY=($(compgen -W "--header --output --all-faults -h --help" -- "$word") $(compgen -f -- "$word")) ;;
    order) COMPREPLY=($(compgen -W "--table --by --keys --slack --states --limit --where --quiet -h --help" -- "$word") $(compgen -f -- "$word")) ;;
    import) COMPREPLY=($(compgen -W "--columns --rename --kind --times --empty --null --long --dictionary --sample --ragged --delimiter --no-header --quiet -h --help" -- "$word") $(compgen -f -- "$word")) ;;
    explain) COMPREPLY=($(compgen -W "-h --help" -- "$word")) ;;
    esac
}
complete -o filenames -F _sideways sideways
