# Completion of sfq for bash.
_sfq() {
    local word=${COMP_WORDS[COMP_CWORD]} command=${COMP_WORDS[1]-} place=$COMP_CWORD
    COMPREPLY=()
    if ((COMP_CWORD == 1)); then
        mapfile -t COMPREPLY < <(compgen -W 'run check relate why pairs fault help -h --help -V --version' -- "$word")
        return
    fi
    if [[ $word == -* ]]; then
        local flags='-h --help'
        [[ $command == @(run|check|relate|why|pairs) ]] && flags+=' --why'
        mapfile -t COMPREPLY < <(compgen -W "$flags" -- "$word")
        return
    fi
    if [[ " ${COMP_WORDS[*]:2:COMP_CWORD-2} " == *' --why '* ]]; then
        ((place--))
    fi
    case $command:$place in
    run:2 | check:2)
        compopt -o filenames
        mapfile -t COMPREPLY < <(compgen -f -X '!*.sql' -- "$word"; compgen -d -- "$word")
        ;;
    run:3 | check:3)
        compopt -o filenames
        mapfile -t COMPREPLY < <(compgen -d -- "$word")
        ;;
    run:4) mapfile -t COMPREPLY < <(compgen -W 'SELECT EXPLAIN' -- "$word") ;;
    relate:2 | relate:3 | why:2 | why:3)
        mapfile -t COMPREPLY < <(compgen -W \
            'POINT( MULTIPOINT( LINESTRING( MULTILINESTRING( POLYGON( MULTIPOLYGON(' -- "$word")
        ;;
    pairs:2)
        compopt -o filenames
        mapfile -t COMPREPLY < <(compgen -f -- "$word")
        ;;
    fault:2) mapfile -t COMPREPLY < <(compgen -W "$(echo S{1..6} L{1..11} Q{1..12} W{1..4} V{1..8})" -- "$word") ;;
    help:2) mapfile -t COMPREPLY < <(compgen -W 'run check relate why pairs fault help' -- "$word") ;;
    esac
}
complete -F _sfq sfq
