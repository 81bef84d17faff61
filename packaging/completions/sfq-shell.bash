# Completion of sfq-shell for bash.
_sfq_shell() {
    local word=${COMP_WORDS[COMP_CWORD]} place=0 at
    COMPREPLY=()
    case ${COMP_WORDS[COMP_CWORD-1]} in
    --mode)
        mapfile -t COMPREPLY < <(compgen -W 'csv table json geojson' -- "$word")
        return
        ;;
    -c | --command)
        mapfile -t COMPREPLY < <(compgen -W 'SELECT EXPLAIN' -- "$word")
        return
        ;;
    esac
    if [[ $word == -* ]]; then
        mapfile -t COMPREPLY < <(compgen -W '-c --command --mode --all --no-history -h --help --version' -- "$word")
        return
    fi
    for ((at = 1; at < COMP_CWORD; at++)); do
        case ${COMP_WORDS[at]} in
        -c | --command | --mode) ((at++)) ;;
        -*) ;;
        *) ((place++)) ;;
        esac
    done
    if ((place == 0)); then
        compopt -o filenames
        mapfile -t COMPREPLY < <(compgen -f -X '!*.sql' -- "$word"; compgen -d -- "$word")
    elif ((place == 1)); then
        compopt -o filenames
        mapfile -t COMPREPLY < <(compgen -d -- "$word")
    fi
}
complete -F _sfq_shell sfq-shell
