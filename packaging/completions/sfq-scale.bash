# Completion of sfq-scale for bash.
_sfq_scale() {
    local word=${COMP_WORDS[COMP_CWORD]} place=0 at
    COMPREPLY=()
    if ((COMP_CWORD == 1)); then
        mapfile -t COMPREPLY < <(compgen -W 'run -h --help --version' -- "$word")
        return
    fi
    case ${COMP_WORDS[COMP_CWORD-1]} in
    --room)
        compopt -o filenames
        mapfile -t COMPREPLY < <(compgen -d -- "$word")
        return
        ;;
    --sfq | --tiles | --worker-sfq)
        compopt -o filenames
        mapfile -t COMPREPLY < <(compgen -f -- "$word")
        return
        ;;
    --scheduler | --rows | --most-pairs | --wait) return ;;
    esac
    if [[ $word == -* ]]; then
        mapfile -t COMPREPLY < <(compgen -W '--scheduler --send --room --rows --most-pairs --explain --progress --wait
            --sfq --tiles --worker-sfq -h --help' -- "$word")
        return
    fi
    for ((at = 2; at < COMP_CWORD; at++)); do
        case ${COMP_WORDS[at]} in
        --scheduler | --room | --rows | --most-pairs | --wait | --sfq | --tiles | --worker-sfq) ((at++)) ;;
        -*) ;;
        *) ((place++)) ;;
        esac
    done
    case $place in
    0)
        compopt -o filenames
        mapfile -t COMPREPLY < <(compgen -f -X '!*.sql' -- "$word"; compgen -d -- "$word")
        ;;
    1)
        compopt -o filenames
        mapfile -t COMPREPLY < <(compgen -d -- "$word")
        ;;
    2) mapfile -t COMPREPLY < <(compgen -W 'SELECT' -- "$word") ;;
    esac
}
complete -F _sfq_scale sfq-scale
