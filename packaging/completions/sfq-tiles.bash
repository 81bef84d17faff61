# Completion of sfq-tiles for bash.
_sfq_tiles() {
    local word=${COMP_WORDS[COMP_CWORD]} place=0 at
    COMPREPLY=()
    case ${COMP_WORDS[COMP_CWORD-1]} in
    --rows | --part) return ;;
    esac
    if [[ $word == -* ]]; then
        mapfile -t COMPREPLY < <(compgen -W '--rows --part -h --help -V --version' -- "$word")
        return
    fi
    for ((at = 1; at < COMP_CWORD; at++)); do
        case ${COMP_WORDS[at]} in
        --rows | --part) ((at++)) ;;
        -*) ;;
        *) ((place++)) ;;
        esac
    done
    if ((place == 0)); then
        compopt -o filenames
        mapfile -t COMPREPLY < <(compgen -f -X '!*.sql' -- "$word"; compgen -d -- "$word")
    elif ((place < 3)); then
        compopt -o filenames
        mapfile -t COMPREPLY < <(compgen -d -- "$word")
    fi
}
complete -F _sfq_tiles sfq-tiles
