# Completion of sfq-ask for bash.
_sfq_ask() {
    local word=${COMP_WORDS[COMP_CWORD]}
    COMPREPLY=()
    case ${COMP_WORDS[COMP_CWORD-1]} in
    --out) mapfile -t COMPREPLY < <(compgen -W 'csv table json geojson gpkg svg' -- "$word") ;;
    --invalid) mapfile -t COMPREPLY < <(compgen -W 'snap mend leave-out stop' -- "$word") ;;
    --grid | --origin) mapfile -t COMPREPLY < <(compgen -W 'auto' -- "$word") ;;
    --coverage | --to | --from | --layer | --key | --scale | --columns | --xy | --wkt) ;;
    *)
        if [[ $word == -* ]]; then
            mapfile -t COMPREPLY < <(compgen -W '--out --output --coverage --no-cache --grid --origin --to --from --layer --key --scale --columns --xy --wkt --invalid --part --anyway --no-relations --strict --lenient --allow-empty -h --help --version' -- "$word")
        elif [[ $word == [SE]* ]]; then
            mapfile -t COMPREPLY < <(compgen -W 'SELECT EXPLAIN' -- "$word"; compgen -f -- "$word")
        else
            compopt -o filenames
            mapfile -t COMPREPLY < <(compgen -f -- "$word")
        fi
        ;;
    esac
}
complete -F _sfq_ask sfq-ask
