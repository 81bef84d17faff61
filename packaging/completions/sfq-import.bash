# Completion of sfq-import for bash.
_sfq_import() {
    local word=${COMP_WORDS[COMP_CWORD]}
    COMPREPLY=()
    case ${COMP_WORDS[COMP_CWORD-1]} in
    --invalid) mapfile -t COMPREPLY < <(compgen -W 'snap mend leave-out stop' -- "$word") ;;
    --out)
        compopt -o filenames
        mapfile -t COMPREPLY < <(compgen -d -- "$word")
        ;;
    --grid | --origin) mapfile -t COMPREPLY < <(compgen -W 'auto' -- "$word") ;;
    --changed)
        compopt -o filenames
        mapfile -t COMPREPLY < <(compgen -f -- "$word")
        ;;
    --to | --from | --layer | --key | --scale | --columns | --xy | --wkt) ;;
    *)
        if [[ $word == -* ]]; then
            mapfile -t COMPREPLY < <(compgen -W '--grid --origin --out --to --from --layer --key --scale --columns --xy --wkt --invalid --part --anyway --no-relations --changed --rejects --steps --replace --strict --allow-empty -h --help --version' -- "$word")
        else
            compopt -o filenames
            mapfile -t COMPREPLY < <(compgen -f -- "$word")
        fi
        ;;
    esac
}
complete -F _sfq_import sfq-import
