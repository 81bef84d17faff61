# Completion of sfq-audit for bash.
_sfq_audit() {
    local word=${COMP_WORDS[COMP_CWORD]} words=
    COMPREPLY=()
    if ((COMP_CWORD == 1)); then
        mapfile -t COMPREPLY < <(compgen -W 'run write -h --help --version' -- "$word")
        return
    fi
    case ${COMP_WORDS[COMP_CWORD-1]} in
    --engine) words='shapely postgis: spatialite gdal jts command:' ;;
    --ask) words='matrix predicates validity' ;;
    --family) words='any corners overlaps crossings through closed ends holes empty limit touching slivers' ;;
    --format) [[ ${COMP_WORDS[1]} == write ]] && words='jts-xml csv geojson' || words='text json html' ;;
    --predicates) words='all held none' ;;
    --random | --seed | --scale | --grid | --cases | --tries | --patience) return ;;
    esac
    if [[ $words ]]; then
        mapfile -t COMPREPLY < <(compgen -W "$words" -- "$word")
    elif [[ $word == -* && ${COMP_WORDS[1]} == write ]]; then
        mapfile -t COMPREPLY < <(compgen -W '--format --predicates --random --seed --family --scale --sql --layers --grid --output --sfq -h --help' -- "$word")
    elif [[ $word == -* ]]; then
        mapfile -t COMPREPLY < <(compgen -W '--engine --ask --random --seed --family --scale --sql --layers --grid --format --output --all --tests --cases
            --tries --patience --sfq -h --help' -- "$word")
    else
        compopt -o filenames
        mapfile -t COMPREPLY < <(compgen -f -- "$word")
    fi
}
complete -F _sfq_audit sfq-audit
