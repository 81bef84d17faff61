# Whether a program was made from the present sources: the proved one of ./build, or the unproved one that ./sfq keeps.
# ./sfq reads this file; the Python tools run it, with the root of the repository as the working folder, as
#   sh tools/current.sh is|stamp|is-unproved|stamp-unproved [SUM]
#   sh tools/current.sh sum

# Chooses the proved program, or the unproved one.
of_proved() {
    program=crates/sfq/out/sfq
    stamp=crates/sfq/out/stamp
}

of_unproved() {
    program=out/unproved/sfq
    stamp=out/unproved/stamp
}

# Lists what the program and its contracts are made from: 'sources -print' and the like. Proofs don't count: what was
# proved once stays true when a proof is written anew.
sources() {
    find crates crates.txt \( -name out -o -name proofs \) -prune -o \
        -type f \( -name '*.rt' -o -name '*.antt' -o -name crates.txt \) "$@"
}

# A sum over names, sizes and times: quick, but it changes when a file is only touched.
sum_of_times() {
    { sources -printf '%p %s %T@\n'; find "$program" -printf '%s %T@\n'; } | sha256sum
}

# A sum over the contents.
sum_of_sources() {
    sources -print0 | LC_ALL=C sort -z | xargs -0 sha256sum | sha256sum
}

# Notes that the program was made from sources with this sum.
write_stamp() {
    { sum_of_times; echo "$1"; sha256sum <"$program"; } >"$stamp.$$" && mv "$stamp.$$" "$stamp"
}

is_current() {
    [ -x "$program" ] && [ -f "$stamp" ] || return 1
    { read -r times; read -r contents; read -r built; } <"$stamp" || return 1
    [ "$(sum_of_times)" != "$times" ] || return 0
    [ "$(sum_of_sources)" = "$contents" ] && [ "$(sha256sum <"$program")" = "$built" ] || return 1
    # Only times differ, as after a checkout: the next call is quick again, where the stamp can be written.
    write_stamp "$contents" 2>/dev/null || :
}

case ${0##*/}:${1-} in
current.sh:is) of_proved && is_current ;;
current.sh:is-unproved) of_unproved && is_current ;;
current.sh:sum) sum_of_sources ;;
current.sh:stamp) of_proved && write_stamp "$2" ;;
current.sh:stamp-unproved) of_unproved && write_stamp "$2" ;;
esac
