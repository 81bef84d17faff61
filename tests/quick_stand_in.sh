#!/bin/sh
# A stand-in for the program sfq in tests of `bench/all.py --quick`: it prints what the C program for the task prints, which is in the
# folder above. Where there is none, it prints nothing. Or it only sleeps, for SECONDS_OF_STAND_IN.
[ -z "$SECONDS_OF_STAND_IN" ] || exec sleep "$SECONDS_OF_STAND_IN"
run() {
    program=../$1
    shift
    [ ! -x "$program" ] || "$program" "$@"
}
case "$*" in
    relate*) run stars input ;;
    check*) run check_polygons area area.csv ;;
    *ST_Touches*) run parcels_that_touch first.csv ;;
    *"JOIN second"*) run points_in_parcels first.csv second.csv ;;
    *ST_Within*) run window pt.csv window ;;
    *) run filter t.csv ;;
esac
