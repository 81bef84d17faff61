# How ./sfq runs the program that isn't proved.

# Runs a program by its path with the words that follow, after a line on standard error that says what it is. Where the
# version is asked, this line is a part of the answer, so SFQ_QUIET doesn't leave it out.
run_unproved() {
    case ${2-} in
    --version | -V) is_quiet=0 ;;
    *) is_quiet=${SFQ_QUIET:-0} ;;
    esac
    [ "$is_quiet" != 0 ] || echo "sfq: not the proved program, which ./build makes" >&2 || :
    # The run-time checks of memory: a refused growth ends with 'out of memory' as in the proved program, and the search for
    # leaks at the end, which needs a debugger's rights, is left out.
    export ASAN_OPTIONS="${ASAN_OPTIONS-detect_leaks=0:allocator_may_return_null=1}"
    exec "$@"
}
