# Read by the scripts beside it: `needs TOOL..` ends a script where a tool is missing, `dir` is a folder that goes at its end, and
# the program is built before anything is timed.
here=$(dirname -- "$(readlink -f -- "$0")")
needs() {
    for tool in "$@"; do
        if ! command -v "$tool" >/dev/null; then
            echo "skipped: there is no $tool"
            exit 0
        fi
    done
}
dir=$(mktemp -d) || exit 1
trap 'rm -rf -- "$dir"' EXIT

# With no word the program prints its usage, and ends with 1.
built() {
    "$here/../mnesia_cli" </dev/null 2>"$dir/usage"
    case $? in
        1) ;;
        *) cat "$dir/usage" >&2; exit 1 ;;
    esac
}
