# What the checks in shell share; each begins with it. It goes to the project's folder, and makes the folder $place, which is gone
# at the end.
# shellcheck shell=sh
cd "$(dirname "$0")/.." || exit
place=$(mktemp -d)
trap 'rm -rf "$place"' EXIT

fail() {
    echo "$(basename "$0"): $1" >&2
    exit 1
}

# STATUS COMMAND..: the command ends so; what it printed is left in $place/out and $place/err
ends_with() {
    wanted=$1
    shift
    got=0
    "$@" >"$place/out" 2>"$place/err" || got=$?
    [ "$got" -eq "$wanted" ] || {
        cat "$place/err" >&2
        fail "$* ended with $got and not with $wanted"
    }
}
