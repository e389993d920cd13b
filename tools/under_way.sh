# For scripts that take long: `. tools/under_way.sh`, then `under_way WHAT COMMAND ..` runs the command, and says every 20
# seconds on standard error what is under way.

tell_what_is_under_way() {
    while sleep "${UNDER_WAY_SECONDS:-20}" > /dev/null 2>&1 && kill -0 $$ 2> /dev/null; do
        echo "  under way: $1 ($(($(date +%s) - $2)) s so far)"
    done
}

under_way() {
    what=$1
    shift
    tell_what_is_under_way "$what" "$(date +%s)" >&2 &
    telling=$!
    status=0
    "$@" || status=$?
    kill "$telling" 2> /dev/null || true
    return "$status"
}
