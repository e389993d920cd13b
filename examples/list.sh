#!/bin/sh
# Proves the calls and reads a herd list over them, weighed on day 1: examples/sound.list, or the file that is named,
# weighed on the day that is named after it. It says how many items were added, or which line is wrong and why (and then
# ends with status 1), and shows the three nearest to the first.
set -eu
list=${1:-$(dirname "$0")/sound.list}
[ -r "$list" ] || { echo "$list: not a file that can be read" >&2; exit 1; }
program=$(sh "$(dirname "$0")/../tools/program.sh" list)
exec "$program" "$list" "${2:-1}"
