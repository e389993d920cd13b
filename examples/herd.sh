#!/bin/sh
# Proves the calls, builds the program herd over them and runs it: sh examples/herd.sh COMMAND .. (--help shows them)
# Without words it makes target/herd/yard.img of examples/sound.list, weighed on day 1, shows it, writes its page, and ends
# with the path of that; where target/herd cannot be written it is in a new folder.
set -eu
root=$(realpath "$(dirname "$0")/..")
herd=$(sh "$root/tools/program.sh" herd)
[ $# -eq 0 ] || exec "$herd" "$@"
folder=$root/target/herd
if ! mkdir -p "$folder" 2> /dev/null || [ ! -w "$folder" ]; then
    folder=$(mktemp -d)
fi
cd "$folder"
rm -f yard.img
"$herd" new yard.img --order 4 --metric sum
"$herd" read yard.img "$root/examples/sound.list"
"$herd" show yard.img
"$herd" lots yard.img 500 2000 8000
"$herd" page yard.img -o yard.html
echo "$folder/yard.html"
