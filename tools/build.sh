#!/bin/sh
# Proves and builds the archive of the calls or the program yard: sh tools/build.sh vpindex|yard
# sh tools/build.sh vpindex --target NAME then compiles the same proved code for another processor (tools/cross.sh).
# Each crate is shown on standard error as its proof begins. Where no file of the crates has changed since, nothing is
# done. With --proved behind its name, right after an rt ci that passed, what that left is not proved once more.
# VPINDEX_LIB_DIR, a full path, names the folder of another libvpindex.a, and then no archive is built.
set -eu
cd "$(dirname "$0")/.."
. tools/under_way.sh
if [ "${1:-} ${2:-}" = 'vpindex --target' ]; then
    sh tools/cross.sh --words "${3:-}" > /dev/null
    VPINDEX_LIB_DIR='' sh tools/build.sh vpindex
    under_way "the calls for $3" sh tools/cross.sh "$3"
    exit 0
fi
case ${2:-} in
    '') proved= ;;
    --proved) proved=yes ;;
    *) set -- ;;
esac
# Libraries of rt ci's have no stamp, and so rt would make them anew.
of_ci() { [ "$proved" ] && ! ls crates/*/out/rlib/stamp > /dev/null 2>&1; }
case ${1:-} in
    vpindex)
        case ${VPINDEX_LIB_DIR:-} in
            '') ;;
            /*)
                [ ! -f "$VPINDEX_LIB_DIR/libvpindex.a" ] || exit 0
                echo "$VPINDEX_LIB_DIR/libvpindex.a is not there, and VPINDEX_LIB_DIR says that it is" >&2
                exit 1
                ;;
            *)
                echo "VPINDEX_LIB_DIR is \`$VPINDEX_LIB_DIR\`, and it has to be a full path" >&2
                exit 1
                ;;
        esac
        crate=vpindex_c
        made=crates/vpindex_c/out/libvpindex_c.a
        built=target/staticlib/libvpindex.a
        build() {
            if of_ci; then
                sh tools/archive.sh "$made"
            else
                (cd crates/vpindex_c && rt lib)
            fi
        }
        ;;
    yard)
        crate=yard
        made=crates/yard/out/yard
        built=target/bin/yard
        # It is built to be run, and so it has to be: on no input.
        build() { [ "$proved" ] || (cd crates/yard && rt run < /dev/null > /dev/null); }
        ;;
    *)
        echo 'usage: sh tools/build.sh vpindex [--target NAME | --proved] | yard [--proved]' >&2
        exit 2
        ;;
esac
if ! command -v rt > /dev/null; then
    echo 'rt is not found: it is the command of the Rattle kit, which proves and builds. The README says which kit.' >&2
    exit 1
fi
# What it is built from: the kit, and the names and contents of all files of the crates.
files() { find crates.txt crates -path 'crates/*/out' -prune -o -type f -print | LC_ALL=C sort; }
sum=$({ rt version; files | xargs sha256sum; } | sha256sum)
if [ -f "$built" ] && [ "$(cat "$built.sum" 2> /dev/null)" = "$sum" ]; then
    exit 0
fi
# How many crates it rests on, itself included.
crates=$(awk -v root="$crate" -F': *' '
    /^[a-z]/ { sub(/ .*/, "", $1); rests[$1] = $2 }
    function reach(name, words, n, i) {
        if (name in rests && !(name in met)) {
            met[name] = 1
            n = split(rests[name], words, " ")
            for (i = 1; i <= n; i++) reach(words[i])
        }
    }
    END { reach(root); n = 0; for (name in met) n++; print n }' crates.txt)
log=target/$1.log
if ! mkdir -p "${built%/*}" || [ ! -w target ]; then
    echo "$built is not there or not of these crates, and $PWD/target cannot be written" >&2
    exit 1
fi
if [ "$proved" ]; then
    echo "building $built from what rt ci has proved; the log is $log" >&2
else
    echo "proving $crates crates and building $built: long the first time, less after a change; the log is $log" >&2
fi
# Of the lines of a build it shows each crate whose proof begins, at once (an awk may wait for more).
shown() {
    start=$(date +%s) n=0
    while IFS= read -r line; do
        case $line in
            'rt: chose --jobs '*' for '*)
                n=$((n + 1))
                echo "  $n of at most $crates  ${line##* for }  ($(($(date +%s) - start)) s so far)" >&2
                ;;
        esac
    done
}
build_and_show() { { { build && cp "$made" "$built"; } 2>&1 || echo 'rt: not built'; } | tee "$log" | shown; }
under_way "$built" build_and_show
if tail -n 1 "$log" | grep -q '^rt: not built$'; then
    cat "$log"
    exit 1
fi
echo "$sum" > "$built.sum"
