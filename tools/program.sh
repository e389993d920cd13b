#!/bin/sh
# Proves the calls, builds a program over them with cargo and writes its path: sh tools/program.sh herd|list|quickstart
# VPINDEX_LIB_DIR, a full path, names the folder of another libvpindex.a, which is then not built, and CARGO_TARGET_DIR
# another folder for what cargo builds. Where that cannot be written, the program that was built there is taken.
set -eu
here=$PWD
cd "$(dirname "$0")/.."
sh tools/build.sh vpindex
# The page that herd writes has the calls in it. VPINDEX_WASM, a full path, names another vpindex.wasm.
if [ "$1" = herd ] && [ -z "${VPINDEX_WASM:-}" ] && [ ! target/wasm32/vpindex.wasm -nt target/staticlib/libvpindex.a ]; then
    sh tools/build.sh vpindex --target wasm32 >&2
fi
folder=${CARGO_TARGET_DIR:-$PWD/target/rust}
case $folder in
    /*) ;;
    *) folder=$here/$folder ;;
esac
case $1 in
    herd) program=$folder/release/herd of='--package herd' ;;
    *) program=$folder/release/examples/$1 of="--package vpindex --example $1" ;;
esac
if mkdir -p "$folder" 2> /dev/null && [ -w "$folder" ]; then
    # cargo says what it compiles when it does so for the first time
    quiet=--quiet
    [ -x "$program" ] || quiet=
    build() { (cd rust && CARGO_TARGET_DIR=$folder cargo build --offline $quiet --release $of); }
    . tools/under_way.sh
    under_way "cargo's build of $1" build
elif [ ! -x "$program" ]; then
    echo "$program is not there, and its folder cannot be written: CARGO_TARGET_DIR names another" >&2
    exit 1
fi
echo "$program"
