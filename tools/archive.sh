#!/bin/sh
# Builds the archive of the calls as `rt lib` does in crates/vpindex_c, over the libraries that are proved and built below
# it: sh tools/archive.sh FILE [TOOLCHAIN], the last the folder of another clang and llvm-ar than the kit's.
set -eu
cd "$(dirname "$0")/.."
kit=$(dirname "$(dirname "$(readlink -f "$(command -v rt)")")")
case $1 in
    /*) file=$1 ;;
    *) file=$PWD/$1 ;;
esac
crates=$PWD/crates toolchain=${2:-$kit/toolchain}
set -- --extern "std=$kit/rlibs/std.rlib" -L "dependency=$kit/rlibs"
for crate in $(sed -n 's/^vpindex_c staticlib: *//p' crates.txt); do
    set -- "$@" --extern "$crate=$crates/$crate/out/rlib/$crate.rlib"
done
for folder in "$crates"/*/out/rlib; do
    set -- "$@" -L "dependency=$folder"
done
mkdir -p "${file%/*}"
cd crates/vpindex_c
"$kit/bin/rattle" build --crate-name vpindex_c src/lib.rt "$@" --antt-project "$kit/rattle/logic/antt-project.json" \
    --logic-built "$kit/logic_built" --links vpindex_c= --crate-type staticlib --toolchain "$toolchain" \
    --backend llvm -o "$file"
