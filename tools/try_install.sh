#!/bin/sh
# Installs into folders of its own and builds a C program there through pkg-config, statically and as part of a shared
# object: sh tools/try_install.sh PROGRAM.c
set -eu
program=$(realpath "$1")
cd "$(dirname "$0")/.."
install=$PWD/tools/install.sh
version=$(sed -n 's/^version = "\(.*\)"$/\1/p' rust/Cargo.toml)
room=$(mktemp -d)
trap 'rm -r "$room"' EXIT
cd "$room"
cp "$program" first.c
sed 's/^int main/int first/' first.c > part.c
echo 'int first(void); int main(void) { return first(); }' > main.c

# What pkg-config writes of a prefix with a space is for a shell to read.
built() {
    export PKG_CONFIG_PATH="$1/lib/pkgconfig"
    words=$(pkg-config --cflags --libs vpindex)
    eval "cc -static -o first first.c $words"
    ./first
    eval "cc -shared -fPIC -o libpart.so part.c $words"
    cc -o main main.c -L. -lpart -Wl,-rpath,"$room"
    ./main
    # the header's version is that of the Rust crates
    test "$(pkg-config --modversion vpindex)" = "$version"
}
sh "$install" "$room/prefix"
built "$room/prefix"
sh "$install" 'a prefix'
built "$room/a prefix"

# A package: its files are under DESTDIR, and say where they will be.
DESTDIR=$room/package sh "$install" /usr/local
test -f package/usr/local/include/vpindex.h
test -f package/usr/local/lib/libvpindex.a
grep -qx 'prefix=/usr/local' package/usr/local/lib/pkgconfig/vpindex.pc

# Asked for help, and used in ways that it has not.
sh "$install" --help | grep -q '^usage: '
for words in '' '--prefix' 'one two'; do
    status=0
    sh "$install" $words 2> said || status=$?
    test "$status" = 2
    grep -q '^usage: ' said
done
# An archive that is not where it is said to be, in words.
if VPINDEX_LIB_DIR=staticlib sh "$install" other 2> said; then exit 1; fi
grep -qx 'VPINDEX_LIB_DIR is `staticlib`, and it has to be a full path' said
if VPINDEX_LIB_DIR=$room sh "$install" other 2> said; then exit 1; fi
grep -qx "$room/libvpindex.a is not there, and VPINDEX_LIB_DIR says that it is" said
test ! -e other
