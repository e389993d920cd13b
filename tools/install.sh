#!/bin/sh
# Installs the header, the archive and a pkg-config file; --help says how.
set -eu
usage='usage: sh tools/install.sh PREFIX

Installs PREFIX/include/vpindex.h, PREFIX/lib/libvpindex.a and PREFIX/lib/pkgconfig/vpindex.pc.
The archive is proved and built first, where that was not done yet.

DESTDIR          a folder to put before PREFIX when files are written, for packages: the pkg-config
                 file names PREFIX alone
VPINDEX_LIB_DIR  a full path: the folder of another libvpindex.a, which is taken'
case $#:${1:-} in
    1:--help | 1:-h) echo "$usage"; exit 0 ;;
    1: | 1:-*) echo "$usage" >&2; exit 2 ;;
    1:/*) prefix=$1 ;;
    1:*) prefix=$PWD/$1 ;;
    *) echo "$usage" >&2; exit 2 ;;
esac
case ${DESTDIR:-/} in
    /*) root=${DESTDIR:-}$prefix ;;
    *) root=$PWD/$DESTDIR$prefix ;;
esac
cd "$(dirname "$0")/.."
sh tools/build.sh vpindex
version=$(sed -n 's/^#define VPINDEX_VERSION_TEXT "\(.*\)"$/\1/p' include/vpindex.h)
mkdir -p "$root/include" "$root/lib/pkgconfig"
cp include/vpindex.h "$root/include/vpindex.h"
cp "${VPINDEX_LIB_DIR:-target/staticlib}/libvpindex.a" "$root/lib/libvpindex.a"
cat > "$root/lib/pkgconfig/vpindex.pc" << END
prefix=$prefix
includedir=\${prefix}/include
libdir=\${prefix}/lib

Name: vpindex
Description: A verified index of up to 4,096 items by likeness
Version: $version
Cflags: -I"\${includedir}"
Libs: -L"\${libdir}" -lvpindex
END
echo "vpindex $version is installed under $root"
