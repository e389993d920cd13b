#!/bin/sh
# Measures the calls beside nanoflann, faiss and plain C++ scans, all optimised: sh bench/peers.sh [SEED..]
# writes target/bench/peers.md. It needs Debian's packages g++, libnanoflann-dev, libfaiss-dev and libopenblas-dev and
# fetches nothing. VPINDEX_LIB_DIR, a full path, names the folder of another libvpindex.a.
set -eu
cd "$(dirname "$0")/.."
missing=
for package in g++ libnanoflann-dev libfaiss-dev libopenblas-dev; do
    dpkg-query -W -f '${Status}' "$package" 2> /dev/null | grep -q 'ok installed' || missing="$missing $package"
done
if [ -n "$missing" ]; then
    echo "bench/peers.sh needs these Debian packages, which are not installed:$missing" >&2
    exit 1
fi
seeds=${*:-9E3779B97F4A7C15 510E527FADE682D1 9B05688C2B3E6C1F 3243F6A8885A308D 452821E638D01377}
mkdir -p target/bench
sh tools/build.sh vpindex
# nanoflann copies a tree with nothing in it yet, which g++ would warn of.
g++ -std=c++17 -O3 -Wall -Wextra -Wno-maybe-uninitialized -fopenmp -I include -o target/bench/peers \
    bench/peers/peers.cpp -L "${VPINDEX_LIB_DIR:-target/staticlib}" -lvpindex -lfaiss -lopenblas
target/bench/peers $seeds | tee target/bench/peers.md
