#!/bin/sh
# Measures the calls beside plain Rust programs, all optimised: sh bench/run.sh [SEED]
# Writes target/bench/calls.md and target/bench/growth.svg. The seed of the herds is a hexadecimal number.
# VPINDEX_LIB_DIR, a full path, names the folder of another libvpindex.a.
set -eu
cd "$(dirname "$0")/.."
mkdir -p target/bench
sh tools/build.sh vpindex
(cd rust && cargo build --offline --release --quiet --package bench)
target/rust/release/bench target/bench "$@"
