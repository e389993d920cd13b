#!/bin/sh
# Measures batches of 16 range queries over 4,096 items beside 16 single calls, all optimised: sh bench/batch.sh [SEED]
# writes target/bench/batch.md. VPINDEX_LIB_DIR, a full path, names the folder of another libvpindex.a.
set -eu
cd "$(dirname "$0")/.."
mkdir -p target/bench
sh tools/build.sh vpindex
(cd rust && cargo build --offline --release --quiet --package bench)
target/rust/release/bench batch "$@" | tee target/bench/batch.md
