#!/bin/sh
# Measures lots over 4,096 items, by one radius and by 32, beside the same in plain Rust, all optimised: sh bench/lots.sh
# [SEED] writes target/bench/lots.md.
set -eu
cd "$(dirname "$0")/.."
mkdir -p target/bench
sh tools/build.sh vpindex
(cd rust && cargo build --offline --release --quiet --package bench)
target/rust/release/bench lots "$@" | tee target/bench/lots.md
