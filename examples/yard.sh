#!/bin/sh
# Proves and builds the program yard, and runs it on the rules' whole example, or with `-` on the lines of standard
# input.
set -eu
cd "$(dirname "$0")/.."
sh tools/build.sh yard
if [ "${1:-}" = - ]; then
    exec target/bin/yard
fi
exec target/bin/yard < crates/yard/stdin
