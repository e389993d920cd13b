#!/bin/sh
# Proves the calls and runs the first program over them, in Rust as c/quickstart.c is in C: six items added, both
# searches, one removed, an image saved and loaded, a list read.
set -eu
program=$(sh "$(dirname "$0")/../tools/program.sh" quickstart)
exec "$program"
