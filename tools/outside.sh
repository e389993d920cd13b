#!/bin/sh
# The calls as they ship, from outside: the archive, the Rust crate with its tests and its examples, the C programs.
# VPINDEX_LIB_DIR, a full path, names the folder of another libvpindex.a, which is then not written; VPINDEX_WASM likewise
# another vpindex.wasm for the page of herd.
set -eu
cd "$(dirname "$0")/.."
out=target/outside
mkdir -p "$out"

# Runs a step with its output in a file, shown where it fails.
step() {
    name=$1
    shift
    if "$@" > "$out/$name.log" 2>&1; then
        echo "outside: $name passed"
    else
        cat "$out/$name.log"
        echo "outside: $name failed"
        exit 1
    fi
}

# Runs a program and holds what it writes to the text of a file. (A step's function goes on after a failure: hence the
# &&.)
example() {
    expected=$1
    shift
    "$@" > "$out/written" && diff "$expected" "$out/written"
}

# A program that has to end with another status than 0.
refused() { ! "$@"; }

tests() { (cd rust && cargo test --offline); }
# The crate without an operating system and an allocator.
bare_tests() { (cd rust && cargo test --offline --package vpindex --no-default-features --lib --test lent); }
lints() { (cd rust && cargo clippy --offline "$@" -- --deny warnings); }
documents() { (cd rust && RUSTDOCFLAGS='--deny warnings' cargo doc --offline --no-deps --package vpindex); }
# An archive that is not a full path away, or not there, is refused in one sentence.
no_archive() {
    ! (cd rust && VPINDEX_LIB_DIR=$1 cargo check --offline --package vpindex --target-dir ../target/no-archive) \
        2> "$out/said" && grep -q "$2" "$out/said"
}
strict='-pedantic -Wall -Wextra -Wconversion -Wsign-conversion -Werror -Iinclude'
# Compiles a C program with the archive, as C11 or as C++17, and runs it.
c11() { cc -std=c11 -O2 $strict -o "$out/program" "$1" "$VPINDEX_LIB_DIR/libvpindex.a" && "$out/program"; }
cxx17() {
    c++ -std=c++17 -O2 $strict -Wold-style-cast -o "$out/program" -x c++ "$1" -x none "$VPINDEX_LIB_DIR/libvpindex.a" &&
        "$out/program"
}
installed() { sh tools/try_install.sh "$out/first.c"; }
# The archive needs nothing of the system but the C library's memset and memcpy.
needs() {
    nm -u "$VPINDEX_LIB_DIR/libvpindex.a" > "$out/undefined" &&
        ! grep ' U ' "$out/undefined" | grep -Ev ' mem(set|cpy)$'
}
list() { sh examples/list.sh "$@"; }
# How many bytes the page has, and where it is, is not looked at.
herd() { sh examples/herd.sh > "$out/herd.txt" && sed 's/[0-9]* bytes, /so many bytes, /; s,^/.*/,/,' "$out/herd.txt"; }
# A list that is not there is named.
no_list() { ! list examples/none.list 2> "$out/said" && grep -q '^examples/none.list: ' "$out/said"; }
# Built by cargo in a folder that the caller names from where the caller is.
elsewhere() { (cd examples && CARGO_TARGET_DIR="../$out/else where" sh quickstart.sh); }
# By somebody who may write nothing here, over what was built here.
reader() { setpriv --reuid=65534 --regid=65534 --clear-groups "$@"; }
read_only() {
    example c/quickstart.expected reader sh examples/quickstart.sh &&
        example examples/list.expected reader sh examples/list.sh &&
        example crates/yard/stdout reader sh examples/yard.sh &&
        mkdir -p -m 777 "$out/reader" &&
        TMPDIR="$PWD/$out/reader" reader sh examples/herd.sh > "$out/written" &&
        [ -f "$(tail -n 1 "$out/written")" ] && rm -r "$out/reader"
}

step first-build sh tools/try_build.sh
step archive sh tools/build.sh vpindex
if [ -z "${VPINDEX_WASM:-}" ]; then
    step wasm sh tools/build.sh vpindex --target wasm32
fi
step quickstart-example example c/quickstart.expected sh examples/quickstart.sh
step list-example example examples/list.expected list
step list-refused example examples/list-fault.expected refused list examples/fault.list
step list-of-bytes example examples/list-byte.expected refused list examples/byte.list
step list-missing no_list
step herd-example example examples/herd.expected herd
if [ -z "${VPINDEX_LIB_DIR:-}" ]; then
    step yard-example example crates/yard/stdout sh examples/yard.sh
    if [ "$(id -u)" = 0 ] && command -v setpriv > /dev/null && reader test -r tools/build.sh; then
        step read-only read_only
    fi
    export VPINDEX_LIB_DIR="$PWD/target/staticlib"
fi
step archive-needs needs
step tests tests
step tests-without-alloc bare_tests
if cargo clippy --version > /dev/null 2>&1; then
    step clippy lints --workspace --all-targets
    step clippy-without-alloc lints --package vpindex --no-default-features --lib --test lent
fi
step documents documents
step relative-folder no_archive staticlib 'VPINDEX_LIB_DIR is `staticlib`, and it has to be a full path$'
step folder-without no_archive "$PWD/c" "$PWD/c/libvpindex.a is not there: prove and write it by .sh tools/build.sh vpindex., "
step cargo-elsewhere example c/quickstart.expected elsewhere
step c-quickstart example c/quickstart.expected c11 c/quickstart.c
step c-refusals example c/refusals.expected c11 c/refusals.c
step c-rows c11 c/rows.c
# The first use that the README shows, as it is printed.
sed -n '/^```c$/,/^```$/{/^```/!p;}' README.md > "$out/first.c"
step c-readme c11 "$out/first.c"
step stack-bounds python3 tools/stack.py "$VPINDEX_LIB_DIR/libvpindex.a" --check
if command -v pkg-config > /dev/null; then
    step installed installed
fi
if command -v c++ > /dev/null; then
    step c++-rows cxx17 c/rows.c
    step c++-readme cxx17 "$out/first.c"
fi
if [ "$VPINDEX_LIB_DIR" = "$PWD/target/staticlib" ]; then
    step targets sh tools/targets.sh
    sed -n '/^not tested/p' "$out/targets.log"
fi
herd=$(sh tools/program.sh herd 2> "$out/herd.log")
step herd-on-a-terminal python3 rust/herd/tests/terminal.py "$herd"
if python3 rust/herd/tests/browser.py; then
    step herd-page python3 rust/herd/tests/page.py "$herd"
else
    echo 'outside: herd-page was not tested: there is no chromium'
fi
