#!/bin/sh
# The same bytes on every processor: the digest of 200,000 random calls and of tables of order 12 (c/digest.c), and what
# c/quickstart.c writes, have to be on each target what they are with the archive. What can't be tested is told last.
#   sh tools/targets.sh            tests every target whose compiler and emulator are here
#   sh tools/targets.sh --install  gets what is missing, where apt-get can be had
set -eu
cd "$(dirname "$0")/.."
here() { for word in "$@"; do command -v "$word" > /dev/null || return 1; done; }
if [ "${1:-}" = --install ]; then
    here qemu-aarch64 qemu-system-arm aarch64-linux-gnu-gcc arm-linux-gnueabihf-gcc riscv64-linux-gnu-gcc \
        arm-none-eabi-gcc node && exit 0
    if here apt-get && [ "$(id -u)" = 0 ]; then
        echo 'getting compilers and emulators for other processors'
        { apt-get update && apt-get install --yes --no-install-recommends qemu-user qemu-system-arm nodejs \
            gcc-aarch64-linux-gnu libc6-dev-arm64-cross gcc-arm-linux-gnueabihf libc6-dev-armhf-cross \
            gcc-riscv64-linux-gnu libc6-dev-riscv64-cross gcc-arm-none-eabi libnewlib-arm-none-eabi; } \
            > /dev/null 2>&1 || echo 'not all of them can be had'
    fi
    exit 0
fi

calls=200000 seed=1
out=target/targets
mkdir -p "$out"
kit=$(dirname "$(dirname "$(readlink -f "$(command -v rt)")")")
tools=$kit/toolchain/bin
strict="-std=c11 -O2 -pedantic -Wall -Wextra -Werror -Iinclude -DCALLS=$calls -DSEED=$seed"
bare='-ffreestanding -nostdinc -isystem c/bare'
digest='c/digest.c c/digest_main.c'
left=''

stop() {
    echo "$1"
    exit 1
}

same() { # NAME FILE EXPECTED
    diff "$3" "$2" || stop "$1: not as with the archive"
}

# The C file that spells the calls has no warning by that compiler, at the flags that the header is tested with.
no_warning() { # COMPILER WORDS
    "$@" $strict -Wconversion -Wsign-conversion -c c/calls.c -o /dev/null
}

# The archive's own, which has to have met every refusal of the header and the longest image.
no_warning cc
cc $strict $digest target/staticlib/libvpindex.a -o "$out/archive"
"$out/archive" > "$out/archive.txt"
grep -q '^longest image \([0-9]*\) of \1$' "$out/archive.txt" || stop 'the longest image was not reached'
for refusal in $(cut -d' ' -f1 c/refusals.expected); do
    grep -q "^refusal $refusal times" "$out/archive.txt" || stop "refusal $refusal was not met"
done

linux() { # NAME COMPILER EMULATOR
    here "$2" "$3" || { left="$left $1"; return 0; }
    "$2" $strict -static $digest "target/$1/libvpindex.a" -o "$out/$1"
    "$3" "$out/$1" > "$out/$1.txt"
    same "$1, digest" "$out/$1.txt" "$out/archive.txt"
    "$2" $strict -static c/quickstart.c "target/$1/libvpindex.a" -o "$out/$1"
    "$3" "$out/$1" > "$out/$1.txt"
    same "$1, quickstart" "$out/$1.txt" c/quickstart.expected
    no_warning "$2"
    echo "$1: the same"
}

# A board of QEMU's, by the example's start-up and its linker script, with all RAM in the board's large one.
board() { # NAME CPU BOARD RAM
    here arm-none-eabi-gcc qemu-system-arm || { left="$left $1"; return 0; }
    from=examples/cortex-m7
    # Debian's newlib gives PRIu64 by a name that the compiler's own stdint.h does not set.
    newlib="-mcpu=$2 -mthumb $strict -D__int64_t_defined=1 -ffunction-sections -Wl,--gc-sections,-z,noexecstack
        -nostartfiles --specs=rdimon.specs"
    sed -E "s/(RAM .*ORIGIN = )0x20000000, LENGTH = 512K/\\1$4, LENGTH = 16M/" $from/board.ld > "$out/$1.ld"
    for program in digest quickstart; do
        sources=c/$program.c expected=c/$program.expected
        if [ $program = digest ]; then
            sources=$digest expected=$out/archive.txt
        fi
        arm-none-eabi-gcc $newlib -T "$out/$1.ld" $from/start.c $sources "target/$1/libvpindex.a" -o "$out/$1.elf"
        qemu-system-arm -M "$3" -nographic -semihosting-config enable=on,target=native -kernel "$out/$1.elf" \
            > "$out/$1.txt"
        same "$1, $program" "$out/$1.txt" "$expected"
    done
    no_warning arm-none-eabi-gcc -mcpu="$2" -mthumb
    echo "$1: the same"
}

for name in $(sh tools/cross.sh --names); do
    sh tools/cross.sh "$name"
    python3 tools/stack.py --target "$name" --check
done

# What has another byte order is refused in words.
if "$tools/clang" --target=aarch64_be-none-elf -std=c11 $bare -Iinclude -fsyntax-only c/calls.c 2> "$out/said" ||
    ! grep -q 'vpindex is for little-endian processors' "$out/said"; then
    stop 'a big-endian processor is not refused in words'
fi
linux aarch64-linux aarch64-linux-gnu-gcc qemu-aarch64
linux armv7-linux arm-linux-gnueabihf-gcc qemu-arm
linux riscv64-linux riscv64-linux-gnu-gcc qemu-riscv64
board cortex-m4 cortex-m4 mps2-an386 0x21000000
board cortex-m7 cortex-m7 mps2-an500 0x60000000
if here arm-none-eabi-gcc qemu-system-arm; then
    sh examples/cortex-m7/run.sh > "$out/example.txt"
    same 'examples/cortex-m7' "$out/example.txt" examples/cortex-m7/run.expected
fi

# No C library at all, and the kit's compiler alone.
if here qemu-riscv32; then
    "$tools/clang" $(sh tools/cross.sh --words riscv32-bare) $strict $bare -DBARE_RISCV -nostdlib -static \
        -fuse-ld=lld $digest target/riscv32-bare/libvpindex.a target/riscv32-bare/libbare.a -o "$out/riscv32-bare"
    qemu-riscv32 "$out/riscv32-bare" > "$out/riscv32-bare.txt"
    same riscv32-bare "$out/riscv32-bare.txt" "$out/archive.txt"
    echo 'riscv32-bare: the same'
else
    left="$left riscv32-bare"
fi

if here node; then
    ln -sf "$tools/clang" "$out/wasm-ld"
    "$tools/clang" $(sh tools/cross.sh --words wasm32) $strict $bare -c c/digest.c -o "$out/digest.o"
    "$out/wasm-ld" --no-entry --import-undefined --stack-first -z stack-size=131072 --export=digest_of_calls \
        --export=digest_of_order_12 --export=digest_longest_image "$out/digest.o" target/wasm32/library.o \
        -o "$out/digest.wasm"
    node js/digest.js target/wasm32/vpindex.wasm "$out/digest.wasm" $calls $seed > "$out/wasm32.txt"
    same wasm32 "$out/wasm32.txt" "$out/archive.txt"
    sh tools/js.sh
    echo 'wasm32: the same, through js/vpindex.js'
else
    left="$left wasm32"
fi
[ -z "$left" ] || echo "not tested, for want of a compiler or an emulator:$left"
