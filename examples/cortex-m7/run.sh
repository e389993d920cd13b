#!/bin/sh
# Builds the example for a Cortex-M7 and runs it on QEMU's board: sh examples/cortex-m7/run.sh
# Debian: gcc-arm-none-eabi libnewlib-arm-none-eabi qemu-system-arm
set -eu
cd "$(dirname "$0")/../.."
here=examples/cortex-m7
folder=target/cortex-m7
# Where nothing can be written here, what was built here is taken.
if [ -w target ] || [ ! -f $folder/libvpindex.a ]; then
    sh tools/build.sh vpindex --target cortex-m7
else
    folder=$(mktemp -d)
    trap 'rm -r "$folder"' EXIT
fi
out=$folder/example.elf
arm-none-eabi-gcc -mcpu=cortex-m7 -mthumb -std=c11 -O2 -pedantic -Wall -Wextra -Werror -ffunction-sections \
    -Wl,--gc-sections,-z,noexecstack -Iinclude -nostartfiles --specs=rdimon.specs -T $here/board.ld \
    $here/start.c $here/main.c target/cortex-m7/libvpindex.a -o "$out"
qemu-system-arm -M mps2-an500 -nographic -semihosting-config enable=on,target=native -kernel "$out"
