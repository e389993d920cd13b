#!/bin/sh
# How many instructions an add and a nearest of 4,096 head take, by metric, on x86-64, aarch64, riscv64 and a Cortex-M7,
# as QEMU counts them: sh bench/instructions.sh. Packages as for tools/targets.sh. An emulator has no time of its own.
set -eu
cd "$(dirname "$0")/.."
for name in aarch64-linux riscv64-linux cortex-m7; do
    sh tools/build.sh vpindex --target $name
done
out=target/instructions
mkdir -p "$out"
cc -shared -fPIC -O2 -Wall -Wextra bench/counter.c -o "$out/counter.so"
searches=1000
counted() { "$@" 2>&1 | sed -n 's/^instructions //p'; }
build() { # NAME COMPILER METRIC NEAREST
    case $1 in
        x86-64) set -- "$@" -static target/staticlib/libvpindex.a ;;
        cortex-m7)
            sed -E 's/(RAM .*LENGTH = )512K/\14M/' examples/cortex-m7/board.ld > "$out/board.ld"
            set -- "$@" -mcpu=cortex-m7 -mthumb -nostartfiles --specs=rdimon.specs -ffunction-sections \
                -Wl,--gc-sections,-z,noexecstack -T "$out/board.ld" examples/cortex-m7/start.c \
                target/cortex-m7/libvpindex.a
            ;;
        *) set -- "$@" -static "target/$1/libvpindex.a" ;;
    esac
    program=$out/$1 compiler=$2 metric=$3 nearest=$4
    shift 4
    "$compiler" -O2 -Iinclude -DMETRIC="$metric" -DNEAREST="$nearest" bench/instructions.c "$@" -o "$program"
}
run() { # NAME
    case $1 in
        cortex-m7)
            counted qemu-system-arm -M mps2-an500 -nographic -semihosting-config enable=on,target=native \
                -plugin "$out/counter.so" -kernel "$out/$1"
            ;;
        # Its repeated stores would be counted one by one, where a newer processor has them.
        x86-64) counted qemu-x86_64 -cpu qemu64 -plugin "$out/counter.so" "$out/$1" ;;
        *) counted "qemu-${1%-linux}" -plugin "$out/counter.so" "$out/$1" ;;
    esac
}
echo '| | metric | add | nearest 10 |'
echo '|---|---|---|---|'
for name in x86-64 aarch64-linux riscv64-linux cortex-m7; do
    case $name in
        x86-64) compiler=cc ;;
        cortex-m7) compiler=arm-none-eabi-gcc ;;
        *) compiler=$(echo $name | sed 's/linux/linux-gnu-gcc/') ;;
    esac
    for metric in 0 1 2; do
        build $name $compiler $metric 0
        adds=$(run $name)
        build $name $compiler $metric $searches
        all=$(run $name)
        echo "| $name | $metric | $((adds / 4096)) | $(((all - adds) / searches)) |"
    done
done
