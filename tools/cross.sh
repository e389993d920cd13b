#!/bin/sh
# The calls for another processor: sh tools/cross.sh NAME writes target/NAME/libvpindex.a from the module that the kit
# lowered the proved code to; `sh tools/build.sh vpindex --target NAME` proves first, then runs this. Where there is no
# system, target/NAME/libbare.a has what a program without C library links besides. Of wasm32 the file is vpindex.wasm.
#   sh tools/cross.sh --names       the names
#   sh tools/cross.sh --words NAME  what the kit's compiler is told of that processor
set -eu
cd "$(dirname "$0")/.."
names='aarch64-linux armv7-linux riscv64-linux cortex-m4 cortex-m7 riscv32-bare wasm32'
words_of() {
    case $1 in
        aarch64-linux) echo '--target=aarch64-linux-gnu -fPIC' ;;
        armv7-linux) echo '--target=armv7-linux-gnueabihf -mcpu=cortex-a7 -mfpu=vfpv3-d16 -mfloat-abi=hard -fPIC' ;;
        riscv64-linux) echo '--target=riscv64-linux-gnu -march=rv64gc -mabi=lp64d -fPIC' ;;
        cortex-m4) echo '--target=thumbv7em-none-eabi -mcpu=cortex-m4 -mfloat-abi=soft -meabi gnu -fshort-enums' ;;
        cortex-m7) echo '--target=thumbv7em-none-eabi -mcpu=cortex-m7 -mfloat-abi=soft -meabi gnu -fshort-enums' ;;
        riscv32-bare) echo '--target=riscv32-unknown-elf -march=rv32imac -mabi=ilp32' ;;
        wasm32) echo '--target=wasm32-unknown-unknown' ;;
        *)
            echo "no target is called \`$1\`; there are: $names" >&2
            exit 2
            ;;
    esac
}
case ${1:-} in
    --names)
        echo "$names"
        exit 0
        ;;
    --words)
        words_of "${2:-}"
        exit 0
        ;;
esac
name=${1:-}
words=$(words_of "$name")
kit=$(dirname "$(dirname "$(readlink -f "$(command -v rt)")")")
tools=$kit/toolchain/bin
proved=target/staticlib/libvpindex.a
lowered=target/module/lowered.ll
out=target/$name
scratch=$(mktemp -d)
trap 'rm -rf "$scratch"' EXIT
module=$scratch/vpindex.ll

stop() {
    echo "$1" >&2
    exit 1
}

# The module that the kit hands to its compiler for the archive. `rattle build` takes the folder of its tools by
# --toolchain: here one whose clang keeps what it is given.
lower() {
    mkdir -p "$scratch/tools/bin"
    ln -s "$kit/toolchain/lib" "$scratch/tools/lib"
    ln -s "$tools/llvm-ar" "$tools/ld.lld" "$scratch/tools/bin/"
    keeper=$scratch/tools/bin/clang
    printf '#!/bin/sh\ncp module.bc "%s/module.bc"\nexec "%s/clang" "$@"\n' "$scratch" "$tools" > "$keeper"
    chmod +x "$keeper"
    sh tools/archive.sh "$scratch/libvpindex.a" "$scratch/tools" > "$scratch/log" 2>&1 || {
        cat "$scratch/log"
        stop 'the kit did not build the calls again'
    }
    [ -f "$scratch/module.bc" ] || stop 'the kit handed its compiler no file module.bc'
    cmp -s "$scratch/libvpindex.a" "$proved" || stop "what was built beside the module is not $proved"
    "$tools/clang" --target=x86_64-unknown-linux-gnu -S -emit-llvm -O0 -x ir "$scratch/module.bc" -o "$lowered"
}

# For each proved function of the calls one that C can spell. What comes back in a register is extended to the whole of
# it, as riscv64's C calls have it; what comes back in two is stored where the caller says.
spelled() {
    sed -nE 's/^define internal (noundef )?(.*) @"vpindex_c::vpindex_([a-z_]+)"\((.*)\) #[0-9]+ \{$/\2|\3|\4/p' "$lowered" |
        while IFS='|' read -r gives name takes; do
            call="call $gives @\"vpindex_c::vpindex_$name\"($takes)"
            case $gives in
                void) printf '\ndefine hidden void @vpindex_proved_%s(%s) {\n  %s\n  ret void\n}\n' "$name" "$takes" "$call" ;;
                i*)
                    printf '\ndefine hidden signext %s @vpindex_proved_%s(%s) {\n' "$gives" "$name" "$takes"
                    printf '  %%given = %s\n  ret %s %%given\n}\n' "$call" "$gives"
                    ;;
                *)
                    printf '\ndefine hidden void @vpindex_proved_%s(ptr %%out, %s) {\n' "$name" "$takes"
                    printf '  %%given = %s\n  store %s %%given, ptr %%out\n  ret void\n}\n' "$call" "$gives"
                    ;;
            esac
        done
}

# What each proved function of a module gives and takes.
shapes() {
    sed -nE 's/^(define|declare) (.*)@(vpindex_proved_[a-z_]+\([^)]*\)).*/\2\3/; T
        s/\b(noundef|signext|zeroext|hidden|dso_local)\b ?//g; s/ ?%[a-z]+[0-9]*//g; s/ +([,)])/\1/g; p' "$1" | LC_ALL=C sort
}

# Whatever the module is expected to be, and is changed to, stands here.
carry() {
    ! grep -qE '(ptrtoint|ptrtoaddr|inttoptr|addrspacecast|asm )' "$lowered" ||
        stop 'the module turns an address into a number'
    ! grep -E 'getelementptr ' "$lowered" | grep -qvE 'getelementptr (inbounds )?(nuw )?i8, ptr ' ||
        stop 'the module finds a place by something else than bytes'
    ! grep -E '^declare ' "$lowered" | grep -qv '@llvm\.' || stop 'the module calls a function that it does not have'
    ! grep -E '^@' "$lowered" | grep -qvE ' constant \[[0-9]+ x i8\] c"' ||
        stop 'the module has other data of its own than constant bytes'
    ! grep -oE '(load|store) \{[^}]*\}' "$lowered" |
        grep -qvE '^load \{ (i8, ptr|ptr, i64|i(8|32|64), i(8|32|64)) \}$' ||
        stop 'the module loads or stores a pair of another kind'
    # 1. Layout, triple and processor are left to the target.
    # 2. The wrappers that spell x86-64's C calls are no longer seen from outside, and so dropped.
    # 3. The proved functions below them have others, which are seen.
    # 4. A byte and an address that come back together lie eight bytes apart, as the module stores them: read as a pair
    #    they would lie four apart where an address has 32 bits. So each is read by itself.
    {
        sed -E '/^target (datalayout|triple) /d
            s/ ?"(target-cpu|target-features|tune-cpu|probe-stack|stack-probe-size)"="[^"]*"//g
            s/^define (.* @vpindex_)/define internal \1/
            s/^  (%r[0-9]+) = load \{ i8, ptr \}, ptr (%r[0-9]+), align [0-9]+$/  \1.byte = load i8, ptr \2, align 1\
  \1.place = getelementptr i8, ptr \2, i64 8\
  \1.address = load ptr, ptr \1.place, align 4\
  \1.half = insertvalue { i8, ptr } poison, i8 \1.byte, 0\
  \1 = insertvalue { i8, ptr } \1.half, ptr \1.address, 1/' "$lowered"
        spelled
    } > "$module"
    ! grep -q 'load { i8, ptr }' "$module" || stop 'a pair is read as on x86-64'
    # 5. On ARM a line says that no float is passed, so that programs link with it which pass theirs in either way.
    case $words in
        *gnueabihf* | *-eabi*) echo 'module asm ".eabi_attribute Tag_ABI_VFP_args, 3"' >> "$module" ;;
    esac
    "$tools/clang" --target=x86_64-unknown-linux-gnu $c_words -S -emit-llvm c/calls.c -o "$scratch/calls.ll"
    shapes "$scratch/calls.ll" > "$scratch/declared"
    shapes "$module" > "$scratch/defined"
    diff "$scratch/declared" "$scratch/defined" >&2 ||
        stop 'c/calls.c declares (<) other functions than the module has (>)'
    [ "$(sed 's/(.*//; s/.*vpindex_proved_/vpindex_/' "$scratch/declared" | LC_ALL=C sort)" = "$calls" ] ||
        stop 'c/calls.c does not spell the calls that include/vpindex.h declares'
}

c_words='-std=c11 -O3 -pedantic -Wall -Wextra -Wconversion -Wsign-conversion -Werror
    -ffreestanding -nostdinc -isystem c/bare -Iinclude'
mkdir -p target/module "$out"
calls=$(sed -nE 's/^[a-z_0-9]+ (vpindex_[a-z_]+)\(.*/\1/p' include/vpindex.h | LC_ALL=C sort)
# The module goes with the archive that was made beside it.
sum=$(sha256sum < "$proved")
if [ ! -f "$lowered" ] || [ "$(cat "$lowered.sum" 2> /dev/null)" != "$sum" ]; then
    lower
    echo "$sum" > "$lowered.sum"
fi
carry

# The module is compiled twice: to what is linked, with what each function has on the stack, and to the module as it is
# when only the processor's instructions are left to be chosen, which tells what calls what (tools/stack.py).
compile() { "$tools/clang" $words -O3 -ffunction-sections -Wno-override-module -x ir "$module" "$@"; }
compile -c -fstack-usage -o "$out/module.o"
compile -S -emit-llvm -o "$out/module.ll"
"$tools/clang" $words $c_words -ffunction-sections -fstack-usage -c c/calls.c -o "$out/calls.o"
archive() { # FILE OBJECTS
    rm -f "$1"
    "$tools/llvm-ar" rcsD "$@"
}
case $name in
    *-linux) ;;
    *) "$tools/clang" $words $c_words -fno-builtin -ffunction-sections -c c/bare/library.c -o "$out/library.o" ;;
esac
case $name in
    wasm32)
        # The kit's compiler is the linker too, where it is called by that name. vpindex_load and vpindex_restore want
        # more stack than the linker gives by itself; below the data, one that is too short traps.
        ln -s "$tools/clang" "$scratch/wasm-ld"
        "$scratch/wasm-ld" --no-entry --stack-first -z stack-size=131072 --strip-all --gc-sections \
            $(printf -- '--export=%s ' $calls) "$out/module.o" "$out/calls.o" "$out/library.o" -o "$out/vpindex.wasm"
        ;;
    *)
        archive "$out/libvpindex.a" "$out/module.o" "$out/calls.o"
        [ ! -f "$out/library.o" ] || archive "$out/libbare.a" "$out/library.o"
        ;;
esac
