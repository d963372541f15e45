# shellcheck shell=bash
# The proved code on several machines, over tools/lib.sh: what tools/library, tools/program, tools/cc, tools/run, tools/install and the tests of what they build share.
#
#   here, targets, need_target       this machine's target; the targets; refuses an unknown one
#   first_target "$@"                --target T as a command's first words
#   for_target T                     sets how C is compiled, linked and run for T
#   kept CRATE                       the LLVM module that the toolchain makes of a proved crate, kept (tools/build.py): what is proved once is not proved again
#   compiled CRATE T                 that module compiled for T
#   sanitized CRATE                  the same for this machine, with AddressSanitizer over the proved code
#   archive CRATE T, shared T        liblocator.a and its like; liblocator.so, or for wasm32 locator.wasm
#   program NAME T, front T          a program of crates/, linked with the C library of T; all of them under one name, as tools/install installs them
#   version                          the version, from include/locator.h
#
# For x86-64 the archives and programs are the toolchain's own. For the others the very module that the toolchain compiles is compiled again by the same compiler
# with the same words, but for the machine's name. What that compiler does is believed, as it is for x86-64; tests/machines tries what comes of it.

targets=(x86-64 x86-64-v3 aarch64 armhf cortex-m3 wasm32)
case $(uname -m) in
    x86_64) here=x86-64 ;;
    *) here=$(uname -m) ;; # aarch64, or what need_target refuses
esac

need_target() { [[ " ${targets[*]} " == *" $1 "* ]] || refuse "no such target: $1 (there are ${targets[*]})"; }

# first_target "$@": sets $target to T where the first words are --target T, else to this machine's, and $taken to how many words that takes.
first_target() {
    target=$here taken=0
    if [ "${1:-}" = --target ]; then
        [ $# -ge 2 ] || refuse "--target wants a word"
        target=$2 taken=2
    fi
    need_target "$target"
}

version() { sed -n 's/^#define LOCATOR_VERSION "\(.*\)"$/\1/p' include/locator.h; }

# for_target T: sets $words, the machine's words for the kit's compiler; $tool, what stands before the names of binutils; $cc and $cc_words, the C compiler for a
# program that runs there; $packages, what brings it; $runner, the words before such a program; $wide, empty where pointers have 32 bits.
for_target() {
    local triple=''
    wide=1 runner=() packages=() tool='' cc_words=(-static) words=(-fPIC)
    case $1 in
        x86-64 | x86-64-v3)
            triple=x86_64-linux-gnu packages=(gcc-x86-64-linux-gnu libc6-dev-amd64-cross)
            words+=(--target=x86_64-unknown-linux-gnu "-march=$1" "${given_x86[@]}")
            runner=(/usr/bin/qemu-x86_64 -L /usr/x86_64-linux-gnu)
            ;;
        aarch64)
            triple=aarch64-linux-gnu packages=(gcc-aarch64-linux-gnu libc6-dev-arm64-cross)
            words+=(--target=aarch64-unknown-linux-gnu -march=armv8-a -mllvm -aarch64-load-store-renaming=false)
            runner=(/usr/bin/qemu-aarch64 -L /usr/aarch64-linux-gnu)
            ;;
        armhf) # as Debian has it: ARMv7, Thumb-2, floats in registers (no call here has one)
            wide='' triple=arm-linux-gnueabihf packages=(gcc-arm-linux-gnueabihf libc6-dev-armhf-cross)
            words+=(--target=armv7-unknown-linux-gnueabihf -march=armv7-a -mfpu=vfpv3-d16 -mthumb)
            runner=(/usr/bin/qemu-arm)
            ;;
        cortex-m3) # it has no system: the drivers that try its code are linked around it as programs for armhf, which runs the same instructions
            wide='' triple=arm-linux-gnueabihf packages=(gcc-arm-linux-gnueabihf libc6-dev-armhf-cross)
            words=(--target=thumbv7m-none-eabi -mcpu=cortex-m3)
            runner=(/usr/bin/qemu-arm)
            ;;
        wasm32) # C programs for it are Debian's WASI, under node
            wide='' packages=(clang wasi-libc "libclang-rt-$(clang -dumpversion 2>/dev/null | cut -d . -f 1)-dev-wasm32" nodejs)
            words=(--target=wasm32-unknown-unknown -mbulk-memory)
            cc_words=(--target=wasm32-wasi --sysroot=/usr "-fuse-ld=$top/target/wasm32/wasm-ld")
            runner=(node --no-warnings "$top/tools/wasi.mjs")
            ;;
    esac
    if [ "${1%-v3}" = "$here" ]; then
        packages=(gcc libc6-dev)
        if [ "$1" = "$here" ] || grep -qw avx2 /proc/cpuinfo; then runner=(); fi
    else
        tool=${triple:+$triple-}
    fi
    cc=${tool}gcc
    [ "$1" != wasm32 ] || cc=clang
}

# need_cc: what $cc is; need_runner: what runs its programs.
need_cc() {
    if [ "$cc" != clang ]; then
        need "$cc" "${packages[@]}"
        return
    fi
    need clang clang
    for_target wasm32 # the packages go by clang's number
    have "${packages[@]:1:2}"
    mkdir -p target/wasm32
    ln -sf "$(tools_of_kit)/bin/ld.lld" target/wasm32/wasm-ld # this linker goes by the name that it is called under
}
need_runner() {
    case ${runner[0]:-} in
        '') ;;
        node) need node nodejs ;;
        *) have qemu-user ;;
    esac
}

# ---- the module

tools_of_kit() { echo "$(kit)/toolchain"; }

# kept CRATE: prints where its module is kept, once `build CRATE` has made it.
kept() { echo "target/module/$1.bc"; }

# content CRATE: a number for all that its module is made of.
content() { cat "target/module/$1.of"; }

# fresh FILE CONTENT: FILE is there, and of that content.
fresh() { [ -f "$1" ] && [ "$(cat "$1.of" 2>/dev/null)" = "$2" ]; }

# ---- compiled

# The words that the toolchain gives its compiler (tests/machines holds what comes of them to its archive, byte for byte), and those for x86-64 alone.
given=(-mllvm -no-trap-after-noreturn -ffunction-sections -fdata-sections -mllvm -trap-unreachable -mllvm -disable-machine-licm
    -mllvm -disable-postra-machine-licm -mllvm -sink-common-insts=false --no-default-config -fintegrated-cc1 -fno-crash-diagnostics -O3)
given_x86=(-mllvm -no-x86-call-frame-opt)

# text CRATE T: the module as text for T: without the names of x86-64, and on machines where LLVM has no probing of the stack without that.
text() {
    local clang
    clang=$(tools_of_kit)/bin/clang
    "$clang" --target=x86_64-unknown-linux-gnu -Xclang -disable-llvm-passes -O3 -S -emit-llvm -x ir "$(kept "$1")" -o - |
        sed -e '/^target datalayout/d' -e '/^target triple/d' -e 's/ "target-cpu"="x86-64"//' |
        if [ -n "$wide" ]; then cat; else sed -e 's/ "probe-stack"="inline-asm"//' -e 's/ "stack-probe-size"="[0-9]*"//' | narrowed; fi
}

# narrowed: the text of a module for a machine whose pointers have 32 bits. Each exported call CALL is replaced by CALL_to, which is lent a place for the result
# in front of its other arguments and puts it there; tools/c/narrow.c makes of these the calls of include/locator.h. Counts stay 64-bit here.
narrowed() {
    awk '
        /^define / && !/^define internal/ {
            type = $0; sub(/^define /, "", type); sub(/ @.*/, "", type); gsub(/noundef |zeroext |signext /, "", type)
            name = $0; sub(/^[^@]*@/, "", name); sub(/\(.*/, "", name)
            given = $0; sub(/^[^(]*\(/, "", given); sub(/\)[^)]*$/, "", given)
            glue = glue sprintf("\ndefine void @%s_to(ptr noundef %%to, %s) nounwind {\n", name, given)
            glue = glue sprintf("  %%result = call %s @\"raw %s\"(%s)\n  store %s %%result, ptr %%to, align 2\n  ret void\n}\n", type, name, given, type)
            sub(/^define /, "define internal "); sub("@" name, "@\"raw " name "\"")
        }
        { print }
        END { printf "%s", glue }'
}

# compiled CRATE T: prints the object of its module for T.
compiled() {
    local crate=$1 target=$2 out=target/$2/$1.o content more=()
    for_target "$target"
    if [ -f "crates/$crate/src/main.rt" ]; then more=(-fPIE -Xclang -fmerge-functions -mllvm -mergefunc-use-aliases); fi
    build "$crate"
    content="$(content "$crate") ${words[*]} ${given[*]} ${more[*]}"
    [ -n "$wide" ] || content+=" $(declare -f narrowed | sha256sum)"
    if ! fresh "$out" "$content"; then
        say "compiles $crate for $target (a minute or two)"
        mkdir -p "target/$target"
        text "$crate" >"target/$target/$crate.ll"
        # A result of more than 16 bytes comes back through a hidden pointer, handed over as on x86-64; C for other machines hands it over otherwise.
        if [ "${target%-v3}" != x86-64 ] && grep -q '^define noundef ptr @' "target/$target/$crate.ll"; then
            say "an exported call of $crate gives more than 16 bytes back, which C for $target takes otherwise than x86-64: give it through lent memory instead"
            return 1
        fi
        "$(tools_of_kit)/bin/clang" "${words[@]}" "${given[@]}" "${more[@]}" -Wno-override-module -Werror -c -x ir "target/$target/$crate.ll" -o "$out"
        rm "target/$target/$crate.ll"
        echo "$content" >"$out.of"
    fi
    echo "$out"
}

# sanitized CRATE: prints the object of its module for this machine with AddressSanitizer in every function of it: a read or a write outside the memory that is lent,
# or outside a local array, stops the program. clang -fsanitize=address links it.
sanitized() {
    local crate=$1 out=target/$here/$1-asan.o content
    for_target "$here"
    build "$crate"
    content="$(content "$crate") ${words[*]} ${given[*]} asan"
    if ! fresh "$out" "$content"; then
        say "compiles $crate with AddressSanitizer (some minutes)"
        mkdir -p "target/$here"
        text "$crate" | sed 's/^attributes #[0-9]* = { nounwind/& sanitize_address/' >"target/$here/$crate-asan.ll"
        grep -q '^define internal .* #0 {' "target/$here/$crate-asan.ll" && grep -q '^attributes #0 = { nounwind sanitize_address' "target/$here/$crate-asan.ll" || {
            say "the module of $crate does not look as it did: AddressSanitizer would watch nothing"
            return 1
        }
        "$(tools_of_kit)/bin/clang" "${words[@]}" "${given[@]}" -fsanitize=address -Wno-override-module -Werror -c -x ir "target/$here/$crate-asan.ll" -o "$out"
        rm "target/$here/$crate-asan.ll"
        echo "$content" >"$out.of"
    fi
    echo "$out"
}

# beside T: prints the object of the C that stands beside the proved code where pointers have 32 bits.
beside() {
    local out=target/$1/narrow.o
    need gcc gcc
    # <stddef.h> and <stdint.h> alone, which need no C library
    "$(tools_of_kit)/bin/clang" "${words[@]}" -O2 -std=c11 -Wall -Wextra -Werror -ffreestanding -nostdinc -isystem "$(gcc -print-file-name=include)" \
        -ffunction-sections -Iinclude -c tools/c/narrow.c -o "$out"
    echo "$out"
}

# archive CRATE T: prints the static library of CRATE for T: for x86-64 the toolchain's own.
archive() {
    local crate=$1 target=$2 out=target/$2/lib$1.a object members
    if [ "$target" = x86-64 ]; then
        library "$crate"
        return
    fi
    object=$(compiled "$crate" "$target")
    for_target "$target"
    members=("$object")
    [ -n "$wide" ] || members+=("$(beside "$target")")
    rm -f "$out"
    "$(tools_of_kit)/bin/llvm-ar" rcs "$out" "${members[@]}"
    echo "$out"
}

# ---- shared

# The calls that include/locator.h declares.
exports() { sed -n 's/^[a-z][a-z0-9_ ]* \(locator_[a-z]*\)(.*/\1/p' include/locator.h; }

# shared T: prints the shared library of the C face for T, with its calls alone visible: for wasm32 a module for a page or for node.
shared() {
    local target=$1 archive major out map
    for_target "$target"
    [ "$target" != cortex-m3 ] || refuse "there are no shared libraries for cortex-m3"
    archive=$(archive locator "$target")
    major=$(version)
    major=${major%%.*}
    mkdir -p "target/$target"
    if [ "$target" = wasm32 ]; then
        out=target/wasm32/locator.wasm
        "$(tools_of_kit)/bin/clang" "${words[@]}" -O2 -fno-builtin -Wall -Wextra -Werror -c tools/c/wasm.c -o target/wasm32/wasm.o
        ln -sf "$(tools_of_kit)/bin/ld.lld" target/wasm32/wasm-ld
        # shellcheck disable=SC2046
        target/wasm32/wasm-ld --no-entry --gc-sections --strip-all --export=locator_lent $(exports | sed 's/^/--export=/') -z stack-size=131072 \
            target/wasm32/wasm.o "$archive" -o "$out"
    else
        need_cc
        out=target/$target/liblocator.so.$major map=target/$target/liblocator.map
        { echo "LOCATOR_$major {"; echo "global:"; exports | sed 's/$/;/'; echo "local: *;"; echo "};"; } >"$map"
        "$cc" -shared -Wl,-soname,"liblocator.so.$major" -Wl,--version-script,"$map" -Wl,--gc-sections -Wl,-z,relro -Wl,-z,now -Wl,-z,defs -o "$out" \
            -Wl,--whole-archive "$archive" -Wl,--no-whole-archive
    fi
    echo "$out"
}

# ---- programs

# bin T: where what tools/cc and rt make for T stands.
bin() { if [ "$1" = x86-64 ]; then echo target/bin; else echo "target/$1/bin"; fi; }

# os_code T: sets $os to what a program links beside its object: the C of the toolchain's crates os and libc, or where the toolchain has none of it the same few
# functions.
os_code() {
    if [ "${1%-v3}" = x86-64 ]; then
        os=("$(kit)/c/libos_c.a" "$(kit)/c/liblibc_c.a")
    else
        for_target "$1"
        need_cc
        mkdir -p "target/$1"
        "$cc" -O2 -std=c11 -Wall -Wextra -Werror -c tools/c/os.c -o "target/$1/os.o"
        os=("target/$1/os.o")
    fi
}

# program_object NAME T: prints the object of the program NAME.
program_object() {
    if [ "$2" = x86-64 ]; then object "$1"; else compiled "$1" "$2"; fi
}

# program NAME T: prints the program of crates/NAME for T: for x86-64 the toolchain's own.
program() {
    local out object os=()
    out=$(bin "$2")/$1
    for_target "$2"
    [ -n "$wide" ] || refuse "the programs are for machines whose pointers have 64 bits, and $2 has not"
    object=$(program_object "$1" "$2")
    if [ "$2" != x86-64 ]; then
        os_code "$2"
        need_cc
        mkdir -p "target/$2/bin"
        "$cc" -o "$out" "$object" "${os[@]}"
    fi
    echo "$out"
}

# front T: prints bin/locator of tools/install: the programs' objects, each main under a name of its own, behind tools/c/front.c, which gives an exit status.
fronted=(roots salvage jobs sheet blocks)
front() {
    local target=$1 name object objects=() os=() out call wraps=()
    for_target "$target"
    need_cc
    mkdir -p "target/$target"
    build "${fronted[@]}"
    for name in "${fronted[@]}"; do
        object=$(program_object "$name" "$target")
        "${tool}objcopy" --redefine-sym "main=${name}_main" "$object" "target/$target/$name-front.o"
        objects+=("target/$target/$name-front.o")
    done
    os_code "$target"
    for call in read write rattle_arg_count rattle_arg; do wraps+=("-Wl,--wrap=$call"); done
    out=target/$target/locator
    "$cc" -O2 -std=c11 -D_POSIX_C_SOURCE=200809L -Wall -Wextra -Werror -pie -fPIE -Iinclude -Wl,-z,relro -Wl,-z,now -Wl,--gc-sections "${wraps[@]}" -o "$out" \
        tools/c/front.c "${objects[@]}" "${os[@]}"
    echo "$out"
}
