# shellcheck shell=bash
# What bench/peers, bench/affine and bench/corrector share, over tools/lib.sh: where peers stand, Linux lib/bch.c, the counting of instructions, and the conditions of a run.
#
#   peers_at, bch_options            the folder of the peers; what lib/bch.c is compiled with
#   need_counter, count_each, no_rep instructions: callgrind on x86-64, elsewhere a plugin of Debian's emulator (bench/c/count.c)
#   natively                         this machine's own code in place of that for x86-64
#   about, report                    the conditions, as lines of names and words; what a run prints and writes
source "$(dirname "${BASH_SOURCE[0]}")/../tools/lib.sh"

# peers_at DIR: sets $peers, a folder outside the repository.
peers_at() {
    peers=$(cd "$from" && realpath -m -- "$1")
    case $peers/ in "$top"/*) refuse "the peers must stand outside the repository" ;; esac
    mkdir -p "$peers"
}

# Linux lib/bch.c and its header, of Debian's linux-source-6.12, in $peers/linux, and in $peers/stubs headers that name bench/c/kernel_stub.h in place of the
# kernel's. Nothing is fetched where they are there. Sets $bch_options.
fetch_bch() {
    local header
    if [ ! -f "$peers/linux/version" ]; then
        have xz-utils
        unpacked "$peers/linux-source" linux-source-6.12
        mkdir -p "$peers/linux"
        tar -xJf "$peers/linux-source/usr/src/linux-source-6.12.tar.xz" --strip-components=1 -C "$peers/linux" \
            linux-source-6.12/lib/bch.c linux-source-6.12/include/linux/bch.h
        cat "$peers/linux-source/versions" >"$peers/linux/version"
        rm -r "$peers/linux-source"
    fi
    mkdir -p "$peers/stubs/linux" "$peers/stubs/asm"
    for header in linux/bitops linux/bitrev linux/errno linux/init linux/kernel linux/module linux/slab linux/types asm/byteorder; do
        echo '#include "kernel_stub.h"' >"$peers/stubs/$header.h"
    done
    bch_options=(-w "-I$peers/stubs" "-I$peers/linux/include" "-DBCH_C=\"$peers/linux/lib/bch.c\"")
}

# Sets $counting to the words that count the instructions of a program for x86-64.
need_counter() {
    if [ -n "$native" ]; then
        have valgrind
        counting=(valgrind --tool=callgrind --callgrind-out-file=/dev/null)
    else
        have gcc libc6-dev
        gcc -O2 -shared -fPIC -Wall -Wextra -o "$peers/count.so" bench/c/count.c
        counting=("${emulator[@]}" -plugin "$peers/count.so")
    fi
}

# count WORDS: prints the instructions of the program that these words run, where they can be had.
count() { { "${counting[@]}" "$@" 2>&1 >/dev/null || true; } | sed -n 's/.*Collected : //p'; }

# count_each PROGRAM N: of each line of standard input the first N words, which name a set of 64 cases, and the instructions that the program takes for a case.
count_each() {
    local lines line key at=0 none one
    mapfile -t lines
    for line in "${lines[@]}"; do
        at=$((at + 1))
        [ $((at % 10)) != 0 ] || say "counted $at of ${#lines[@]}"
        read -r -a key <<<"$line"
        key=("${key[@]:0:$2}")
        none=$(count "$1" pass "${key[@]}" 0)
        one=$(count "$1" pass "${key[@]}" 1)
        [ -z "$none" ] || (IFS=$'\t' && echo "${key[*]}	$(((one - none) / 64))")
    done
}

# glibc's memset and memcpy may use rep stos and rep movs, which both counters take as an instruction a byte. From here on they are told to leave rep out.
no_rep() {
    local vector=GLIBC_TUNABLES=glibc.cpu.x86_rep_stosb_threshold=1000000000:glibc.cpu.x86_rep_movsb_threshold=1000000000
    if [ -n "$native" ]; then counting=(env "$vector" "${counting[@]}"); else counting+=(-E "$vector"); fi
}

# natively: from here on all is compiled for this machine and runs on it, our library too (tools/targets.sh), and wall time alone is taken ($quick).
natively() {
    source tools/targets.sh
    [ "$here" != x86-64 ] || refuse "--native is for other processors: on x86-64 a run without it is native"
    quick=1
    native=1 cross='' compiler=gcc emulator=()
    library() { archive "$1" "$here"; }
}

# Where, when, by what: a line for each, a name and words.
about() {
    if [ -n "$native" ]; then
        echo "where	native $(uname -m | tr _ -): $(LC_ALL=C lscpu | sed -n 's/^Model name: *//p' | head -n 1)"
        echo "counter	$(valgrind --version 2>/dev/null || echo none)"
    else
        echo "where	under the emulator ($("${emulator[0]}" --version | sed -n '1s/ (.*//p')) on $(uname -m): of the times only the ratios count"
        echo "counter	a plugin of the emulator, bench/c/count.c"
    fi
    echo "date	$(date +%F)"
    echo "compiler	$("$compiler" --version | head -n 1), -O3 -funroll-loops"
    echo "commit	$(git rev-parse --short HEAD 2>/dev/null || echo none)"
    echo "bch	$(cat "$peers/linux/version" 2>/dev/null || echo 'not taken')"
}

# report PART: prints the tables of the run of bench/PART whose files stand in $out, those of $machine where it ran natively; with $docs it writes them to docs/.
report() {
    if [ -n "${machine:-}" ]; then python3 bench/report/native.py "$1" "$out" ${docs:+docs}; else python3 "bench/report/$1.py" "$out" ${docs:+docs}; fi
}
