# shellcheck shell=bash
# What the commands of tools/, tests/ and bench/ share, each thing written once. A command sources this file with its own words:
# `--help` as the first of them prints the comment at the command's head and ends. The command then stands at the top of the repository;
# $from is the folder that it was called in.
#
#   refuse, no_words, say, stage     what a command says on standard error
#   have, need, unpacked, package    Debian's packages: installed, or those for x86-64 only unpacked
#   compile, need_compiler           C for x86-64, natively or by the cross compiler: $compiler, and $cross before the names of binutils
#   run, program_of                  built programs, natively or under Debian's emulator
#   emulator, need_emulator          that emulator
#   build, library, object           proved and built by the toolchain where they are not built from these sources
set -euo pipefail
shopt -s inherit_errexit
self=$(realpath "$0") from=$PWD
name=$(basename "$self")
cd "$(dirname "${BASH_SOURCE[0]}")/.."
top=$PWD

# ---- words

# The comment at the command's head.
show_help() { awk 'NR == 1 { next } !/^#/ { exit } { sub(/^# ?/, ""); print }' "$self"; }

# refuse WORDS: says what is wrong with the command's words; ends with 2.
refuse() {
    echo "$name: $* (see $name --help)" >&2
    exit 2
}

# no_words "$@": refuses any.
no_words() { [ $# -eq 0 ] || refuse "unknown word: $1"; }

# say WORDS: one line on standard error.
say() { echo "$name: $*" >&2; }

# stage WORDS: the next of $stages begins.
stage() {
    reached=$((${reached:-0} + 1))
    say "$reached of $stages: $*"
}

# ---- packages

# have PACKAGE..: installs those of these that are missing. Where they cannot be had it says so and gives 77.
have() {
    local package missing=() admin=()
    for package; do
        [ "$(dpkg-query -W -f '${db:Status-Status}' "$package" 2>/dev/null)" = installed ] || missing+=("$package")
    done
    [ ${#missing[@]} -gt 0 ] || return 0
    say "installs ${missing[*]}"
    [ "$(id -u)" = 0 ] || admin=(sudo)
    admin+=(env DEBIAN_FRONTEND=noninteractive)
    if ! { "${admin[@]}" apt-get update -qq && "${admin[@]}" apt-get install -y -qq --no-install-recommends "${missing[@]}"; } >/dev/null; then
        say "these packages cannot be installed: ${missing[*]}"
        return 77
    fi
}

# need COMMAND PACKAGE..: installs the packages where there is no such command.
need() { command -v "$1" >/dev/null || have "${@:2}"; }

# unpacked FOLDER PACKAGE[=VERSION]..: Debian's packages for x86-64, unpacked together into FOLDER, with the name and version of each in FOLDER/versions; nothing
# where they are there. The machine's own package lists stay as they are. Where they cannot be had it says so and gives 77.
unpacked() {
    local folder=$1 work deb
    shift
    [ ! -f "$folder/versions" ] || return 0
    say "fetches for x86-64: $*"
    work=$(mktemp -d)
    mkdir -p "$work/lists/partial" "$work/archives/partial" "$work/all" "$(dirname "$folder")"
    : >"$work/status"
    local lists=(-qq -o APT::Architecture=amd64 -o APT::Architectures=amd64 -o "Dir::State=$work" -o "Dir::State::status=$work/status" -o "Dir::Cache=$work"
        -o APT::Sandbox::User=root)
    if ! (cd "$work" && apt-get "${lists[@]}" update && apt-get "${lists[@]}" download "$@") >&2; then
        rm -rf "$work"
        say "these packages for x86-64 cannot be fetched: $*"
        return 77
    fi
    for deb in "$work"/*.deb; do
        dpkg-deb -x "$deb" "$work/all" || return 77
        dpkg-deb -W --showformat='${Package} ${Version}\n' "$deb" >>"$work/all/versions"
    done
    rm -rf "$folder"
    mv "$work/all" "$folder"
    rm -rf "$work"
}

# package PACKAGE[=VERSION]: prints where Debian's package for x86-64 is unpacked, in the user's cache.
package() {
    local folder=${XDG_CACHE_HOME:-$HOME/.cache}/umelihano/$1
    unpacked "$folder" "$1"
    echo "$folder"
}

# ---- C

native=1 cross=
[ "$(uname -m)" = x86_64 ] || native='' cross=x86_64-linux-gnu-
compiler=${cross}gcc

# The compiler for x86-64 and its libc.
need_compiler() { if [ -n "$native" ]; then need gcc gcc libc6-dev; else need "$compiler" gcc-x86-64-linux-gnu libc6-dev-amd64-cross; fi; }

# compile WORDS..: the compiler for x86-64 with these words.
compile() {
    need_compiler
    "$compiler" "$@"
}

# ---- running

# Where the toolchain stands.
kit() { dirname "$(rt doc)"; }

# program_of NAME: sets $program to the words that run target/bin/NAME.
program_of() {
    program=("$top/target/bin/$1")
    [ -n "$native" ] || program=("${emulator[@]}" "${program[@]}")
}

# run NAME [WORDS]: runs target/bin/NAME.
run() {
    local program
    program_of "$1"
    "${program[@]}" "${@:2}"
}

emulator=()
[ -n "$native" ] || emulator=(/usr/bin/qemu-x86_64 -L /usr/x86_64-linux-gnu)
need_emulator() { [ -n "$native" ] || have qemu-user libc6-dev-amd64-cross; }

# ---- building

# build CRATE..: static libraries and programs, proved and built by the toolchain for x86-64 where they are not built from these sources (tools/build.py).
build() { python3 "$top/tools/build.py" "$@" >&2; }

# library NAME: prints the archive of the static library NAME.
library() {
    build "$1"
    echo "target/staticlib/lib$1.a"
}

# object NAME: prints the object of the program NAME.
object() {
    build "$1"
    echo "target/obj/$1.o"
}

[ "${1:-}" != --help ] || {
    show_help
    exit 0
}
