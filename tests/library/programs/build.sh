#!/usr/bin/env bash
# build.sh DIR: the programs here, as each compiler that is there gives them, in the layouts of each linker that is there; files are
# named PROGRAM-COMPILER-LAYOUT. It prints the linkers' names.
set -euo pipefail
cd "$(dirname "$0")"
out=$1
mkdir -p "$out"
rm -f "$out"/*
objects=$(mktemp -d)
trap 'rm -rf "$objects"' EXIT
gcc=aarch64-linux-gnu-gcc
ld=aarch64-linux-gnu-ld
gold=aarch64-linux-gnu-ld.gold

there() { command -v "$1" >/dev/null 2>&1; }

compile() { # compile COMPILER COMMAND..
    local compiler=$1 source
    shift
    for source in start.S gap.S print.c reader.c faults.c; do
        "$@" -c -O1 -Wall -Wextra -Werror -ffreestanding -fno-pic -fno-stack-protector -mgeneral-regs-only \
            -fno-asynchronous-unwind-tables -o "$objects/$compiler-${source%.*}.o" "$source"
    done
}

link() { # link PROGRAMS LAYOUT LINKER FLAG..
    local programs=$1 layout=$2 compiler program
    shift 2
    for compiler in $compilers; do
        for program in $programs; do
            "$@" -static -o "$out/$program-$compiler-$layout" "$objects/$compiler"-{start,"$program",gap,print}.o
        done
    done
}

# Programs that need nothing else.
compilers=gcc
compile gcc $gcc
if there clang && clang --print-targets | grep -q aarch64; then
    compilers="gcc clang"
    compile clang clang --target=aarch64-linux-gnu
fi
linkers="GNU ld"
link "reader faults" ld $ld
link reader ld-utzero $ld -Ttext-segment=0x10000
link reader ld-4096 $ld -z max-page-size=4096 -z noseparate-code
link "reader faults" ld-separate $ld -z max-page-size=4096 -z separate-code
link reader plan9 $ld -z max-page-size=4096 -T plan9.ld
if there $gold; then
    linkers="$linkers, gold"
    link reader gold $gold
    link reader gold-4096 $gold -z max-page-size=4096
    link reader gold-separate $gold --rosegment
fi
if there ld.lld; then
    linkers="$linkers, LLD"
    link "reader faults" lld ld.lld
    link reader lld-4096 ld.lld -z norelro -z max-page-size=4096
    link reader lld-separate ld.lld -z separate-code
    link reader lld-together ld.lld --no-rosegment
fi

# The one that needs the C library. With LLD's relro a data segment would follow another.
sorter() { # sorter LAYOUT FLAG..
    local layout=$1
    shift
    $gcc -O1 -Wall -Wextra -Werror -static sorter.c "$@" -o "$out/sorter-gcc-$layout"
}

if [ -e "$($gcc -print-file-name=libc.a)" ]; then
    sorter ld
    sorter ld-separate -Wl,-z,max-page-size=4096,-z,separate-code
    if there $gold; then sorter gold -fuse-ld=gold; fi
    if there ld.lld; then
        ln -s "$(command -v ld.lld)" "$objects/ld.lld" # gcc looks for it there
        sorter lld -B"$objects" -fuse-ld=lld -Wl,-z,norelro
    fi
fi
if [[ $linkers = *,* ]]; then linkers="${linkers%, *} and ${linkers##*, }"; fi
echo "$linkers"
