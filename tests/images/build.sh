#!/usr/bin/env bash
# Builds the executables of programs/ from src/, or with --check compares a new build with them.
#
# They were made with Debian 12's packages gcc-aarch64-linux-gnu 4:12.2.0-3 and binutils-aarch64-linux-gnu 2.40-2
# (apt-get install gcc-aarch64-linux-gnu). Where these versions are missing, --check compares nothing and says so.
set -euo pipefail
cd "$(dirname "$0")"
gcc_version='aarch64-linux-gnu-gcc (Debian 12.2.0-14) 12.2.0'
ld_version='GNU ld (GNU Binutils for Debian) 2.40'

work=$(mktemp -d)
trap 'rm -rf "$work"' EXIT
out=programs
if [ "${1:-}" = --check ]; then
    if [ "$(aarch64-linux-gnu-gcc --version 2>&1 | sed 1q)" != "$gcc_version" ] ||
        [ "$(aarch64-linux-gnu-ld --version 2>&1 | sed 1q)" != "$ld_version" ]; then
        echo "images: executables built again: skipped (needs $gcc_version and $ld_version)"
        exit 0
    fi
    out=$work/programs
fi
mkdir -p "$out"
rm -f "$out"/*

compile() { # compile SOURCE OBJECT FLAG..
    local source=$1 object=$2
    shift 2
    aarch64-linux-gnu-gcc -c -Os -ffreestanding -fno-pic -fno-stack-protector -fno-ident -fno-unwind-tables \
        -fno-asynchronous-unwind-tables "$@" -o "$work/$object.o" "src/$source"
}

link() { # link OBJECT LAYOUT FLAG..
    local object=$1 layout=$2
    shift 2
    aarch64-linux-gnu-ld -static -s "$@" -o "$out/$object-$layout" "$work/$object.o"
    chmod 644 "$out/$object-$layout"
}

compile text.S text
compile rodata.c rodata
compile data.c data
compile data.c wide -DTABLE=9000 -DCOUNTS=2000
compile data.c unwind -funwind-tables -fasynchronous-unwind-tables -mbranch-protection=standard
compile bss.c bss -DSIZE=5000 -DALIGN=8
compile bss.c page -DSIZE=5000 -DALIGN=4096
compile bss.c huge -DSIZE=1000000000 -DALIGN=16
compile tls.c tls

# The linker's own layout: from 0x400000, 65,536-byte pages, code not separate. In `unwind` the data is moved up to a page
# end for relro, and the file has more than 32,768 bytes. In `page` the bss has an offset past the file's end.
for object in text rodata data wide unwind bss page huge; do
    link $object default
done
link unwind norelro -z norelro
link tls norelro -z norelro
# The same from UTZERO.
for object in text rodata data wide bss huge; do
    link $object utzero -z max-page-size=65536 -z noseparate-code -Ttext-segment=0x10000
done
# 4,096-byte pages, with code not separate and separate. (Separate code with 65,536-byte pages makes files of more than
# 65,536 bytes.)
for object in text rodata data wide unwind bss page huge tls; do
    link $object 4096 -z max-page-size=4096 -z noseparate-code
    link $object 4096-separate -z max-page-size=4096 -z separate-code
done
link data 4096-utzero -z max-page-size=4096 -z noseparate-code -Ttext-segment=0x10000
link data 4096-separate-utzero -z max-page-size=4096 -z separate-code -Ttext-segment=0x10000
link unwind 4096-build-id -z max-page-size=4096 -z separate-code --build-id=sha1

# Executables that the rules refuse: below UTZERO, all in one writable segment, position-independent, not linked,
# big-endian, 32-bit.
link data below-utzero -z max-page-size=4096 -Ttext-segment=0x8000
link data omagic -N --no-warn-rwx-segments
link data relocatable -r
compile data.c pie -fpie
link pie 4096 -z max-page-size=4096 -pie --no-dynamic-linker
compile data.c big -mbig-endian
link big endian -z max-page-size=4096 -EB
compile data.c ilp32 -mabi=ilp32
link ilp32 4096 -z max-page-size=4096 -m aarch64linux32

if [ "$out" != programs ]; then
    diff -r programs "$out"
    echo "images: executables built again: the same"
fi
