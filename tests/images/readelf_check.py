#!/usr/bin/env python3
"""Compares the listings in ../../crates/listing_cases/stdout with what `readelf -hlW` says of the same images.

Every executable of the linker is compared, and every other image that has a listing or is refused with 28. Kinds, starts,
ends, bss and pages come from readelf's LOAD lines by the numbers of the pages touched, not by the model, and so does 28.
Says 'skipped' where readelf is missing.
"""
import os
import pathlib
import re
import shutil
import subprocess
import sys
import tempfile

CRATE = pathlib.Path(__file__).resolve().parent.parent.parent / 'crates' / 'listing_cases'
LOAD = re.compile(r'  LOAD +(0x\w+) (0x\w+) 0x\w+ (0x\w+) (0x\w+) ([R ][W ][E ]) (0x\w+|0)$', re.M)
KINDS = {'R E': 'text', 'R  ': 'rodata', 'RW ': 'data'}


def read_cases():
    """(name, image, listing) of each case, from the two files that the gate uses."""
    packed = (CRATE / 'data' / 'cases').read_bytes()
    lines = (CRATE / 'stdout').read_text().splitlines()
    at = 0
    found = []
    while at < len(packed):
        image = at + 4 + packed[at]
        end = image + int.from_bytes(packed[at + 1:at + 4], 'little')
        found.append((packed[at + 4:image].decode(), packed[image:end]))
        at = end
    starts = [i for i, line in enumerate(lines) if '=' not in line] + [len(lines)]
    assert [lines[i] for i in starts[:-1]] == [name for name, _ in found], 'stdout and cases name other images'
    return [(name, image, lines[starts[i] + 1:starts[i + 1]]) for i, (name, image) in enumerate(found)]


def refusal(said, loads, size):
    """Why an image is refused, in the order of the numbers, as far as the images compared go; None if it is not."""
    if size > 32768:
        return 1
    if 'Class:                             ELF64' not in said:
        return 13
    if 'little endian' not in said:
        return 14
    if 'EXEC (Executable file)' not in said:
        return 16
    for offset, address, file, _, flags, align in loads:
        if offset + file > size:
            return 22
        if align & align - 1 or align and (address - offset) % align:
            return 28
        if flags not in KINDS:
            return 25
    if any(load[1] < 0x10000 for load in loads):
        return 30
    return None


def listing(said, size):
    loads = [(*(int(n, 16) for n in m.groups()[:4]), m.group(5), int(m.group(6), 16)) for m in LOAD.finditer(said)]
    loads = [load for load in loads if load[3] > 0]
    number = refusal(said, loads, size)
    if number is not None:
        return [f'refused={number}']
    out = [f"entry={int(re.search('Entry point address: +(0x[0-9a-f]+)', said).group(1), 16)}"]
    pages = 4
    for _, address, file, memory, flags, _ in loads:
        first, last = address // 4096, (address + memory - 1) // 4096
        pages += last - first + 1
        bss = 4096 * (last + 1)
        if flags == 'RW ':
            # The last page with a file byte, or the page that the bss starts inside.
            bss = address + file
            recorded = (bss - 1) // 4096
        else:
            recorded = last
        if recorded >= first:
            out.append(f'segment={KINDS[flags]} {4096 * first} {4096 * (recorded + 1)}')
    out.append(f'bss={bss} {4096 * (last + 1)}')
    out.append(f'pages={pages}')
    return out


def main():
    readelf = shutil.which('readelf') or shutil.which('aarch64-linux-gnu-readelf')
    if readelf is None:
        print('images: comparison with readelf: skipped (no readelf)')
        return 0
    chosen = [c for c in read_cases() if c[0].startswith('ld-') or len(c[2]) > 1 or c[2] == ['refused=28']]
    bad = 0
    with tempfile.TemporaryDirectory() as folder:
        for name, image, expected in chosen:
            path = pathlib.Path(folder) / 'image'
            path.write_bytes(image)
            said = subprocess.run([readelf, '-hlW', path], capture_output=True, text=True, env={**os.environ, 'LC_ALL': 'C'})
            derived = listing(said.stdout, len(image))
            if derived != expected:
                print(f'readelf_check.py: {name}: the listing is {expected}, by readelf {derived}', file=sys.stderr)
                bad += 1
    if not bad:
        programs = sum(c[0].startswith('ld-') for c in chosen)
        print(f'images: {programs} executables and {len(chosen) - programs} other images: readelf says the same')
    return min(bad, 1)


if __name__ == '__main__':
    sys.exit(main())
