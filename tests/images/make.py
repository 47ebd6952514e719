#!/usr/bin/env python3
"""Images for the listing program, each with the listing that the rules give it.

  make.py            write example.img, ../../crates/listing_cases/data/cases and ../../crates/listing_cases/stdout
  make.py --check    compare those three files with what would be written
  make.py --to DIR   write each image as DIR/NAME.img with its listing as DIR/NAME.txt

Each case (cases/) states its listing, worked out by hand from the rules, and the model of tests/compare gives it again from the
bytes; the two must agree before anything is written. Only the sweep and the linker's executables have their listing from the model
alone; readelf_check.py compares the latter with readelf's reading.

The file `cases` holds the images one after another, each as: the name's length in 1 byte, the image's length in 3 bytes,
little-endian, the name, the image.
"""
import pathlib
import sys

from cases import header, layout, order, segments, whole
from cases.built import CASES, EXAMPLE
from rules.listing import listing

HERE = pathlib.Path(__file__).resolve().parent
CRATE = HERE.parent.parent / 'crates' / 'listing_cases'
GROUPS = [whole.examples, header.header, header.table, order.order, segments.sizes, segments.modulo, segments.alignment,
          segments.overflow, segments.flags, segments.unordered, segments.entry, segments.skipped, layout.lowest_and_limit,
          layout.bss, layout.recorded, whole.longest, whole.sweep, whole.programs]


def all_cases():
    for group in GROUPS:
        group()
    return CASES


def pack(cases):
    out = b''
    for name, image, _ in cases:
        out += bytes([len(name)]) + len(image).to_bytes(3, 'little') + name.encode() + image
    return out


def text(cases):
    return ''.join('\n'.join([name, *expected]) + '\n' for name, _, expected in cases).encode()


def main(arguments):
    cases = all_cases()
    bad = 0
    for name, image, expected in cases:
        if listing(image) != expected:
            print(f'make.py: {name}: by hand {expected}, by the model {listing(image)}', file=sys.stderr)
            bad += 1
    for i, (name, _, _) in enumerate(cases):
        if any(name == other for other, _, _ in cases[:i]):
            print(f'make.py: {name}: two cases have this name', file=sys.stderr)
            bad += 1
    if bad:
        return 1
    files = {HERE / 'example.img': EXAMPLE, CRATE / 'data' / 'cases': pack(cases), CRATE / 'stdout': text(cases)}
    if arguments[:1] == ['--to']:
        folder = pathlib.Path(arguments[1])
        files = {folder / f'{name}.img': image for name, image, _ in cases}
        files.update({folder / f'{name}.txt': ('\n'.join(expected) + '\n').encode() for name, _, expected in cases})
    if arguments[:1] == ['--check']:
        for path, content in files.items():
            if not path.is_file() or path.read_bytes() != content:
                print(f'make.py: {path} is not what make.py writes', file=sys.stderr)
                bad += 1
    else:
        for path, content in files.items():
            path.parent.mkdir(parents=True, exist_ok=True)
            path.write_bytes(content)
    if not bad:
        print(f'images: {len(cases)} images, {sum(len(image) for _, image, _ in cases)} bytes, '
              f'{sum(len(expected) > 1 for _, _, expected in cases)} accepted')
    return min(bad, 1)


if __name__ == '__main__':
    sys.exit(main(sys.argv[1:]))
