#!/usr/bin/env python3
"""Runs a listing program on every image, and compares what it writes with the listings in ../../crates/listing_cases/stdout.

  against.py PROGRAM [ARGUMENT..]     as against.py ../../target/bin/listing

Standard input is a file, then a pipe that is written in pieces. Inputs longer than the cases are made here.
"""
import pathlib
import sys

from readelf_check import read_cases

sys.path.insert(0, str(pathlib.Path(__file__).resolve().parents[1] / 'compare'))
from feed import from_file, in_pieces  # noqa: E402


def main(command):
    found = read_cases()
    example = found[0]
    long = [(f'1-length-{n}', example[1] + bytes(n - 184), ['refused=1']) for n in (65536, 65720, 131256, 3000000)]
    bad = runs = 0
    for name, image, expected in found + long:
        wanted = ('\n'.join(expected) + '\n').encode()
        ways = [('a file', from_file(command, image)), ('pieces of 4096', in_pieces(command, image, 4096, 0))]
        if len(image) <= 1000:
            ways.append(('pieces of 61', in_pieces(command, image, 61, 0.0005)))
        if name == example[0]:
            ways.append(('pieces of 1', in_pieces(command, image, 1, 0.002)))
        if len(image) == 32768 or len(image) == 32769:
            ways.append(('pieces of 32767', in_pieces(command, image, 32767, 0.01)))
        for way, out in ways:
            runs += 1
            if out != wanted:
                print(f'against.py: {name} from {way}: {out!r}, not {wanted!r}', file=sys.stderr)
                bad += 1
    if not bad:
        print(f'images: {command[0]}: {runs} runs on {len(found) + len(long)} images, all as listed')
    return min(bad, 1)


if __name__ == '__main__':
    if len(sys.argv) < 2:
        sys.exit(__doc__)
    sys.exit(main(sys.argv[1:]))
