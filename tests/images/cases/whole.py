"""The examples of docs/RULES.md, number 1, every byte of the example's headers, and the linker's executables."""
import pathlib

from elf import change
from rules.listing import listing

from .built import CASES, EXAMPLE, EXAMPLE_LISTING, ONE_LISTING, RODATA, TEXT, build, case, lines, load, two

PROGRAMS = pathlib.Path(__file__).resolve().parents[1] / 'programs'


def examples():
    case('example', EXAMPLE, EXAMPLE_LISTING)
    case('example-63-bytes', EXAMPLE[:63], 11)
    case('example-64-zero-bytes', bytes(64), 12)
    case('example-no-headers-table-at-length', build([], table=64), 27)
    case('example-no-headers-table-past-length', build([], table=65), 20)
    case('example-file-size-0-at-length', two(load(RODATA, 240, 69872, 0, 16)),
         lines(65712, 'text 65536 69632', 'rodata 69632 73728', '73728 73728', 6))
    case('example-file-size-0-past-length', two(load(RODATA, 241, 69873, 0, 16)), 22)
    case('example-flags-13', build([load(13, 0, 65536, 180, 180)], size=184), ONE_LISTING)
    case('example-flags-7', two(load(7, 0, 69632, 180, 180)), 25)
    case('example-flags-7-memory-0', two(load(7, 0, 69632, 0, 0)), ONE_LISTING)
    case('example-end-2^64-4096', two(load(RODATA, 0, 2**64 - 8192, 180, 4096)), 30)
    case('example-end-2^64-4095', two(load(RODATA, 0, 2**64 - 8192, 180, 4097)), 24)


def longest():
    """Number 1."""
    for size, expected in (32767, EXAMPLE_LISTING), (32768, EXAMPLE_LISTING), (32769, 1):
        case(f'1-length-{size}', EXAMPLE + bytes(size - 184), expected)
    case('1-length-32769-zero', bytes(32769), 1)
    case('1-text-of-32768-bytes', build([load(TEXT, 0, 65536, 32768, 32768)], size=32768, entry=98300),
         lines(98300, 'text 65536 98304', '98304 98304', 12))


def sweep():
    """The example with one bit of one byte of its headers turned over."""
    for at in range(176):
        for bit in 0, 7:
            image = change(EXAMPLE, at, 1, EXAMPLE[at] ^ 1 << bit)
            CASES.append((f'sweep-byte-{at}-bit-{bit}', image, listing(image)))


def programs():
    """Executables that the GNU linker wrote; readelf_check.py compares their listings with readelf's."""
    for path in sorted(PROGRAMS.iterdir()):
        image = path.read_bytes()
        CASES.append((f'ld-{path.name}', image, listing(image)))
