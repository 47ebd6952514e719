"""ELF images, made field by field. Values are cut to their fields."""
import struct

from rules.setup import DEPOSIT

TEXT, RODATA, DATA = 5, 4, 6      # flags


def header(entry, count, table=64, magic=b'\x7fELF', wide=2, order=1, ident=1, type=2, machine=183, version=1, entsize=56):
    """A file header, 64 bytes: valid unless a field is given."""
    return struct.pack('<4sBBBB8xHHIQQQIHHHHHH', magic, wide, order, ident, 0, type, machine, version, entry % 2**64, table,
                       0, 0, 64, entsize, count, 0, 0, 0)


def program(flags, offset, address, file, memory, type=1, align=4096):
    """A program header, 56 bytes."""
    words = (v % 2**64 for v in (offset, address, address, file, memory, align))
    return struct.pack('<II6Q', type, flags, *words)


def example(code, data, base=DEPOSIT.utzero):
    """The example of 184 bytes, linked at `base`: four bytes of code and four of data follow its headers."""
    heads = program(TEXT, 0, base, 180, 180) + program(DATA, 180, base + 4276, 4, 8000)
    return header(base + 176, 2) + heads + code + data


def field(image, at, width):
    return int.from_bytes(image[at:at + width], 'little')


def change(image, at, width, value):
    """The image with one field changed."""
    return image[:at] + (value % 2**(8 * width)).to_bytes(width, 'little') + image[at + width:]
