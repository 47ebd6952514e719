"""Numbers 11 to 20: the file header and where the table may lie."""
from elf import change

from .built import EXAMPLE, EXAMPLE_LISTING, ONE, ONE_LISTING, TEXT, THREE, THREE_LISTING, build, case, lines, load


def header():
    """Checks 11 to 20."""
    case('11-length-0', b'', 11)
    case('11-length-1', b'\x7f', 11)
    case('11-length-4', b'\x7fELF', 11)
    case('11-length-63-zero', bytes(63), 11)
    empty = build([])
    case('11-length-63', empty[:63], 11)
    case('11-length-64', empty, 27)
    case('11-length-65', empty + b'\0', 27)
    for i, byte in enumerate(b'\x7fELF'):
        case(f'12-byte-{i}-below', change(EXAMPLE, i, 1, byte - 1), 12)
        case(f'12-byte-{i}-above', change(EXAMPLE, i, 1, byte + 1), 12)
    case('12-bytes-swapped', EXAMPLE[3::-1] + EXAMPLE[4:], 12)
    for value in 0, 1, 3, 255:
        case(f'13-byte-4-is-{value}', change(EXAMPLE, 4, 1, value), 13)
    for value in 0, 2, 255:
        case(f'14-byte-5-is-{value}', change(EXAMPLE, 5, 1, value), 14)
    for value in 0, 2, 255:
        case(f'15-byte-6-is-{value}', change(EXAMPLE, 6, 1, value), 15)
    for value in 0, 2, 257, 65537, 2**24 + 1:
        case(f'15-word-20-is-{value}', change(EXAMPLE, 20, 4, value), 15)
    for value in 0, 1, 3, 258:
        case(f'16-type-{value}', change(EXAMPLE, 16, 2, value), 16)
    for value in 0, 182, 184, 183 + 256:
        case(f'17-machine-{value}', change(EXAMPLE, 18, 2, value), 17)
    for value in 0, 32, 55, 57, 64, 56 + 256:
        case(f'18-entsize-{value}', change(EXAMPLE, 54, 2, value), 18)
    for value in 65709, 65710, 65711, 65713, 65714, 65715, 1, 2**64 - 1:
        case(f'19-entry-{value}', change(EXAMPLE, 24, 8, value), 19)
    # Fields that no check reads.
    unread = EXAMPLE
    for at, width in (7, 1), (8, 8), (40, 8), (48, 4), (52, 2), (58, 2), (60, 2), (62, 2):
        unread = change(unread, at, width, 256**width - 1)
    case('20-unread-fields-all-ones', unread, EXAMPLE_LISTING)
    unread = EXAMPLE
    for at in 64, 120:
        unread = change(unread, at + 24, 8, 2**64 - 1)
    case('20-physical-addresses-all-ones', unread, EXAMPLE_LISTING)


def table():
    """Check 20, and where the table may lie."""
    body = build([], size=65, count=3, table=65) + b''.join(THREE)
    case('20-table-at-65', body + bytes(352 - len(body)), THREE_LISTING)
    for name, size, expected in (('below', 185, 27), ('at', 184, 27), ('past', 183, 20)):
        # The table's 112 bytes start at 72. Its headers are all zero, so skipped.
        case(f'20-table-ends-{name}-length', build([], count=2, table=72, size=size), expected)
    ends = build([load(0, 0, 0, 0, 0, type=0), load(TEXT, 0, 65536, 176, 176)], entry=65536 + 172)
    case('20-table-is-the-tail', ends, lines(65708, 'text 65536 69632', '69632 69632', 5))
    case('20-table-one-byte-short', ends[:-1], 20)
    case('20-one-header-too-many', change(ends, 56, 2, 3), 20)
    case('20-count-65535', change(ends, 56, 2, 65535), 20)
    for count, at in ((0, 2**64 - 1), (1, 2**64 - 1), (1, 2**64 - 56), (2, 2**64 - 112), (2, 2**64 - 48), (1, 2**63),
                      (1, 2**32)):
        case(f'20-offset-{at}-count-{count}', build([], count=count, table=at, size=300), 20)
    case('20-table-at-0', build([], count=1, table=0), 27)
    case('20-table-at-0-past', build([], count=2, table=0, size=111), 20)
    case('20-table-at-0-two', build([], count=2, table=0, size=112), 27)
    # The largest table that an image may have: 584 headers, 64 + 56 * 584 = 32,768 bytes.
    none = load(7, 2**64 - 1, 1, 2**64 - 1, 2**64 - 1, type=4)
    case('20-584-headers', build([none] * 583 + ONE), ONE_LISTING)
    case('20-585-headers', change(build([none] * 583 + ONE), 56, 2, 585), 20)
