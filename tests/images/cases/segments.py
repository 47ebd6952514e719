"""Numbers 21 to 28: the program headers."""
from elf import change

from .built import DATA, EXAMPLE, EXAMPLE_LISTING, ONE, ONE_LISTING, RODATA, TEXT, THREE, THREE_LISTING, build, case, lines, load, two


def sizes():
    """Checks 21 and 22, in the first header and in a later one."""
    listed = lines(65712, 'text 65536 69632', 'rodata 69632 73728', '73728 73728', 6)
    for name, file, expected in (('below', 59, listed), ('at', 60, listed), ('above', 61, 21)):
        case(f'21-file-{name}-memory', two(load(RODATA, 180, 69812, file, 60), size=300), expected)
    case('21-first-header', build([load(TEXT, 0, 65536, 181, 180)], size=184), 21)
    case('21-file-1-memory-2^64-1', two(load(RODATA, 0, 69632, 1, 2**64 - 1)), 24)
    case('21-file-2^64-1-memory-2^64-1', two(load(RODATA, 0, 69632, 2**64 - 1, 2**64 - 1)), 22)
    case('21-file-2^64-1-memory-2^64-2', two(load(RODATA, 0, 69632, 2**64 - 1, 2**64 - 2)), 21)
    case('21-file-2^32-memory-1', two(load(RODATA, 0, 69632, 2**32, 1)), 21)
    for name, file, expected in (('below', 59, listed), ('at', 60, listed), ('past', 61, 22)):
        case(f'22-file-ends-{name}-length', two(load(RODATA, 180, 69812, file, 100)), expected)
    case('22-first-header-at', build([load(TEXT, 0, 65536, 184, 184)], size=184), ONE_LISTING)
    case('22-first-header-past', build([load(TEXT, 0, 65536, 185, 185)], size=184), 22)
    case('22-file-0-offset-below', two(load(RODATA, 239, 69871, 0, 16)), listed)
    case('22-data-file-0-at', two(load(DATA, 240, 69872, 0, 16)),
         lines(65712, 'text 65536 69632', 'data 69632 73728', '69872 73728', 6))
    case('22-data-file-0-past', two(load(DATA, 241, 69873, 0, 16)), 22)
    for offset, file in ((2**64 - 1, 1), (2**64 - 4096, 4096), (2**64 - 4096, 4096 + 240), (2**64 - 1, 0), (2**63, 2**63),
                         (2**32, 16)):
        case(f'22-offset-{offset}-file-{file}', two(load(RODATA, offset, 69632 + offset % 4096, file, 2**63)), 22)


def modulo():
    """Check 23."""
    listed = lines(65712, 'text 65536 69632', 'rodata 69632 73728', '73728 73728', 6)
    for difference in -1, 1, -4095, 4095, 2048, 1024, 16:
        address = 69812 + difference
        case(f'23-address-{address}', two(load(RODATA, 180, address, 16, 16)), 23)
    case('23-address-69812', two(load(RODATA, 180, 69812, 16, 16)), listed)
    case('23-address-73908', two(load(RODATA, 180, 73908, 16, 16)),
         lines(65712, 'text 65536 69632', 'rodata 73728 77824', '77824 77824', 6))
    case('23-offset-4095-address-69632', two(load(RODATA, 4095, 69632, 0, 16), size=4200), 23)
    case('23-offset-4095-address-73727', two(load(RODATA, 4095, 73727, 1, 1), size=4200), listed)
    case('23-offset-4096-address-69632', two(load(RODATA, 4096, 69632, 104, 104), size=4200), listed)
    case('23-offset-4097-address-69633', two(load(RODATA, 4097, 69633, 103, 103), size=4200), listed)
    case('23-offset-4097-address-69632', two(load(RODATA, 4097, 69632, 103, 103), size=4200), 23)
    # Whatever the alignment is; 69,812 + 2,048 agrees with 180 modulo 2,048.
    for difference in 1, 16, 2048:
        for align in 0, 1, 2, 3, 16, 2048, 4096, 8192, 65536, 2**63, 2**64 - 1:
            case(f'23-address-{69812 + difference}-align-{align}',
                 two(load(RODATA, 180, 69812 + difference, 16, 16, align=align)), 23)
    case('23-first-header', build([load(TEXT, 1, 65536, 180, 180)], size=184), 23)


def alignment():
    """Check 28."""
    def rodata(address, align, **other):
        return two(load(RODATA, 180, address, 16, 16, align=align), **other)

    def listed(page):
        return lines(65712, 'text 65536 69632', f'rodata {page} {page + 4096}', f'{page + 4096} {page + 4096}', 6)

    # Address less offset is 17 * 4,096, so 17 and 69,632 would divide it.
    for align in 0, 1, 2, 4, 16, 2048, 4096:
        case(f'28-align-{align}', rodata(69812, align), listed(69632))
    for align in (3, 5, 6, 7, 15, 17, 24, 4095, 4097, 4098, 6144, 8191, 8192, 8193, 12288, 65535, 65536, 65537, 69632, 2**31, 2**32,
                  2**32 + 1, 2**32 + 4096, 2**63, 2**63 + 1, 2**63 + 4096, 2**64 - 4096, 2**64 - 2, 2**64 - 1):
        case(f'28-align-{align}', rodata(69812, align), 28)
    # Addresses that agree with 180 modulo more: 9 * 8,192; 2^16; 2^17; 3 * 2^16; 2^46 itself; 2^63, which is above the limit.
    for page, align, fine in ((73728, 4096, True), (73728, 8192, True), (73728, 8193, False), (73728, 16384, False),
                              (73728, 73728, False), (131072, 65535, False), (131072, 65536, True), (131072, 65537, False),
                              (131072, 131072, True), (131072, 196608, False), (131072, 262144, False), (196608, 32768, True),
                              (196608, 65536, True), (196608, 131072, False), (196608, 196608, False), (2**46, 2**45, True),
                              (2**46, 2**46, True), (2**46, 2**46 + 1, False), (2**46, 2**47, False), (2**46, 2**63, False)):
        case(f'28-address-{page + 180}-align-{align}', rodata(page + 180, align), listed(page) if fine else 28)
    for align, expected in (1, 30), (2**62, 30), (2**63, 30), (2**63 + 1, 28), (2**63 + 2**62, 28), (2**64 - 1, 28):
        case(f'28-address-2^63+180-align-{align}', rodata(2**63 + 180, align), expected)
    for k in range(64):
        case(f'28-align-2^{k}', build([load(TEXT, 0, 65536, 180, 180, align=2**k)], size=184), ONE_LISTING if k <= 16 else 28)
    # Offset and address are equal, or the address is the lower one: below UTZERO, so 30.
    for align, expected in (0, 30), (2**63, 30), (3, 28), (2**64 - 1, 28):
        case(f'28-address-0-align-{align}', build([load(RODATA, 0, 0, 16, 16, align=align)] + ONE, size=240), expected)
    for align, expected in (4096, 30), (8192, 30), (16384, 28):
        low = load(RODATA, 8192 + 180, 180, 16, 16, align=align)
        case(f'28-address-below-offset-align-{align}', build([low] + ONE, size=8400), expected)
    # The example: 69,812 leaves 4,276 modulo 65,536, and 180 is asked for.
    for align, first, second in ((0, True, True), (1, True, True), (2, True, True), (3, False, False), (4096, True, True),
                                 (4097, False, False), (8192, True, False), (65536, True, False), (131072, False, False)):
        for name, at, fine in ('text', 64, first), ('data', 120, second):
            case(f'28-example-{name}-align-{align}', change(EXAMPLE, at + 48, 8, align), EXAMPLE_LISTING if fine else 28)
    # The field is at 48, of eight bytes; the physical address at 24 is not asked.
    for at in 64, 120:
        for physical in 0, 65537, 2**64 - 1:
            case(f'28-physical-{physical}-at-{at}', change(EXAMPLE, at + 24, 8, physical), EXAMPLE_LISTING)
    for align, physical in (65536, 180), (65536, 131252), (3, 180):
        image = change(rodata(69812, align), 120 + 24, 8, physical)
        case(f'28-physical-{physical}-align-{align}', image, 28)
    case('28-physical-69812-align-65536', change(rodata(131252, 65536), 120 + 24, 8, 69812), listed(131072))
    # Each header has its own field.
    def three(*aligns):
        headers = [load(TEXT, 0, 65536, 256, 256, align=aligns[0]), load(RODATA, 256, 69888, 64, 64, align=aligns[1]),
                   load(DATA, 320, 74048, 32, 5000, align=aligns[2])]
        return build(headers, size=352)

    for aligns, expected in (((65536, 4096, 8192), THREE_LISTING), ((0, 1, 2), THREE_LISTING), ((8192, 2048, 0), THREE_LISTING),
                             ((131072, 4096, 8192), 28), ((65536, 8192, 8192), 28), ((65536, 4096, 16384), 28), ((3, 1, 1), 28),
                             ((1, 3, 1), 28), ((1, 1, 3), 28), ((0, 0, 65537), 28)):
        case(f'28-three-{"-".join(map(str, aligns))}', three(*aligns), expected)
    # A header that is skipped is not judged.
    for align in 3, 65536, 2**64 - 1:
        for name, header in (('type-2', load(RODATA, 180, 69812, 16, 16, type=2, align=align)),
                             ('type-0', load(RODATA, 180, 69812, 16, 16, type=0, align=align)),
                             ('empty', load(RODATA, 180, 69812, 0, 0, align=align))):
            case(f'28-{name}-align-{align}', two(header), ONE_LISTING)
            case(f'28-{name}-first-align-{align}', build([header] + ONE, size=240), ONE_LISTING)
        case(f'28-file-0-align-{align}', two(load(RODATA, 180, 69812, 0, 1, align=align)), 28)
    # The shortest images with a header that reaches 28: the table lies inside the file header. At 12 its flags are 2; at 48 its
    # offset, the count, is 1, and no shorter image with a wrong alignment passes all other checks.
    inside = change(build([], count=1, table=12, entry=2**32, size=68), 12, 4, 1)
    for align, expected in (3, 28), (4096, 25):
        case(f'28-length-68-align-{align}', change(inside, 60, 8, align), expected)
    inside = build([], count=1, table=48, entry=65540, size=104)
    for at, width, value in (48, 4, 1), (52, 2, TEXT), (64, 8, 65537), (80, 8, 4), (88, 8, 4):
        inside = change(inside, at, width, value)
    for align, expected in (3, 28), (4096, lines(65540, 'text 65536 69632', '69632 69632', 5)):
        case(f'28-length-104-align-{align}', change(inside, 96, 8, align), expected)


def overflow():
    """Check 24. What passes it lies above the limit, so it is refused by 30, or by 27 where the entry is elsewhere."""
    top = 2**64 - 4096
    case('24-end-below', two(load(RODATA, 0, top - 4096, 1, 4095)), 30)
    case('24-end-at', two(load(RODATA, 0, top - 4096, 1, 4096)), 30)
    case('24-end-above', two(load(RODATA, 0, top - 4096, 1, 4097)), 24)
    case('24-one-byte-at', two(load(RODATA, 4095, top - 1, 0, 1), size=4096), 30)
    case('24-one-byte-above', two(load(RODATA, 0, top, 0, 1)), 24)
    case('24-last-byte', two(load(RODATA, 4095, 2**64 - 1, 0, 1), size=4096), 24)
    case('24-end-2^64', two(load(RODATA, 0, top, 0, 4096)), 24)
    case('24-end-2^64+1', two(load(RODATA, 0, top, 0, 4097)), 24)
    case('24-wraps-to-100000', two(load(RODATA, 0, top, 0, 104096)), 24)
    case('24-memory-2^64-1', two(load(RODATA, 0, 69632, 0, 2**64 - 1)), 24)
    case('24-memory-at', two(load(RODATA, 0, 69632, 0, top - 69632)), 30)
    case('24-memory-above', two(load(RODATA, 0, 69632, 0, top - 69632 + 1)), 24)
    text = load(TEXT, 0, top - 4096, 180, 4096)
    case('24-text-at-entry-in-it', build([text], size=184, entry=top - 4096 + 176), 30)
    case('24-text-at-entry-elsewhere', build([text], size=184), 27)
    passing = load(RODATA, 0, top - 4096, 1, 4096)
    case('24-second-above-after-passing', build(ONE + [passing, load(RODATA, 0, top, 1, 1)], size=300), 24)
    case('24-passing-and-25', two(load(7, 0, top - 4096, 1, 4096)), 25)


def flags():
    """Check 25: the eight values of the low three bits, in the second header and with other bits set."""
    text, rodata = 'text 65536 69632', 'rodata 69632 73728'
    second = {5: lines(65712, text, 'text 69632 73728', '73728 73728', 6), 4: lines(65712, text, rodata, '73728 73728', 6),
              6: lines(65712, text, 'data 69632 73728', '69828 73728', 6)}
    for value in range(8):
        case(f'25-flags-{value}', two(load(value, 180, 69812, 16, 16)), second.get(value, 25))
    for high in 8, 2**31, 2**32 - 8:
        for value in range(8):
            case(f'25-flags-{high + value}', two(load(high + value, 180, 69812, 16, 16)), second.get(value, 25))
    for value in 16 + 5, 0x05000000, 0x00000500, 0x00050000, 0x00100004:
        case(f'25-flags-{value}', two(load(value, 180, 69812, 16, 16)), second.get(value & 7, 25))
    for value in range(8):
        first = load(value, 0, 65536, 180, 180)
        case(f'25-first-header-flags-{value}', build([first], size=184), {5: ONE_LISTING, 4: 27, 6: 27}.get(value, 25))


def unordered():
    """Check 26. The text before ends inside its page, at its page's end or just past it."""
    ends = {'inside': 180, 'at': 4096, 'past': 4097}

    def after(memory, address):
        offset = address % 4096
        return build([load(TEXT, 0, 65536, 180, memory), load(RODATA, offset, address, 0, 16)], size=max(240, offset))

    page2 = lines(65712, 'text 65536 69632', 'rodata 69632 73728', '73728 73728', 6)
    page3 = lines(65712, 'text 65536 73728', 'rodata 73728 77824', '77824 77824', 7)
    gap = lines(65712, 'text 65536 69632', 'rodata 73728 77824', '77824 77824', 6)
    last = lines(65712, 'text 65536 69632', 'rodata 69632 77824', '77824 77824', 7)
    for name, memory in ends.items():
        case(f'26-end-{name}-next-69631', after(memory, 69631), 26)
        case(f'26-end-{name}-next-69632', after(memory, 69632), 26 if name == 'past' else page2)
        case(f'26-end-{name}-next-69633', after(memory, 69633), 26 if name == 'past' else page2)
        case(f'26-end-{name}-next-73727', after(memory, 73727), 26 if name == 'past' else last)
        case(f'26-end-{name}-next-73728', after(memory, 73728), page3 if name == 'past' else gap)
    case('26-same-page', two(load(DATA, 180, 65716, 4, 16)), 26)
    case('26-same-range', two(load(TEXT, 0, 65536, 180, 180)), 26)
    case('26-descending', build([load(RODATA, 0, 69632, 180, 180)] + ONE, size=240), 26)
    page = {address: load(RODATA, 0, address, 16, 16) for address in (65536, 69632, 73728, 77824)}
    case('26-file-size-is-not-the-end', build([load(TEXT, 0, 65536, 180, 8192), page[69632]], size=240), 26)
    case('26-third-below-second', build(ONE + [page[73728], page[69632]], size=240), 26)
    case('26-third-at-second', build(ONE + [page[73728], page[73728]], size=240), 26)
    case('26-third-after-second', build(ONE + [page[73728], page[77824]], size=240),
         lines(65712, 'text 65536 69632', 'rodata 73728 77824', 'rodata 77824 81920', '81920 81920', 7))
    high = [load(RODATA, 0, 2**40, 0, 0), load(RODATA, 0, 2**40, 16, 16, type=7)]
    case('26-skipped-between', build(ONE + high + [page[69632]], size=300), page2)
    case('26-empty-below', two(load(RODATA, 0, 0, 0, 0)), ONE_LISTING)
    # The end before lies just below 2^64, where nothing can follow.
    case('26-after-2^64-4096', build([load(TEXT, 0, 2**64 - 8192, 180, 4096), page[65536]], size=240), 26)


def entry():
    """Check 27. The text's file bytes are 65,536 up to 65,716, its memory 65,536 up to 66,036."""
    def at(entry, file=180, memory=500, address=65536, offset=0, flags=TEXT):
        return build([load(flags, offset, address, file, memory)], size=240, entry=entry)

    def listed(entry):
        return lines(entry, 'text 65536 69632', '69632 69632', 5)

    case('27-entry-0', at(0), 27)
    case('27-entry-before-first', at(65532), 27)
    case('27-entry-first', at(65536), listed(65536))
    case('27-entry-second', at(65540), listed(65540))
    case('27-entry-last', at(65712), listed(65712))
    case('27-entry-past', at(65716), 27)
    case('27-entry-in-memory', at(66000), 27)
    case('27-entry-past-memory', at(66036), 27)
    case('27-entry-2^64-4', at(2**64 - 4), 27)
    case('27-entry-2^32-more', at(65536 + 2**32), 27)
    for file in 175, 176, 177, 178, 179:
        case(f'27-entry-65712-file-{file}', at(65712, file=file), 27 if file <= 176 else listed(65712))
    for address in 65709, 65711, 65712, 65713, 65715:
        case(f'27-entry-65712-text-at-{address}', at(65712, address=address, offset=address - 65536, file=16),
             listed(65712) if address <= 65712 else 27)
    case('27-text-file-0', at(65536, file=0), 27)
    case('27-text-file-1', at(65536, file=1), listed(65536))
    after_rodata = [load(RODATA, 0, 65536, 180, 180), load(TEXT, 0, 69632, 180, 180)]
    case('27-entry-in-rodata', build(after_rodata, size=240), 27)
    case('27-entry-in-text-after-rodata', build(after_rodata, size=240, entry=69632),
         lines(69632, 'rodata 65536 69632', 'text 69632 73728', '73728 73728', 6))
    case('27-entry-in-data', build(THREE, size=352, entry=74048), 27)
    case('27-entry-in-rodata-of-three', build(THREE, size=352, entry=69888), 27)
    case('27-no-text', build([load(RODATA, 0, 65536, 180, 180)], size=184), 27)
    twice = [load(TEXT, 0, 65536, 180, 4096), load(TEXT, 0, 69632, 176, 180)]

    def second(entry):
        return lines(entry, 'text 65536 69632', 'text 69632 73728', '73728 73728', 6)

    for value in 65536, 65712, 69632, 69804:
        case(f'27-two-texts-entry-{value}', build(twice, size=240, entry=value), second(value))
    for value in 65532, 65716, 69628, 69808:
        case(f'27-two-texts-entry-{value}', build(twice, size=240, entry=value), 27)
    # Headers that are skipped have no file bytes for an entry to lie in.
    case('27-entry-in-empty-header', build(ONE + [load(TEXT, 0, 69632, 180, 0)], size=240, entry=69632), 27)
    case('27-entry-in-other-type', build(ONE + [load(TEXT, 0, 69632, 180, 180, type=2)], size=240, entry=69632), 27)
    case('27-empty-header-alone', build([load(TEXT, 0, 65536, 180, 0)], size=240), 27)


def skipped():
    """Headers of other types, or with memory size 0, in any place, with everything else in them wrong."""
    def wrong(**other):
        return load(**{**dict(flags=7, offset=2**64 - 1, address=3, file=2**64 - 1, memory=2**64 - 1, align=3), **other})

    others = [0, 2, 3, 4, 6, 7, 257, 65537, 2**24 + 1, 2**31 + 1, 0x6474e551, 2**32 - 1]
    for kind in others:
        case(f'skip-type-{kind}', build([wrong(type=kind)] + THREE, size=352), THREE_LISTING)
    empty, other = wrong(memory=0), wrong(type=0x6474e552)
    for place in range(4):
        case(f'skip-empty-at-{place}', build(THREE[:place] + [empty] + THREE[place:], size=352), THREE_LISTING)
        case(f'skip-type-at-{place}', build(THREE[:place] + [other] + THREE[place:], size=352), THREE_LISTING)
    mixed = [empty, THREE[0], wrong(type=4), empty, THREE[1], wrong(type=0), THREE[2], empty]
    case('skip-both-everywhere', build(mixed), THREE_LISTING)
    case('skip-empty-after-data', build(THREE + [load(TEXT, 0, 2**40, 0, 0)], size=352), THREE_LISTING)
    case('skip-type-after-data', build(THREE + [load(TEXT, 0, 2**40, 16, 16, type=4)], size=352), THREE_LISTING)
    case('skip-only-empty', build([empty, empty], size=240), 27)
    case('skip-memory-1-is-not-empty', build(THREE + [wrong(memory=1)], size=352), 21)
    case('skip-memory-2^32-is-not-empty', build(THREE + [load(7, 0, 90112, 0, 2**32)], size=352), 25)
    case('skip-file-1-memory-0', build(THREE + [load(TEXT, 0, 90112, 1, 0)], size=352), THREE_LISTING)
