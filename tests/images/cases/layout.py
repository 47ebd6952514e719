"""Numbers 30 and 31, and the bss."""
from rules.setup import DEPOSIT

from .built import DATA, ONE, ONE_LISTING, RODATA, TEXT, THREE, build, case, lines, load, two

LIMIT = DEPOSIT.limit


def lowest_and_limit():
    """Number 30: below UTZERO, above the limit, and what follows data."""
    def first(address, memory):
        # A segment of no file bytes before the text, which starts at 69,632.
        return build([load(RODATA, address % 4096, address, 0, memory), load(TEXT, 0, 69632, 180, 180)],
                     size=max(240, address % 4096), entry=69808)

    both = lines(69808, 'rodata 65536 69632', 'text 69632 73728', '73728 73728', 6)
    for address, memory in (0, 16), (4, 16), (61440, 16), (61440, 4096), (61440, 4097), (65535, 1), (65535, 2):
        case(f'30-starts-{address}-memory-{memory}', first(address, memory), 30)
    for address, memory in (65536, 1), (65536, 4096), (65537, 1), (69631, 1):
        case(f'30-starts-{address}-memory-{memory}', first(address, memory), both)
    case('30-text-at-65532', build([load(TEXT, 4092, 65532, 100, 100)], size=4200, entry=65532), 30)
    case('30-text-at-65536-offset-4096', build([load(TEXT, 4096, 65536, 100, 100)], size=4200, entry=65536),
         lines(65536, 'text 65536 69632', '69632 69632', 5))
    case('30-text-at-61440', build([load(TEXT, 0, 61440, 180, 180)], size=240, entry=61440), 30)
    top = LIMIT - 4096
    text = lines(140737488330928, 'text 140737488330752 140737488334848', '140737488334848 140737488334848', 5)
    data = lines(65712, 'text 65536 69632', 'data 140737488330752 140737488334848', '140737488330768 140737488334848', 6)
    for name, memory in ('below', 4095), ('at', 4096), ('above', 4097):
        case(f'30-text-ends-{name}-limit', build([load(TEXT, 0, top, 180, memory)], size=240, entry=top + 176),
             30 if name == 'above' else text)
        case(f'30-data-ends-{name}-limit', two(load(DATA, 0, top, 16, memory)), 30 if name == 'above' else data)
    case('30-starts-at-limit', two(load(RODATA, 0, LIMIT, 16, 16)), 30)
    case('30-starts-in-the-stack', two(load(RODATA, 0, LIMIT + 4096, 16, 16)), 30)
    case('30-starts-at-2^47', two(load(RODATA, 0, 2**47, 16, 16)), 30)
    whole = LIMIT - 65536
    case('30-text-up-to-limit', build([load(TEXT, 0, 65536, 180, whole)], size=240),
         lines(65712, 'text 65536 140737488334848', '140737488334848 140737488334848', 34359738351))
    case('30-text-past-limit', build([load(TEXT, 0, 65536, 180, whole + 1)], size=240), 30)
    case('30-data-up-to-limit', two(load(DATA, 0, 69632, 180, whole - 4096)),
         lines(65712, 'text 65536 69632', 'data 69632 73728', '69812 140737488334848', 34359738351))
    case('30-data-past-limit', two(load(DATA, 0, 69632, 180, whole - 4095)), 30)
    case('30-bss-up-to-limit', two(load(DATA, 0, 69632, 0, whole - 4096)),
         lines(65712, 'text 65536 69632', '69632 140737488334848', 34359738351))
    for name, flags in ('text', TEXT), ('rodata', RODATA), ('data', DATA):
        third = load(flags, 0, 90112, 16, 16)
        case(f'30-{name}-follows-data', build([THREE[0], THREE[2], third], size=352), 30)
        case(f'30-{name}-follows-bss-alone', build([THREE[0], load(DATA, 0, 73728, 0, 16), third], size=352), 30)
    around = [load(DATA, 0, 65536, 16, 16), load(TEXT, 0, 69632, 180, 180), load(DATA, 0, 73728, 16, 16)]
    case('30-data-first', build(around[:2], size=240, entry=69632), 30)
    case('30-data-first-and-last', build(around, size=240, entry=69632), 30)


def bss():
    """Where the data's pages end and the bss starts. The data's address is 69,632 + 180."""
    def data(file, memory, address=69632 + 180, offset=180):
        return two(load(DATA, offset, address, file, memory), size=max(240, offset + file))

    text, one, both = 'text 65536 69632', 'data 69632 73728', 'data 69632 77824'
    for file, memory, *expected in (
            (0, 1, one, '69812 73728', 6), (1, 1, one, '69813 73728', 6), (1, 2, one, '69813 73728', 6),
            (3915, 3915, one, '73727 73728', 6), (3915, 3916, one, '73727 73728', 6), (3915, 3917, one, '73727 77824', 7),
            (3916, 3916, one, '73728 73728', 6), (3916, 3917, one, '73728 77824', 7), (3916, 8012, one, '73728 77824', 7),
            (3916, 8013, one, '73728 81920', 8), (3917, 3917, both, '73729 77824', 7), (3917, 8012, both, '73729 77824', 7),
            (3917, 8013, both, '73729 81920', 8), (8012, 8012, both, '77824 77824', 7),
            (16, 2**20, one, '69828 1122304', 262)):
        case(f'bss-file-{file}-memory-{memory}', data(file, memory), lines(65712, text, *expected))
    # No file bytes: the data's page is recorded unless its address starts a page.
    for address, memory, *expected in (
            (69632, 1, '69632 73728', 6), (69632, 4096, '69632 73728', 6), (69632, 4097, '69632 77824', 7),
            (69633, 4095, one, '69633 73728', 6), (69633, 4096, one, '69633 77824', 7), (73727, 1, one, '73727 73728', 6),
            (73727, 2, one, '73727 77824', 7), (73728, 1, '73728 77824', 6), (73728, 100000, '73728 176128', 30)):
        case(f'bss-alone-at-{address}-memory-{memory}', data(0, memory, address, address % 4096),
             lines(65712, text, *expected))
    case('bss-file-1-at-page', data(1, 1, 69632, 0), lines(65712, text, one, '69633 73728', 6))
    # No data: the bss is empty at the page end of the last segment.
    case('bss-none-text-ends-at-page', build([load(TEXT, 0, 65536, 180, 4096)], size=240), ONE_LISTING)
    case('bss-none-text-ends-past-page', build([load(TEXT, 0, 65536, 180, 4097)], size=240),
         lines(65712, 'text 65536 73728', '73728 73728', 6))
    case('bss-none-rodata-of-no-file-bytes', two(load(RODATA, 0, 69632, 0, 5000)),
         lines(65712, text, 'rodata 69632 77824', '77824 77824', 7))
    case('bss-text-file-below-memory', build([load(TEXT, 0, 65536, 180, 20000)], size=240),
         lines(65712, 'text 65536 86016', '86016 86016', 9))


def recorded():
    """Number 31: fifteen recorded ranges pass, sixteen don't, and ranges that are dropped don't count."""
    def many(count, *last):
        return build(ONE + [load(RODATA, 0, 65536 + 4096 * i, 16, 16) for i in range(1, count)] + list(last), size=1200)

    def listed(count, *rest):
        rodata = (f'rodata {65536 + 4096 * i} {69632 + 4096 * i}' for i in range(1, count))
        return lines(65712, 'text 65536 69632', *rodata, *rest)

    case('31-14-recorded', many(14), listed(14, '122880 122880', 18))
    case('31-15-recorded', many(15), listed(15, '126976 126976', 19))
    case('31-16-recorded', many(16), 31)
    case('31-17-recorded', many(17), 31)
    data = load(DATA, 0, 2**20, 16, 5000)
    dropped = load(DATA, 0, 2**20, 0, 5000)
    unaligned = load(DATA, 1, 2**20 + 1, 0, 5000)
    case('31-13-and-data', many(13, data), listed(13, 'data 1048576 1052672', '1048592 1056768', 19))
    case('31-14-and-data', many(14, data), listed(14, 'data 1048576 1052672', '1048592 1056768', 20))
    case('31-15-and-data', many(15, data), 31)
    case('31-14-and-dropped', many(14, dropped), listed(14, '1048576 1056768', 20))
    case('31-15-and-dropped', many(15, dropped), listed(15, '1048576 1056768', 21))
    case('31-16-and-dropped', many(16, dropped), 31)
    case('31-14-and-unaligned', many(14, unaligned), listed(14, 'data 1048576 1052672', '1048577 1056768', 20))
    case('31-15-and-unaligned', many(15, unaligned), 31)
    skip = load(7, 1, 0, 2, 0)
    every = [load(TEXT, 0, 65536 + 4096 * i, 180, 180) for i in range(584)]
    case('31-15-among-skipped', build([skip] + [h for s in every[:15] for h in (s, skip)]),
         lines(65712, *(f'text {65536 + 4096 * i} {69632 + 4096 * i}' for i in range(15)), '126976 126976', 19))
    case('31-584-segments', build(every), 31)
    case('31-584-segments-last-too-high', build(every[:-1] + [load(TEXT, 0, LIMIT, 180, 180)]), 30)
    # 778 bytes, as long as a listing gets: every number has fifteen digits, the pages ten.
    at = 10**14
    wide = [load(TEXT, 0, at, 180, 180)] + [load(RODATA, 0, at + 4096 * i, 16, 16) for i in range(1, 14)]
    wide.append(load(RODATA, 0, at + 4096 * 14, 16, LIMIT - at - 4096 * 14))
    case('31-longest-listing', build(wide, size=1200, entry=at + 176),
         lines(100000000000176, 'text 100000000000000 100000000004096',
               *(f'rodata {10**14 + 4096 * i} {10**14 + 4096 + 4096 * i}' for i in range(1, 14)),
               'rodata 100000000057344 140737488334848', '140737488334848 140737488334848', 9945675867))
