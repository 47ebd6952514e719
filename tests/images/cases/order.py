"""An image that breaks several checks."""
from .built import ONE, RODATA, TEXT, THREE, build, case, load, two


def order():
    """An image that breaks several checks is refused by the first of them, 28 being between 23 and 24; headers are judged in table
    order."""
    fields = [(12, 'magic', b'\x7fELG'), (13, 'wide', 1), (14, 'order', 2), (15, 'ident', 0), (16, 'type', 3),
              (17, 'machine', 62), (18, 'entsize', 32), (19, 'entry', 65537), (20, 'table', 2**63)]
    for i, (number, name, value) in enumerate(fields):
        case(f'order-{number}-alone', build(THREE, size=352, **{name: value}), number)
        later = {name: value for _, name, value in fields[i:]}
        case(f'order-{number}-and-all-later', build(THREE, size=352, **later), number)
    case('order-15-word-before-16', build(THREE, size=352, version=2, type=3), 15)
    case('order-11-and-all-later', bytes(range(63)), 11)
    # The second header breaks all of 21 to 26 and 28; then its fields are put right one after another.
    for align, name in (3, ''), (131072, '-align-131072'):
        wrong = dict(flags=7, offset=100, address=65637, file=2**64 - 1, memory=2**64 - 2, align=align)
        for number, right in ((21, {}), (22, dict(file=2**64 - 2)), (23, dict(file=140)), (28, dict(address=65636)),
                              (24, dict(align=65536)), (25, dict(memory=140)), (26, dict(flags=RODATA))):
            wrong.update(right)
            case(f'order-{number}-and-all-later{name}', two(load(**wrong), entry=0), number)
    wrong.update(address=61440 + 100, align=4096)
    case('order-26-and-30', two(load(**wrong)), 26)
    # 28 and one later check.
    for align in 3, 65536:
        def rodata(flags=RODATA, address=69732, memory=140):
            return load(flags, 100, address, 140, memory, align=align)

        case(f'order-28-and-24-align-{align}', two(rodata(memory=2**64 - 4096)), 28)
        case(f'order-28-and-25-align-{align}', two(rodata(flags=7)), 28)
        case(f'order-28-and-26-align-{align}', build([load(TEXT, 0, 65536, 180, 8192), rodata()], size=240), 28)
        case(f'order-28-and-27-align-{align}', two(rodata(), entry=0), 28)
        case(f'order-28-and-30-align-{align}', build([rodata(address=61440 + 100)] + ONE, size=240), 28)
    pages = [load(TEXT, 0, 65536 + 4096 * i, 960, 960) for i in range(16)]
    case('order-28-and-31', build(pages[:15] + [load(TEXT, 0, 65536 + 4096 * 15, 960, 960, align=3)]), 28)
    case('order-22-and-28', two(load(RODATA, 100, 69732, 141, 141, align=3)), 22)
    case('order-20-and-28', build([load(TEXT, 0, 65536, 120, 120, align=3)], count=2), 20)
    # Header by header: the first to break a check decides, whatever its number.
    first = dict(offset=0, address=65536, file=180, memory=180)
    over = load(TEXT, 0, 69632, 2, 1)
    out = load(TEXT, 4096, 69632, 1, 1)
    for number, header in ((22, load(TEXT, 4096, 65536, 1, 1)), (23, load(TEXT, 1, 65536, 1, 1)),
                           (24, load(TEXT, 0, 2**64 - 4096, 1, 1)), (25, load(7, **first))):
        case(f'order-first-header-{number}-second-21', build([header, over], size=240), number)
        case(f'order-first-header-{number}-second-28', build([header, load(TEXT, 0, 69632, 1, 1, align=3)], size=240), number)
    for align in 3, 131072:
        unaligned = load(TEXT, **first, align=align)
        for number, header in ((21, over), (22, out), (23, load(TEXT, 1, 69632, 1, 1)), (24, load(TEXT, 0, 2**64 - 4096, 1, 1)),
                               (25, load(7, 0, 69632, 1, 1)), (26, load(RODATA, 0, 65536, 1, 1))):
            case(f'order-first-header-28-align-{align}-second-{number}', build([unaligned, header], size=240), 28)
    below, unaligned = load(RODATA, 0, 65536, 1, 1), load(TEXT, 0, 69632, 1, 1, align=3)
    case('order-second-header-26-third-28', build(ONE + [below, unaligned], size=300), 26)
    case('order-second-header-28-third-26', build(ONE + [unaligned, below], size=300), 28)
    case('order-second-header-26-third-21', build(ONE + [load(RODATA, 0, 65536, 1, 1), over], size=300), 26)
    case('order-second-header-21-third-22', build(ONE + [over, out], size=300), 21)
    case('order-second-header-22-third-21', build(ONE + [out, over], size=300), 22)
    case('order-third-header-25-and-27', build(THREE[:2] + [load(7, 320, 74048, 32, 32)], size=352, entry=0), 25)
    low = load(TEXT, 0, 4096, 180, 180)
    case('order-27-and-30', build([low], size=184, entry=0), 27)
    case('order-30-low', build([low], size=184, entry=4096 + 176), 30)
    sixteen = [load(TEXT, 0, 65536 + 4096 * i, 960, 960) for i in range(16)]
    case('order-27-and-31', build(sixteen, entry=0), 27)
    case('order-30-and-31', build([load(TEXT, 0, 4096, 960, 960)] + sixteen, size=1024), 30)
    case('order-26-and-31', build(sixteen + [load(TEXT, 0, 65536, 960, 960)], size=1024), 26)
