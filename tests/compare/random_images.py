"""Random images, and damaged ones, from a generator of random numbers, linked for a set of the machine's numbers and a permission
table; ELF, and Plan 9 a.outs."""
import aout
from elf import change, example, field, header, program
from rules.flags import BUILT_IN, REFUSED
from rules.machine import DATA, MAX, PAGE, RODATA, TEXT, up
from rules.setup import DEPOSIT

FLAGS = {TEXT: 5, RODATA: 4, DATA: 6}


def example_at(base):
    return example(b'\x1f\x20\x03\xd5', b'data', base)


EXAMPLE = example_at(DEPOSIT.utzero)


def random_row(r, table, perm):
    """Low flag bits for a permission: under another table than the built-in one mostly a row that has it, else one not refused."""
    if table == BUILT_IN:
        return FLAGS[perm]
    if r.random() < 0.03:
        return r.randrange(8)
    fit = [row for row in range(8) if table[row] == perm] or [row for row in range(8) if table[row] != REFUSED]
    return r.choice(fit or range(8))


def random_align(r, vaddr, offset):
    """An alignment, mostly one that asks for nothing or that address and offset agree modulo."""
    way = r.random()
    if way < 0.5:
        return PAGE
    agreed = 63                                       # of powers of two the largest that they agree modulo
    while (vaddr - offset) % 2**agreed:
        agreed -= 1
    power = r.choice([1, 12, agreed, agreed, r.randint(1, agreed)])
    if way < 0.985:
        return r.choice([0, 1, 2**power, 2**power, 2**power])
    return r.choice([2**agreed * 2 % 2**64, 2**r.randint(agreed, 63), 2**power + 1, 2**power - 1, 3 * 2**power % 2**64,
                     2**r.randrange(64), r.getrandbits(20), r.getrandbits(64), MAX])


def random_image(r, size='plain', setup=DEPOSIT):
    """An ELF image of 1 to 16 headers, mostly one that loads; `small` ones have up to 3, `big` ones more bytes."""
    count = r.choice([1, 1, 2, 2, 2, 3, 3, 4, 5, 6, 8, 12, 15, 16])
    if size == 'small':
        count = r.choice([1, 1, 1, 2, 2, 3])
    dense = count > 8 and r.random() < 0.5            # every header a segment of a page
    body = bytes(r.randrange(256) for _ in range(r.randint(4, 12 if size == 'small' else 48)))
    if size == 'big':
        body += r.randbytes(r.randrange(9000))
    table = 64 if r.random() < 0.8 else 64 + len(body)
    total = 64 + 56 * count + len(body)
    page = setup.utzero // PAGE + r.choice([0, 0, 0, 1, 5])
    data = count - 1 if r.random() < 0.7 else 0       # which header is the data, if any
    table_bytes, texts = b'', []
    for i in range(count):
        odd = r.random()
        if count > 1 and not dense and odd < 0.08:
            fields = [r.getrandbits(64) for _ in range(4)]
            table_bytes += program(r.getrandbits(32), *fields, type=r.choice([0, 2, 6, 7]), align=r.getrandbits(64))
            continue
        if count > 1 and not dense and odd < 0.16:
            fields = [r.getrandbits(64) for _ in range(3)]
            table_bytes += program(r.getrandbits(32), *fields, 0, align=r.getrandbits(64))
            continue
        perm = DATA if i == data and i > 0 else r.choice([TEXT, TEXT, RODATA]) if texts else TEXT
        offset = r.choice([0, r.randint(0, total), total - total % 4, total])
        filesz = r.choice([0, total - offset, total - offset, r.randint(0, total - offset)])
        if not texts and perm == TEXT:
            offset, filesz = 0, r.randint(min(8, total), total)
        vaddr = page * PAGE + offset % PAGE
        fill = up(vaddr + filesz) - vaddr - filesz    # up to the end of its page
        more = r.choice([0, 0, 1, fill, fill, fill + 1, r.randrange(3 * PAGE)])
        memsz = max(filesz + (0 if dense else more), 1)
        if i == count - 1 and r.random() < 0.04:      # at the very top
            vaddr = setup.limit - PAGE + offset % PAGE
            memsz = setup.limit - vaddr + r.choice([0, 0, 1])
            filesz = min(filesz, memsz)
        if r.random() < 0.02:
            memsz += r.choice([PAGE * 1024, 2**40, 2**63])
        flags = random_row(r, setup.flags, perm) + 8 * r.choice([0, 0, 0, 1, r.getrandbits(29)])
        table_bytes += program(flags, offset, vaddr, filesz, memsz, align=random_align(r, vaddr, offset))
        if perm == TEXT:
            texts.append((vaddr, filesz))
        page = up(vaddr + memsz) // PAGE + r.choice([0, 0, 0, 1])
    places = [a for v, n in texts for a in (up4(v), (v + n - 1) // 4 * 4) if v <= a < v + n]
    entry = r.choice(places) if places else setup.utzero
    head = header(entry, count, table)
    return head + table_bytes + body if table == 64 else head + body + table_bytes


def up4(a):
    return (a + 3) // 4 * 4


# Places and sizes of fields of the file header and of a program header.
HEADER_FIELDS = [(4, 1), (5, 1), (6, 1), (16, 2), (18, 2), (20, 4), (24, 8), (32, 8), (54, 2), (56, 2)]
PROGRAM_FIELDS = [(0, 4), (4, 4), (8, 8), (16, 8), (32, 8), (32, 8), (40, 8), (40, 8), (48, 8)]


def damaged(r, image, setup):
    """The image with something wrong in it, or nothing."""
    for _ in range(r.choice([1, 1, 1, 2])):
        n = len(image)
        count = min(field(image, 56, 2), 16) if n >= 64 else 0
        way = r.random()
        if n == 0 or way < 0.1:
            image = image[:r.choice([0, 63, 64, r.randint(0, n), n - 1])]
        elif way < 0.35:
            image = change(image, r.randrange(n), 1, r.getrandbits(8))
        elif way < 0.5 and n >= 64:
            at, size = r.choice(HEADER_FIELDS)
            image = change(image, at, size, near(r, image, field(image, at, size), setup))
        elif count:
            at, size = r.choice(PROGRAM_FIELDS)
            at += field(image, 32, 8) + 56 * r.randrange(count)
            if at + size <= n:
                image = change(image, at, size, near(r, image, field(image, at, size), setup))
    return image


def near(r, image, old, setup):
    """A value for a field: near the old one or at a boundary."""
    return r.choice([old + 1, old - 1, old + 4, old + PAGE, old - PAGE, old ^ 1 << r.randrange(64), 0, 1, len(image),
                     len(image) + 1, setup.utzero, setup.utzero - 1, setup.limit, setup.limit + 1, 2**64 - PAGE,
                     2**64 - PAGE + 1, MAX, r.getrandbits(3), 2**r.randrange(64), r.getrandbits(64)])


def any_image(r, size='plain', setup=DEPOSIT):
    way = r.random()
    if way < 0.3:
        return example_at(setup.utzero)
    if way < 0.65:
        return random_image(r, size, setup)
    return damaged(r, r.choice([example_at(setup.utzero), random_image(r, size, setup)]), setup)


def random_aout(r, size='plain', setup=DEPOSIT):
    """The magic and the bytes of an a.out, mostly one that loads where an entry of 32 bits can be in its text."""
    few = 12 if size == 'small' else 48
    text = r.randbytes(r.choice([4, 8, r.randint(1, few)]))
    data = r.randbytes(r.choice([0, 0, 4, r.randint(0, few)]))
    if size == 'big':
        text += r.randbytes(r.choice([0, PAGE - 32 - len(text) + r.randint(-1, 1), r.randrange(9000)]))
        data += r.randbytes(r.choice([0, PAGE - len(data) + r.randint(-1, 1), r.randrange(9000)]))
    fill = -len(data) % PAGE                          # up to the end of its page
    bss = r.choice([0, 0, 1, fill, fill + 1, r.randrange(3 * PAGE)])
    if r.random() < 0.06:                             # at the very top
        bss = setup.limit - up(setup.utzero + 32 + len(text)) - len(data) + r.choice([-1, 0, 0, 1])
    if r.random() < 0.02:
        bss = r.choice([2**31, 2**32 - 1, 2**32 - len(data), r.getrandbits(32)])
    after = r.randbytes(r.choice([0, 0, r.randint(1, 12)]))
    unread = {name: r.choice([0, len(after), r.getrandbits(32)]) for name in ('syms', 'spsz', 'pcsz')}
    entry = setup.utzero + 32 + 4 * r.randrange((len(text) + 3) // 4)
    magic = r.choice([aout.MAGIC] * 3 + [aout.MAGIC + aout.HEADER_BIT, r.getrandbits(32)])
    return magic, aout.build(text, data, bss, after, setup.utzero, magic=magic, entry=entry, **unread)


def damaged_aout(r, image, setup):
    """The a.out with something wrong in it, or nothing."""
    n, way = len(image), r.random()
    if way < 0.25:
        return image[:r.choice([0, 31, 32, r.randint(0, n), n - 1])]
    if way < 0.4:
        return change(image, r.randrange(n), 1, r.getrandbits(8))
    name = r.choice(['magic', 'text', 'text', 'data', 'data', 'bss', 'entry', 'entry', 'entry'])
    old = aout.word(image, name)
    return aout.change(image, **{name: r.choice([
        old + 1, old - 1, old + 4, old - 4, old + PAGE, old ^ 1 << r.randrange(32), 0, n, n - 32, 2**31, 2**32 - 1, 2**32 - 32,
        2**32 - old, setup.utzero, setup.utzero + 28, setup.utzero + 32, setup.utzero + 32 + aout.word(image, 'text'),
        r.getrandbits(32)])})


def any_aout(r, size='plain', setup=DEPOSIT):
    """The magic that is expected, mostly its own, and an a.out, damaged or not, or an ELF image."""
    way = r.random()
    magic, image = (aout.MAGIC, aout.example_at(setup.utzero)) if way < 0.2 else random_aout(r, size, setup)
    if way > 0.97:
        image = example_at(setup.utzero)
    elif way > 0.7:
        image = damaged_aout(r, image, setup)
    if r.random() < 0.05:
        magic = r.choice([magic ^ aout.HEADER_BIT, magic ^ 1 << r.randrange(32), r.getrandbits(32)])
    return magic, image
