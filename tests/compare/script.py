"""Scripts of calls, as docs/REPLAY.md describes them, and the model's answers to them."""
import zlib

from rules.calls import World
from rules.flags import read_table
from rules.machine import KINDS, MAX, PAGE, Ended, Refused, down, up
from rules.names import kstrcpy
from rules.segments import rule
from rules.setup import Setup, read

BLANK = 238
LINE_MAX = BUFFER_MAX = 65536
FILE_MAX = 2097152
FRAMES_MAX = 1025
MAGIC_MAX = 2**32 - 1
AOUT = b'aout='


class BadLine(Exception):
    """A line that is no call, and its answer."""

    def __init__(self, answer='bad line'):
        super().__init__(answer)


def too_large(most):
    return BadLine('too large: at most %d bytes' % most)


def number(word):
    """A decimal number up to 2^64 - 1."""
    if not word or any(c not in b'0123456789' for c in word):
        raise BadLine
    word = word.lstrip(b'0') or b'0'
    if len(word) > 20 or int(word) > MAX:
        raise BadLine
    return int(word)


def bytes_of(word):
    """BYTES: hex digits, `-`, a quote and the bytes themselves, or `@FILE`."""
    if word == b'-':
        return b''
    if word[:1] == b"'":
        return word[1:]
    if word[:1] == b'@':
        try:
            with open(word[1:], 'rb') as f:
                b = f.read(FILE_MAX + 1)
        except (OSError, ValueError):
            raise BadLine('no such file')
        if len(b) > FILE_MAX:
            raise too_large(FILE_MAX)
        return b
    if not word or len(word) % 2 or any(c not in b'0123456789abcdefABCDEF' for c in word):
        raise BadLine
    return bytes.fromhex(word.decode())


def shown(b):
    """Bytes as BYTES."""
    return b.hex() or '-'


def at_most(most, word):
    n = number(word)
    if n > most:
        raise BadLine
    return n


def buffer_length(word):
    return at_most(BUFFER_MAX, word)


def byte(word):
    return at_most(255, word)


def formed(words):
    """The words of start and replace, with None for the form, before the image, where it isn't said."""
    return words if words[2:] and words[2].startswith(AOUT) else words[:2] + [None] + words[2:]


def form(word):
    """The magic of an a.out, or None for ELF."""
    return None if word is None else at_most(MAGIC_MAX, word[len(AOUT):])


def take(words, *kinds):
    """The words by their kinds; the last kind may be a list, for any further ones."""
    rest = kinds[-1] if kinds and isinstance(kinds[-1], list) else None
    fixed = kinds[:-1] if rest else kinds
    if len(words) < len(fixed) or not rest and len(words) > len(fixed):
        raise BadLine
    out = [kind(w) for kind, w in zip(fixed, words)]
    if rest:
        out.append([rest[0](w) for w in words[len(fixed):]])
    return out


def sums(world):
    """Sums of all records, book words and frame bytes."""
    def words(ws):
        return b''.join(w.to_bytes(8, 'little') for w in ws)
    records = b''
    for r in world.records[1:]:
        if r is None:
            records += bytes(16 * 24 + 28 + 16)
        else:
            segments = r.segments + [(0, 0, 0)] * (16 - len(r.segments))
            records += b''.join(words(s) for s in segments) + r.name + words(r.bss)
    return 'records=%08x book=%08x frames=%08x' % tuple(
        zlib.crc32(b) for b in (records, words(world.book), world.frames))


def on_frame(world, i):
    """A frame and its holders."""
    return '%d holders %s' % (i, ' '.join(map(str, world.holders(i))))


def held(world, n):
    """What a process holds, for a person."""
    world.living(n)
    r = world.records[n]
    name = ''.join(chr(b) if 33 <= b <= 126 else '.' for b in r.name.rstrip(b'\0'))
    lines = [('process %d %s' % (n, name)).rstrip()]
    for kind, (start, end) in [(KINDS[p], (s, e)) for s, e, p in r.segments] + [('bss', r.bss)]:
        lines.append('  %s %d %d size %d' % (kind, start, end, end - start))
        for page in range(up(start), end, PAGE):
            words = [world.book[world.at_place(i, n)] for i in range(world.n)]
            frames = [i for i, w in enumerate(words) if down(w) == page and w % PAGE // 16 == n]
            lines.append('    page %d frame ' % page + (on_frame(world, frames[0]) if frames else 'none'))
    lines.append('  pages %d' % r.count())
    return '\n'.join(lines)


class Script:
    """A world and the lines about it."""

    def __init__(self):
        self.w = World()

    def answer(self, line):
        """The answer to a line without its line feed, or None."""
        if not line or line[:1] == b'#':
            return None
        try:
            if len(line) > LINE_MAX:
                raise too_large(LINE_MAX)
            name, *words = line.split(b' ')
            call = self.CALLS.get(name)
            if call is None:
                raise BadLine
            return call(self, words)
        except BadLine as b:
            return b.args[0]
        except Refused as r:
            return 'refused %d' % r.args
        except Ended as e:
            # The one that ends is the process whose call it is.
            self.w.finish(int(words[0]))
            return ' '.join(map(str, ('ended', *e.args)))

    def frames(self, words):
        n, fill = take(words, number, [byte])
        if n > FRAMES_MAX or len(fill) > 1:
            raise BadLine
        self.w = World(n, *fill)
        return 'ok'

    def numbers(self, words):
        setup = Setup(*map(number, words)) if len(words) == 4 else read(*take(words, bytes_of))
        self.w.setup = setup._replace(flags=self.w.setup.flags)
        return 'ok'

    def flags(self, words):
        table = tuple(map(byte, words)) if len(words) == 8 else read_table(*take(words, bytes_of))
        self.w.setup = self.w.setup._replace(flags=table)
        return 'ok'

    def lend(self, words):
        size, count = take(words, number, number)
        if size > PAGE * self.w.n or count > len(self.w.book):
            raise BadLine
        self.w.bytes, self.w.words = size, count
        return 'ok'

    def word(self, words):
        i, word = take(words, number, number)
        if i >= len(self.w.book):
            raise BadLine
        self.w.book[i] = word
        return 'ok'

    def regs(self, r):
        return 'ok pc=%d sp=%d argc=%d argv=%d' % r

    def start(self, words):
        n, name, magic, image, args = take(formed(words), number, bytes_of, form, bytes, [bytes_of])
        image = bytes_of(image)  # comes last
        return self.regs(self.w.start(n, name, magic, image, args))

    def replace(self, words):
        return self.regs(self.w.replace(*take(formed(words), number, bytes_of, form, bytes_of, number)))

    def push(self, words):
        return self.regs(self.w.push(*take(words, number, number, number, [bytes_of])))

    def brk(self, words):
        return 'ok %d' % self.w.brk(*take(words, number, number))

    def fork(self, words):
        parent, child, rest = take(words, number, number, [number])
        if len(rest) % 3:
            raise BadLine
        lent = list(zip(rest[::3], rest[1::3], rest[2::3]))
        self.w.fork(parent, child, lent or None)
        return 'ok'

    def end(self, words):
        self.w.end(*take(words, number))
        return 'ok'

    def range(self, words):
        n, address, length, access = take(words, number, number, number, bytes)
        if access not in (b'r', b'w'):
            raise BadLine
        bad = self.w.range(n, address, length, access == b'w')
        return 'ok yes' if bad is None else 'ok no %d' % bad

    def copy_from(self, words):
        return 'ok ' + shown(self.w.copy_from(*take(words, number, number, buffer_length)))

    def copy_to(self, words):
        self.w.copy_to(*take(words, number, number, bytes_of))
        return 'ok'

    def string(self, words):
        n, address, length = take(words, number, number, buffer_length)
        buffer = bytearray([BLANK]) * length
        k, bad = self.w.string(n, address, buffer)
        return ('ok %d ' % k if bad is None else 'refused 35 %d ' % bad) + shown(buffer)

    def rule(self, words):
        if words[:2] == [b'none', b'none']:
            bss, rest = None, words[2:]
        else:
            bss, rest = tuple(take(words[:2], number, number)), words[2:]
        value, new = rule(self.w.setup, bss, *take(rest, number, number))
        return 'ok %d %d %d' % (value, *new)

    def name(self, words):
        return 'ok ' + shown(kstrcpy(*take(words, bytes_of)))

    def sum(self, words):
        take(words)
        return sums(self.w)

    def map(self, words):
        return held(self.w, *take(words, number))

    CALLS = {b'frames': frames, b'numbers': numbers, b'flags': flags, b'lend': lend, b'word': word, b'start': start,
             b'replace': replace, b'push': push, b'break': brk, b'fork': fork, b'end': end, b'range': range, b'from': copy_from,
             b'to': copy_to, b'string': string, b'rule': rule, b'name': name, b'sum': sum, b'map': map}
