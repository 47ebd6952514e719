"""Random histories of calls, from a generator of random numbers.

A history is a list of script lines. The model runs along while it is made, only to know which processes live, where their
segments lie and what the book holds, so that addresses and words are apt; no answer of the model goes into a history. A history may
be under another set of the machine's numbers and another flag table than the built-in one, and its images Plan 9 a.outs; the oracle has
none of these.
"""
import struct

from rules.flags import REFUSED, table_lines, table_ok
from rules.layout import stack_size
from rules.machine import DATA, MAX, PAGE, Refused, down, up
from rules.memory import WORDS
from rules.names import elem
from rules.setup import DEPOSIT, written
from random_images import any_aout, any_image, example_at, random_aout, random_image
from random_sets import near_set, near_table, random_set, random_table
from script import Script, shown


def constants(setup):
    """Addresses that mean something under a set, each once."""
    utzero, top, _, end = setup.numbers
    limit, low = setup.limit, setup.low
    return list(dict.fromkeys([
        0, 1, 8, 16, PAGE - 1, PAGE, utzero - 1, utzero, limit - PAGE, limit - 1, limit, limit + 1, low - 1, low, top - 8, top - 1,
        top, top + 1, 2**63, MAX - PAGE, MAX - PAGE + 1, MAX - PAGE + 2, MAX - 7, MAX, end - 1, end, end + 1]))


def most_empty(setup):
    """How many empty arguments a start takes at most."""
    count = 0
    while stack_size(count + 1, count + 1) <= setup.arg_limit:
        count += 1
    return count


def full_parts(record):
    return [p for p in record.parts() if p[0] < p[1]]


class History:
    """`small` keeps images, answers and frames short, for recorded samples. The calls are under `setup`, with `tables` some of them
    under other tables too; with `aouts` more than half of the images are a.outs; with `bad` more calls name a bad address."""

    def __init__(self, r, calls, small=False, setup=DEPOSIT, tables=False, aouts=False, bad=False):
        self.r, self.small, self.setup, self.aouts = r, small, setup, aouts
        self.constants = constants(setup)
        own_numbers = setup.numbers != DEPOSIT.numbers
        self.steps = (self.STEPS + [(History.other_numbers, 3)] * own_numbers + [(History.other_flags, 4)] * tables
                      + self.AT_EDGES * bad)
        self.model = Script()
        self.lines = []
        n = r.choice([r.randint(7, 40), r.randint(14, 40), r.randint(20, 60), r.randint(41, 120)])
        if r.random() < 0.06:
            n = r.randint(1, 8)
        if small:
            n = r.choice([r.randint(8, 14), r.randint(15, 24)])
        elif r.random() < 0.02:
            n = r.choice([0, 1024, 1025])
        if n <= 120:
            n = max(n + (setup.ustksize - DEPOSIT.ustksize) // PAGE, 0)
        self.emit('frames %d %d' % (n, r.choice([0, 1, 255, r.randrange(256)])))
        if own_numbers:
            self.numbers(setup)
        if tables:
            self.flags(setup.flags)
        self.sums = 1 if n <= 40 else 0.2
        if small:
            self.sums = 0.25
        self.made = 0
        while self.made < calls:
            self.step()
        self.emit('sum')

    @property
    def w(self):
        return self.model.w

    def emit(self, line):
        """Add a line and run the model on it."""
        if isinstance(line, str):
            line = line.encode()
        assert len(line) <= 65536
        self.lines.append(line)
        return self.model.answer(line)

    def call(self, *words):
        self.made += 1
        answer = self.emit(' '.join(str(w) for w in words))
        if self.r.random() < self.sums:
            self.emit('sum')
        return answer

    def numbers(self, setup):
        """Hand a set over, as it is or as the lines of a file."""
        as_lines = setup.numbers_ok() and self.r.random() < 0.5
        self.emit('numbers ' + (shown(written(setup)) if as_lines else '%d %d %d %d' % setup.numbers))

    def flags(self, table):
        """The same of a table."""
        as_lines = table_ok(table) and self.r.random() < 0.5
        self.emit('flags ' + (shown(table_lines(table)) if as_lines else ' '.join(map(str, table))))

    # What calls are made of

    def alive(self):
        return [n for n in range(1, 17) if self.w.records[n]]

    def record(self, n):
        return self.w.records[n] if 1 <= n <= 16 else None

    def number(self):
        r, alive = self.r, self.alive()
        if alive and r.random() < 0.97:
            return r.choice(alive)
        return r.choice([1, 2, r.randint(1, 16), 0, 17, MAX, r.randint(1, 16)])

    def new_number(self):
        r = self.r
        if r.random() < 0.95:
            return r.choice([1, 2, 3, r.randint(1, 16), 16])
        return r.choice([0, 17, 2**32 + 1, MAX])

    def address(self, n):
        """An address that means something to process n, most of the time."""
        r = self.r
        record = self.record(n)
        way = r.random()
        if record and way < 0.45:
            edges = [e for s in record.segments for e in s[:2]] + [record.bss[0], up(record.bss[0]), record.bss[1]]
            a = r.choice(edges) + r.choice([0, 0, 0, 1, -1, 7, -7, 8, -8, 16, -16, -17, -24, -32, 100, -100])
        elif record and way < 0.85:
            start, end, _ = r.choice(full_parts(record))
            page = r.randrange(start, end, PAGE)
            a = page + r.choice([0, 1, 8, r.randrange(PAGE), r.randrange(PAGE), PAGE - 1, PAGE - 8])
        elif way < 0.96:
            a = r.choice(self.constants)
        else:
            a = r.getrandbits(r.choice([16, 17, 47, 48, 64]))
        return max(0, min(a, MAX))

    def length(self, a, most=MAX):
        """A length for a range at a: mostly one that ends where something does."""
        r = self.r
        rest = PAGE - a % PAGE
        choices = [0, 1, 8, rest, rest - 1, rest + 1, rest + PAGE, r.randint(0, 40), r.randint(0, 40), 40]
        if not self.small or r.random() < 0.1:
            choices += [PAGE, PAGE + 1, r.randint(0, 5 * PAGE)]
        if most == MAX:
            top = self.setup.uaddrtop
            choices += [top - a, top - a + 1, top, MAX - a, MAX - a + 1, MAX]
        elif self.small:
            choices = [c for c in choices if c <= 64] or [1]
        return r.choice([c for c in choices if 0 <= c <= most])

    def data(self):
        r = self.r
        lengths = [0, 1, 1, 3, 8, 16, r.randint(0, 40)]
        if not self.small:
            lengths += [PAGE, r.randint(0, 2 * PAGE + 2)]
        b = r.randbytes(r.choice(lengths))
        return b if r.random() < 0.5 else b.replace(b'\0', b'\1')

    def name(self):
        r = self.r
        ends = ['lex', 'mot', '', '.', 'x' * 26, 'x' * 27, 'x' * 28, 'x' * 29, 'é' * 14, 'x' * 23 + 'é' + 'x' * 8,
                'x' * 22 + '語' + 'y' * 9, '\U0001f600' * 8]
        b = (r.choice(['', '/', '/bin/', 'a/b/', '/bin//']) + r.choice(ends)).encode()
        if r.random() < 0.1:
            b += r.randbytes(r.randint(1, 30))
        if r.random() < 0.05:
            b = bytes(r.choice([0x80, 0xbf, 0xc3, 0x2f, 0x61]) for _ in range(r.randint(25, 32)))
        return b

    def args(self):
        r = self.r
        way = r.random()
        if way < 0.85 or self.small and way < 0.97:
            lengths = [r.choice([0, 1, 3, 7, 8, r.randint(0, 30)]) for _ in range(r.choice([0, 1, 2, 2, 3, 5]))]
            out = [r.randbytes(n).replace(b'\0', b'z') for n in lengths]
            if out and r.random() < 0.06:
                out[r.randrange(len(out))] += b'\0'
            return out
        if way < 0.95:    # around the limit
            out = [b'q' * r.choice([0, 1, 7, r.randint(0, 600)]) for _ in range(r.randint(0, 6))]
            left = self.setup.arg_limit - stack_size(sum(len(a) + 1 for a in out), len(out))
            return out + [b'y' * max(left + r.randint(-20, 4), 0)]
        most = most_empty(self.setup)
        return [b''] * r.choice([most - 1, most, most + 1, most + 2])

    def size(self):
        if self.small:
            return 'small' if self.r.random() < 0.97 else 'plain'
        return 'big' if self.r.random() < 0.15 else 'plain'

    def image(self):
        """An image, and before an a.out the word that says so."""
        if self.aouts and self.r.random() < 0.6:
            return self.aout(*any_aout(self.r, self.size(), self.setup))
        return shown(any_image(self.r, self.size(), self.setup))

    def aout(self, magic, image):
        """Now and then without the word, as if it were ELF."""
        return shown(image) if self.r.random() < 0.02 else 'aout=%d %s' % (magic, shown(image))

    # Calls

    def step(self):
        r = self.r
        if not self.alive() and r.random() < 0.85:
            return self.start(good=r.random() < 0.8)
        r.choices([f for f, _ in self.steps], [k for _, k in self.steps])[0](self)

    def good_image(self):
        if self.aouts and self.setup.utzero < 2**32 and self.r.random() < 0.6:
            return self.aout(*random_aout(self.r, self.size(), self.setup))
        return shown(example_at(self.setup.utzero) if self.r.random() < 0.5 and self.setup.flags[6] != REFUSED
                     else random_image(self.r, self.size(), self.setup))

    def start(self, good=False):
        image = self.image()
        if good:
            image = self.good_image()
        self.call('start', self.new_number(), shown(self.name()), image, *map(shown, self.args()))

    def replace(self):
        r, n = self.r, self.number()
        record = self.record(n)
        argv = self.address(n)
        if record and r.random() < 0.75:
            argv = self.write_argv(n)
            if not self.w.records[n]:
                return
        self.call('replace', n, shown(self.name()), self.image(), argv)

    def write_argv(self, n):
        """Strings and pointers written to process n's memory; where the pointers begin."""
        r = self.r
        record = self.w.records[n]
        start, end, _ = r.choice([p for p in full_parts(record) if p[2] == DATA])
        args = self.args()
        at = r.choice([start, start + 3, end - 200, end - 40, r.randrange(start, end)])
        pointers = []
        block = b''
        for a in args:
            pointers.append(at + len(block))
            block += a + b'\0'
        odd = r.random()
        if odd < 0.05 and pointers:
            pointers[r.randrange(len(pointers))] = self.address(n)
        block = block[:-1] if odd > 0.97 else block
        array = b''.join(struct.pack('<Q', p % 2**64) for p in pointers + [0])
        if odd > 0.94:
            array = array[:-8]
        where = at + len(block) + r.choice([0, 0, 0, 1, 5])
        if r.random() < 0.1:
            where = max(end - len(array), 0)
        for a, b in ((at, block), (where, array)):
            if self.w.records[n] and (start <= a and a + len(b) <= end or r.random() < 0.05):
                self.call('to', n, a, shown(b))
        return where

    def push(self):
        r, n = self.r, self.number()
        utzero, top, size, _ = self.setup.numbers
        inside = top - 16 * r.randint(0, min(700, size // 16))
        top = r.choice([top, inside, inside, inside, inside, self.address(n) // 16 * 16,
            self.address(n) // 16 * 16, self.address(n), 16 * r.randint(0, 8), self.setup.low + 16 * r.randint(0, 12)])
        self.call('push', n, r.choice([0, utzero, r.getrandbits(64)]), top, *map(shown, self.args()))

    def brk(self):
        r, n = self.r, self.number()
        record = self.record(n)
        a = self.address(n)
        if record and r.random() < 0.8:
            start, end = record.bss
            free = len(self.w.free())
            a = r.choice([0, start, start - 1, start + 1, up(start), end, end - 1, end + 1, end - PAGE,
                end - PAGE + 1, end + PAGE, end + PAGE * free, end + PAGE * free + 1, end + PAGE * free - 1,
                end + 2 * PAGE, end + r.randint(0, 4 * PAGE), start + r.randint(0, 3 * PAGE)])
        self.call('break', n, max(a, 0))

    def fork(self):
        r, n = self.r, self.number()
        words = [n, self.new_number()]
        record = self.record(n)
        if r.random() < 0.25:
            lent = [list(s) for s in record.segments] if record else [list(self.setup.stack)]
            odd = r.random()
            if odd < 0.3:
                lent[r.randrange(len(lent))][r.randrange(3)] = r.choice([0, 1, 2, 3, 4, self.setup.utzero, PAGE, MAX])
            elif odd < 0.4:
                lent.append([0, 0, 0])
            elif odd < 0.5 and len(lent) > 1:
                del lent[r.randrange(len(lent))]
            words += [x for s in lent for x in s]
        self.call('fork', *words)

    def family(self):
        """Forks and forks of forks."""
        r = self.r
        for _ in range(r.randint(2, 4)):
            dead = [n for n in range(1, 17) if not self.record(n)]
            if self.alive() and dead:
                self.call('fork', r.choice(self.alive()), r.choice(dead))

    def end(self):
        self.call('end', self.number())

    def range(self):
        n = self.number()
        a = self.address(n)
        self.call('range', n, a, self.length(a), self.r.choice('rw'))

    def copy_from(self):
        n = self.number()
        a = self.address(n)
        length = self.length(a, 65536)
        record = self.record(n)
        if record and self.r.random() < 0.7:
            start, end, _ = self.r.choice(full_parts(record))
            length = min(length, end - start)
            a = self.r.choice([start, end - length, self.r.randint(start, end - length)])
        self.call('from', n, a, length)

    def copy_to(self):
        r, n = self.r, self.number()
        record = self.record(n)
        a, b = self.address(n), self.data()
        if record and r.random() < 0.85:
            start, end, _ = r.choice([p for p in full_parts(record) if p[2] == DATA])
            b = b[:end - start]
            a = r.choice([start, end - len(b), r.randint(start, end - len(b)), r.randint(start, end - len(b))])
        self.call('to', n, a, shown(b))

    def string(self):
        r, n = self.r, self.number()
        a = self.address(n)
        self.call('string', n, a, self.length(a, 65536))

    # Calls at the ends of data pages, most of which name a bad address

    def area(self, n):
        """Where data pages of process n that lie together begin and end."""
        pages = {page for page, perm in self.w.records[n].pages().items() if perm == DATA}
        start = end = self.r.choice(sorted(page for page in pages if page - PAGE not in pages))
        while end in pages:
            end += PAGE
        return start, end

    def push_at_edge(self):
        """Strings that leave an area at its end, or pointers that leave it at its start."""
        r = self.r
        if self.alive():
            n = r.choice(self.alive())
            start, end = self.area(n)
            args = [b'v' * r.choice([0, 0, 1, 7, r.randint(0, 24)]) for _ in range(r.choice([0, 1, 2, 3, 4, 6]))]
            top = r.choice([end + 16 * r.randint(0, 5), end + 16, start + 16 * r.randint(0, 9)])
            self.call('push', n, 0, top, *map(shown, args))

    def to_end(self, n, b, end):
        """Bytes written up to an area's end; where they begin."""
        self.call('to', n, end - len(b), shown(b))
        return end - len(b)

    def argv_at_edge(self):
        """Pointers up to an area's end, or a little less; or a string up to it, after other arguments."""
        r = self.r
        if self.alive():
            n = r.choice(self.alive())
            start, end = self.area(n)
            self.call('to', n, start, shown(b'ab\0'))
            pointers = [start + r.randint(0, 2) for _ in range(r.randint(0, 3))]
            if r.random() < 0.5:
                array = struct.pack('<%dQ' % len(pointers), *pointers)
                argv = self.to_end(n, array + b's' * r.choice([0, 0, 1, 4, 7]), end)
            else:
                string = b's' * r.randint(0, 9) + b'\0' * r.choice([0, 0, 0, 1])
                pointers += [self.to_end(n, string, end) + r.choice([0, 0, 0, 1]), r.choice([0, self.address(n)]), 0]
                argv = start + r.randint(3, 20)
                self.call('to', n, argv, shown(struct.pack('<%dQ' % len(pointers), *pointers)))
            self.call('replace', n, shown(self.name()), self.good_image() if r.random() < 0.9 else self.image(), argv)

    def string_at_edge(self):
        """A string up to an area's end, with a NUL or without."""
        r = self.r
        if self.alive():
            n = r.choice(self.alive())
            string = b's' * r.randint(0, 9) + b'\0' * r.choice([0, 0, 1])
            at = self.to_end(n, string, self.area(n)[1])
            self.call('string', n, at, len(string) + r.choice([0, -1, 1, 1, 2, 9]) if string else 1)

    # The book

    def write(self, words):
        """Write book words, each with its place."""
        for at, word in words.items():
            if self.w.book[at] != word:
                self.emit('word %d %d' % (at, word))

    def frame(self):
        """A frame, mostly one in use."""
        r, w = self.r, self.w
        used = [i for i in range(w.n) if w.holders(i)]
        return r.choice(used) if used and r.random() < 0.8 else r.randrange(w.n)

    def tear(self):
        """Write book words, try some calls, and write the old ones again if the book was torn."""
        r, w = self.r, self.w
        if w.n == 0:
            return
        i = self.frame()
        words = self.other_count(i) if r.random() < 0.25 else self.other_place(i)
        old = {at: w.book[at] for at in words}
        self.write(words)
        try:
            w.enter()
            old = {}
        except Refused:
            pass
        for _ in range(r.randint(1, 2)):
            self.step_once()
        self.write(old)

    def other_count(self, i):
        count = self.w.count(i)
        return {self.w.at_count(i): self.r.choice([0, 1, 2, 3, 16, 17, count + 1, count - 1, count + 2**32, MAX]) % 2**64}

    def other_place(self, i):
        """Another word in a place of frame i, mostly with the count that it then has."""
        r, w = self.r, self.w
        holders = w.holders(i)
        n = r.choice(holders) if holders and r.random() < 0.6 else r.randint(1, 16)
        utzero, end = self.setup.utzero, self.setup.uaddrtop
        near = [w.book[w.at_place(k, m)] for k in (i, self.frame()) for m in w.holders(k)]
        word = r.choice([w.book[w.at_place(i, n)], *near]) or utzero + 16 * n + 3
        own = down(word) + 16 * n + word % 16        # as the place wants it
        new = r.choice([0, own, own, own, word, own ^ 1, own ^ 3, own + 4, own + 16, own - 16, own + PAGE, own - PAGE,
            down(own) + 3, down(own) + 16 * 17 + 3, own % PAGE, own % PAGE + utzero - PAGE, own % PAGE + end,
            own % PAGE + end - PAGE, r.getrandbits(64), MAX]) % 2**64
        words = {w.at_place(i, n): new}
        if r.random() < 0.7:
            words[w.at_count(i)] = len(set(holders) - {n}) + (new != 0)
        return words

    def swap(self):
        """Exchange two frames' words: the book stays sound, pages change their frames."""
        r, w = self.r, self.w
        if w.n:
            i, j = r.randrange(w.n), r.randrange(w.n)
            a, b = (w.book[WORDS * k:WORDS * (k + 1)] for k in (i, j))
            self.write({WORDS * k + at: word for k, words in ((i, b), (j, a)) for at, word in enumerate(words)})

    def move(self):
        """Put a process's text or rodata page on another frame that has the same page for others, or on a free one: the book stays
        sound."""
        r, w = self.r, self.w
        held = {}
        for i in range(w.n):
            for n in w.holders(i):
                word = w.book[w.at_place(i, n)]
                held.setdefault(word - 16 * n, {})[n] = i
        for common in sorted(held):
            frames = held[common]
            n = r.choice(sorted(frames))
            i = frames[n]
            others = sorted(set(frames.values()) - {i}) + [k for k in range(w.n) if not w.holders(k)][:1]
            if common % 16 != DATA and others and w.count(i) > 0 and r.random() < 0.5:
                j = r.choice(others)
                self.write({w.at_place(i, n): 0, w.at_count(i): w.count(i) - 1, w.at_place(j, n): common + 16 * n,
                    w.at_count(j): w.count(j) + 1})

    def lend(self):
        """Lend an odd size, try some calls, and lend all again."""
        r, w = self.r, self.w
        n = w.n
        size, words = r.choice([(PAGE * n - 1, WORDS * n), (PAGE * n, WORDS * n - 1), (PAGE * n, WORDS * (n - 1)),
            (PAGE * (n - 1), WORDS * n), (PAGE * (n - 1), WORDS * (n - 1) + 1), (PAGE * (n - 1), WORDS * (n - 1)), (0, 0),
            (PAGE * (n // 2), WORDS * (n // 2)), (PAGE * n, n), (PAGE, 1), (PAGE, WORDS), (PAGE, WORDS - 1),
            (PAGE * (n // 2) + 1, WORDS * (n // 2)), (0, WORDS * n)])
        if 0 <= words <= WORDS * n and 0 <= size <= PAGE * n:
            self.emit('lend %d %d' % (size, words))
            for _ in range(r.randint(1, 3)):
                self.step_once()
            self.emit('lend %d %d' % (PAGE * n, WORDS * n))

    def other_numbers(self):
        """Hand over other numbers, try some calls, and hand the history's own again. Another stack is handed over while a process
        lives, whose book is then torn: no start under it leaves a process behind."""
        r = self.r
        other = random_set(r) if self.alive() and r.random() < 0.3 else near_set(r, self.setup)
        if min(other.numbers) < 0 or other.numbers_ok() and other.stack != self.setup.stack and not self.alive():
            return
        self.numbers(other)
        for _ in range(r.randint(1, 3)):
            self.step_once()
        self.numbers(self.setup)

    def other_flags(self):
        """Hand over another table, try some calls, and hand the history's own again. What was started under the other one stays."""
        r = self.r
        self.flags(random_table(r) if r.random() < 0.3 else near_table(r, self.setup.flags))
        for _ in range(r.randint(1, 3)):
            self.step_once()
        self.flags(self.setup.flags)

    def step_once(self):
        self.r.choice([self.start, self.replace, self.push, self.brk, self.fork, self.end, self.range, self.copy_from,
                       self.copy_to, self.string])()

    def rule(self):
        r = self.r
        utzero = self.setup.utzero
        start = r.choice([r.randrange(utzero, utzero + 2**20 - 2**16), r.choice(self.constants), r.getrandbits(64)])
        end = r.choice([up(start) % 2**64, min(up(start) + PAGE * r.randint(0, 5), MAX), r.choice(self.constants),
            r.getrandbits(64)])
        free = r.choice([0, 1, 2, 5, r.getrandbits(10), 2**52 - 1, 2**52, 2**52 + 1, MAX])
        a = r.choice([0, start, start - 1, start + 1, end, end + 1, end - 1, end + PAGE * min(free, 2**36),
                      end + PAGE * min(free, 2**36) + 1, r.choice(self.constants), r.getrandbits(64)])
        bss = ('none', 'none') if r.random() < 0.05 else (start, end)
        self.call('rule', *bss, free, min(max(a, 0), MAX))

    def name_call(self):
        self.call('name', shown(elem(self.name())))

    STEPS = [(start, 8), (replace, 8), (push, 7), (brk, 13), (fork, 10), (family, 3), (end, 4), (range, 12), (copy_from, 9),
             (copy_to, 13), (string, 12), (tear, 3), (swap, 1), (move, 1), (lend, 1), (rule, 4), (name_call, 2)]
    AT_EDGES = [(push_at_edge, 12), (argv_at_edge, 12), (string_at_edge, 6)]
