"""Item 2: frames, book and records. The book is a list of mappings (request 10), and a page is loaded in two steps
(request 3)."""
from .machine import DATA, PAGE, Refused, down, up
from .setup import DEPOSIT

# A frame's words in the book: its places 1 to 16, then the count of its holders.
WORDS = 17


class Record:
    """A living process: segments with the stack, bss, name of 28 bytes."""

    def __init__(self, segments, bss, name):
        self.segments, self.bss, self.name = segments, bss, name

    def parts(self):
        """Its ranges in fork's order: segments as recorded, then the bss."""
        return self.segments + [(up(self.bss[0]), self.bss[1], DATA)]

    def pages(self):
        return {page: perm for start, end, perm in self.parts() for page in range(start, end, PAGE)}

    def count(self):
        return sum(end - start for start, end, _ in self.parts()) // PAGE

    def count_data(self):
        return sum(end - start for start, end, perm in self.parts() if perm == DATA) // PAGE


class Memory:
    """Frames, book and records, and what is handed to each call, machine numbers and flag table: the deposit machine's at first."""

    def __init__(self, frames=0, fill=0):
        self.n = frames
        self.bytes, self.words = PAGE * frames, WORDS * frames
        self.frames = bytearray([fill]) * (PAGE * frames)
        self.book = [0] * (WORDS * frames)
        self.records = [None] * 17
        self.setup = DEPOSIT

    # Numbers 1, 38, 39, and 2 to 5

    def enter(self):
        """Refused 1, 38, 39, 2; then self.table has each process's pages, page to frame and permission."""
        frames = self.lent()
        if self.bytes != PAGE * frames or self.words != WORDS * frames or not 1 <= frames <= 1024:
            raise Refused(1)
        self.setup.check()
        self.table = [{} for _ in range(17)]
        if not all(self.sound_frame(i) for i in range(frames)) or not all(self.sound(n) for n in range(1, 17)):
            raise Refused(2)

    def sound_frame(self, i):
        """Whether a frame's mappings are proper and agree, and its count is theirs; they go to the table."""
        holders, mapped = self.holders(i), set()
        for n in holders:
            word = self.book[self.at_place(i, n)]
            page, owner, perm = down(word), word % PAGE // 16, word % 16
            if not (owner == n and 1 <= perm <= 3 and self.setup.utzero <= page < self.setup.uaddrtop):
                return False
            if page in self.table[n]:
                return False
            self.table[n][page] = (i, perm)
            mapped.add((page, perm))
        return (self.count(i) == len(holders) and len(mapped) <= 1
                and (len(holders) <= 1 or all(perm != DATA for _, perm in mapped)))

    def sound(self, n):
        """Whether process n's record is proper and its pages are the record's."""
        r, mine, setup = self.records[n], self.table[n], self.setup
        if r is None:
            return not mine
        image, (start, end) = r.segments[:-1], r.bss
        return (len(r.segments) <= 16 and r.segments[-1] == setup.stack
                and all(s % PAGE == 0 and e % PAGE == 0 and setup.utzero <= s < e <= setup.limit for s, e, _ in image)
                and all(a[1] <= b[0] for a, b in zip(r.segments, r.segments[1:]))
                and setup.utzero <= start <= end <= setup.limit and end % PAGE == 0
                and all(e <= up(start) for _, e, _ in image)
                and r.count() == len(mine)
                and r.pages() == {page: perm for page, (_, perm) in mine.items()})

    def living(self, n):
        """Refused 3, 4."""
        if not 1 <= n <= 16:
            raise Refused(3)
        if self.records[n] is None:
            raise Refused(4)

    def called(self, n):
        """Refused 1, 38, 39, 2, 3, 4: what every call of a living process begins with."""
        self.enter()
        self.living(n)

    def vacant(self, n):
        """Refused 3, 5."""
        if not 1 <= n <= 16:
            raise Refused(3)
        if self.records[n] is not None:
            raise Refused(5)

    # The book, frame after frame

    def lent(self):
        """How many whole frames the lent words are."""
        return self.words // WORDS

    def at_place(self, i, n):
        """Where process n's place of frame i is."""
        return WORDS * i + n - 1

    def at_count(self, i):
        return WORDS * i + 16

    def count(self, i):
        return self.book[self.at_count(i)]

    def holders(self, i):
        """The processes whose mappings name frame i."""
        places = self.book[self.at_place(i, 1):self.at_count(i)]
        return [n for n, word in enumerate(places, 1) if word != 0]

    # Frames, in a sound book

    def free(self):
        """The free frames, ascending: those that no mapping names."""
        return [i for i in range(self.lent()) if self.count(i) == 0]

    def alone(self, n):
        """How many frames process n holds alone."""
        return sum(self.count(i) == 1 for i, _ in self.table[n].values())

    def hold(self, n, page, perm, i):
        """Process n's page in frame i, beside those of other holders."""
        self.book[self.at_place(i, n)] = page + 16 * n + perm
        self.book[self.at_count(i)] += 1
        self.table[n][page] = (i, perm)

    def release(self, n, page):
        i, _ = self.table[n].pop(page)
        self.book[self.at_place(i, n)] = 0
        self.book[self.at_count(i)] -= 1

    def take(self, n, page, perm):
        """Process n's page takes the highest-numbered free frame, whose bytes are as they were."""
        i = self.free()[-1]
        self.hold(n, page, perm, i)
        return i

    def place(self, n, page, perm, content):
        """A page with all of its bytes."""
        i = self.take(n, page, perm)
        self.frames[PAGE * i:PAGE * (i + 1)] = content

    def load_page(self, n, page, s):
        """A page of a segment: the file's part is put in place, then what is before and after it is cleared."""
        at = PAGE * self.take(n, page, s.perm)
        first, last = max(page, s.vaddr), min(page + PAGE, s.vaddr + len(s.file))
        if first >= last:
            first = last = page
        before, after = at + first - page, at + last - page
        self.frames[before:after] = s.file[first - s.vaddr:last - s.vaddr]
        self.frames[at:before] = bytes(before - at)
        self.frames[after:at + PAGE] = bytes(at + PAGE - after)

    def share(self, n, page, child):
        """Process n's page as the child's too, in its frame."""
        i, perm = self.table[n][page]
        self.hold(child, page, perm, i)

    def content(self, n, page):
        i = self.table[n][page][0]
        return self.frames[PAGE * i:PAGE * (i + 1)]

    def finish(self, n):
        """The process is no more; frame bytes stay."""
        for page in list(self.table[n]):
            self.release(n, page)
        self.records[n] = None
