"""The ten calls, each with its numbers in their order."""
from .layout import check_args, load, page_count, stack_size
from .machine import DATA, PAGE, Ended, Refused, down, up
from .memory import Record
from .names import elem, kstrcpy
from .segments import rule
from .user import User


def load30(setup, image, magic):
    """As load; 11 to 28, 42 and 43 become 30."""
    try:
        return load(setup, image, magic)
    except Refused as r:
        raise Refused(31 if r.args[0] == 31 else 30)


class World(User):
    """Frames, book and records, and the calls over them. Start and replace take the magic of an a.out, or None for ELF."""

    def push_args(self, n, pc, top, args):
        at = top - sum(len(a) + 1 for a in args)
        argv = at // 8 * 8 - 8 * (len(args) + 1)
        if argv < 0:
            raise Ended(35, 0)
        # The copies in the Rust's writing order.
        copies = []
        for i, a in enumerate(args):
            copies += [(at, a), (at + len(a), b'\0'), (argv + 8 * i, at.to_bytes(8, 'little'))]
            at += len(a) + 1
        copies.append((argv + 8 * len(args), bytes(8)))
        # All are checked before any is written: an ended call leaves frame bytes as they were.
        for address, data in copies:
            self.check(n, address, len(data), True)
        for address, data in copies:
            self.write(n, address, data)
        return pc, argv // 16 * 16, len(args), argv

    def install(self, n, name, loaded, args):
        """Pages of a checked image for which there are frames, and its record."""
        entry, segments, ranges, bss = loaded
        for s in segments:
            for page in range(down(s.vaddr), up(s.end), PAGE):
                self.load_page(n, page, s)
        for page in range(self.setup.low, self.setup.ustktop, PAGE):
            self.place(n, page, DATA, bytes(PAGE))
        self.records[n] = Record(ranges + [self.setup.stack], bss, kstrcpy(elem(name)))
        return self.push_args(n, entry, self.setup.ustktop, args)

    def start(self, n, name, magic, image, args):
        self.enter()
        self.vacant(n)
        check_args(self.setup, args)
        loaded = load30(self.setup, image, magic)
        if page_count(self.setup, *loaded[2:]) > len(self.free()):
            raise Refused(33)
        return self.install(n, name, loaded, args)

    def replace(self, n, name, magic, image, argv):
        self.called(n)
        loaded = load30(self.setup, image, magic)
        args = self.copy_argv(n, argv)
        if page_count(self.setup, *loaded[2:]) > self.alone(n) + len(self.free()):
            raise Ended(33)
        self.finish(n)
        return self.install(n, name, loaded, args)

    def copy_argv(self, n, argv):
        args, strings, limit = [], 0, self.setup.arg_limit
        while True:
            pointer = int.from_bytes(self.read(n, argv + 8 * len(args), 8), 'little')
            if pointer == 0:
                return args
            buffer = bytearray(limit)
            k, bad = self.copy_string(n, pointer, buffer)
            if bad is not None:
                raise Ended(35, bad)
            strings += k + 1
            if k == limit or stack_size(strings, len(args) + 1) > limit:
                raise Refused(33)
            args.append(bytes(buffer[:k]))

    def push(self, n, pc, top, args):
        self.called(n)
        if top % 16 != 0:
            raise Refused(36)
        check_args(self.setup, args)
        return self.push_args(n, pc, top, args)

    def brk(self, n, address):
        self.called(n)
        r = self.records[n]
        value, new = rule(self.setup, r.bss, len(self.free()), address)
        for page in range(new[1], r.bss[1], PAGE):
            self.release(n, page)
        for page in range(r.bss[1], new[1], PAGE):
            self.place(n, page, DATA, bytes(PAGE))
        r.bss = new
        return value

    def fork(self, parent, child, lent=None):
        self.enter()
        if lent is not None and 1 <= parent <= 16:
            r = self.records[parent]
            if lent != (r.segments if r else []):
                raise Refused(2)
        if not (1 <= parent <= 16 and 1 <= child <= 16):
            raise Refused(3)
        self.living(parent)
        self.vacant(child)
        r = self.records[parent]
        if r.count_data() > len(self.free()):
            raise Refused(33)
        for start, end, perm in r.parts():
            for page in range(start, end, PAGE):
                if perm == DATA:
                    self.place(child, page, perm, self.content(parent, page))
                else:
                    self.share(parent, page, child)
        self.records[child] = Record(list(r.segments), r.bss, r.name)

    def end(self, n):
        self.called(n)
        self.finish(n)

    def range(self, n, address, length, write):
        """The bad address, or None for yes."""
        self.called(n)
        return self.bad_address(n, address, length, write)

    def copy_from(self, n, address, length):
        self.called(n)
        return self.read(n, address, length)

    def copy_to(self, n, address, data):
        self.called(n)
        self.write(n, address, data)

    def string(self, n, address, buffer):
        self.called(n)
        return self.copy_string(n, address, buffer)
