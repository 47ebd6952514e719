"""Item 3: user memory. A range that is refused names its bad address (request 4)."""
from .machine import DATA, PAGE, Ended, down
from .memory import Memory


class User(Memory):
    """The memory as processes have it: by their addresses."""

    def bad_address(self, n, address, length, write):
        """None for a range that passes. Its own start where it starts above the top; else its lowest byte address below the top that
        can't be accessed; else the top, where it reaches past it."""
        top, end = self.setup.uaddrtop, address + length
        if address > top:
            return address
        # The lowest byte of the range in each of its pages.
        lowest = address
        while lowest < min(end, top):
            page = down(lowest)
            if page not in self.table[n] or write and self.table[n][page][1] != DATA:
                return lowest
            lowest = page + PAGE
        return top if end > top else None

    def check(self, n, address, length, write):
        """Ended 35 with the bad address."""
        bad = self.bad_address(n, address, length, write)
        if bad is not None:
            raise Ended(35, bad)

    def at(self, n, address):
        """Where a byte lies in the frames."""
        return PAGE * self.table[n][down(address)][0] + address % PAGE

    def read(self, n, address, length):
        self.check(n, address, length, False)
        return bytes(self.frames[self.at(n, a)] for a in range(address, address + length))

    def write(self, n, address, data):
        self.check(n, address, len(data), True)
        for i, b in enumerate(data):
            self.frames[self.at(n, address + i)] = b

    def copy_string(self, n, address, buffer):
        """The length and None, or None and the bad address; what was read is in the buffer."""
        for i in range(len(buffer)):
            bad = self.bad_address(n, address + i, 1, False)
            if bad is not None:
                return None, bad
            b = self.frames[self.at(n, address + i)]
            if b == 0:
                return i, None
            buffer[i] = b
        return len(buffer), None
