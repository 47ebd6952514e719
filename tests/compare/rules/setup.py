"""What is handed to every call: the machine's numbers, a set of four, its conditions, and the lines of a file that say one (request
5); and the flag table (request 7)."""
import re
from typing import NamedTuple

from .flags import BUILT_IN, check_table
from .machine import DATA, PAGE, Refused

NAMES = 'UTZERO', 'USTKTOP', 'USTKSIZE', 'UADDRTOP'
LINES = re.compile(''.join(name + '=([1-9][0-9]{0,14})\n' for name in NAMES).encode())


class Setup(NamedTuple):
    """A set, in the order of its lines, and a flag table."""
    utzero: int
    ustktop: int
    ustksize: int
    uaddrtop: int
    flags: tuple = BUILT_IN

    @property
    def numbers(self):
        """The four numbers."""
        return self[:4]

    def numbers_ok(self):
        """Whether they keep every condition."""
        return (all(number % PAGE == 0 for number in self.numbers)
                and self.utzero >= PAGE and PAGE <= self.ustksize <= 65536
                and self.ustksize < self.ustktop
                and self.utzero + 8192 <= self.ustktop - self.ustksize
                and self.ustktop <= self.uaddrtop <= 2**47)

    def check_numbers(self):
        """Refused 38."""
        if not self.numbers_ok():
            raise Refused(38)

    def check(self):
        """Refused 38, 39."""
        self.check_numbers()
        check_table(self.flags)

    @property
    def low(self):
        """Where the stack begins."""
        return self.ustktop - self.ustksize

    @property
    def stack(self):
        """The stack as a record's last segment."""
        return self.low, self.ustktop, DATA

    @property
    def limit(self):
        """What an image or a bss ends at, at most: one guard page lies above it."""
        return self.low - PAGE

    @property
    def arg_limit(self):
        return self.ustksize // 4


# The deposit machine's, with the built-in table.
DEPOSIT = Setup(65536, 2**47, 16384, 2**47)


def read(text):
    """The set that a file's bytes say, with the built-in table; Refused 37, 38."""
    said = LINES.fullmatch(text)
    if not said:
        raise Refused(37)
    setup = Setup(*map(int, said.groups()))
    setup.check_numbers()
    return setup


def written(setup):
    """The bytes of a file that say a set."""
    return ''.join('%s=%d\n' % line for line in zip(NAMES, setup.numbers)).encode()
