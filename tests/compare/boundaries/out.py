"""What scripts are written with: the example and its addresses, and lines."""
import struct

from rules.machine import PAGE
from rules.memory import WORDS
from rules.setup import DEPOSIT
from random_images import EXAMPLE
from script import shown

E = EXAMPLE.hex()
UTZERO, LIMIT, LOW, TOP = DEPOSIT.utzero, DEPOSIT.limit, DEPOSIT.low, DEPOSIT.ustktop
# The example's process: text 65536 to 69632, data to 73728, bss 69816 to 77824, 7 pages with the stack.
TEXT, DATA, BSS, BSS_END = 65536, 69632, 69816, 77824


class Out:
    """A script being written."""

    def __init__(self, name, about):
        self.name = name
        self.lines = ['# ' + about, '# Written by tests/compare/directed.py.']

    def note(self, text):
        self.lines += ['', '# ' + text]

    def __call__(self, *words):
        self.lines.append(' '.join(str(w) for w in words))

    def all(self, *lines):
        for line in lines:
            self(line)

    def text(self, lines):
        """Script lines as they stand, without what is before them."""
        self.all(*(line.strip() for line in lines.strip().split('\n')))

    def fresh(self, frames=8, n=1, args=(), image=EXAMPLE, fill=9):
        """New frames and a process in them."""
        self('frames', frames, fill)
        self('start', n, "'lex", shown(image), *map(shown, args))

    def content(self):
        return '\n'.join(self.lines) + '\n'


def place(frame, n):
    """Which word of the book is process n's place of a frame."""
    return WORDS * frame + n - 1


def count(frame):
    """Which word of the book is a frame's count."""
    return WORDS * frame + 16


def mapping(page, n, perm):
    """A word of the book."""
    return page + 16 * n + perm


def lend(frames):
    """The line that lends so many whole frames."""
    return f'lend {PAGE * frames} {WORDS * frames}'


def run_of(c, n):
    """n bytes c, as a script's BYTES."""
    return "'" + c * n


def words(*values):
    """64-bit words as a script's BYTES."""
    return shown(b''.join(struct.pack('<Q', v % 2**64) for v in values))
