"""Pages, permissions, and the two ways in which a call isn't accepted."""
PAGE = 4096
MAX = 2**64 - 1
TEXT, RODATA, DATA = 1, 2, 3
KINDS = {TEXT: 'text', RODATA: 'rodata', DATA: 'data'}


class Refused(Exception):
    """A call that is turned away; its number."""


class Ended(Exception):
    """A call that ends its process; its number, and with 35 the bad address."""


def down(a):
    return a // PAGE * PAGE


def up(a):
    return (a + PAGE - 1) // PAGE * PAGE
