#!/usr/bin/env python3
"""Runs the program flags on files of flag tables, and compares what it prints with the model's.

  against.py PROGRAM     as against.py ../../target/bin/flags

The files are those of the recorded script flag-texts, and some at the longest length that is read. Standard input is a file, then a
pipe that is written in pieces.
"""
import os
import sys

sys.path.insert(0, os.path.join(os.path.dirname(os.path.dirname(os.path.abspath(__file__))), 'compare'))
from boundaries.flag_texts import each_byte, each_row, form  # noqa: E402
from boundaries.flags import ACCEPTED  # noqa: E402
from feed import FILE_MAX, at_longest, compare  # noqa: E402
from rules.flags import WORDS, read_table, table_lines  # noqa: E402
from rules.machine import Refused  # noqa: E402


def printed(text):
    """What the program is to print."""
    try:
        if len(text) > FILE_MAX:
            raise Refused(39)
        table = read_table(text)
    except Refused as r:
        return b'refused=%d\n' % r.args
    return ''.join('%d=%d %s\n' % (row, code, WORDS[code]) for row, code in enumerate(table)).encode()


def files():
    yield from map(table_lines, ACCEPTED)
    yield from each_row()
    for _, some in form():
        yield from some
    yield from each_byte()
    yield from at_longest(table_lines(ACCEPTED[0]))


if __name__ == '__main__':
    if len(sys.argv) != 2:
        sys.exit(__doc__)
    sys.exit(compare('flags', sys.argv[1:], files(), printed))
