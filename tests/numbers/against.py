#!/usr/bin/env python3
"""Runs the program numbers on files of machine numbers, and compares what it prints with the model's.

  against.py PROGRAM     as against.py ../../target/bin/numbers

The files are those of the recorded script texts, and some at the longest length that is read. Standard input is a file, then a pipe
that is written in pieces.
"""
import os
import sys

sys.path.insert(0, os.path.join(os.path.dirname(os.path.dirname(os.path.abspath(__file__))), 'compare'))
from boundaries.sets import ACCEPTED, conditions  # noqa: E402
from boundaries.texts import both, each_byte, form  # noqa: E402
from feed import FILE_MAX, at_longest, compare  # noqa: E402
from rules.machine import Refused  # noqa: E402
from rules.setup import read, written  # noqa: E402


def printed(text):
    """What the program is to print."""
    try:
        if len(text) > FILE_MAX:
            raise Refused(37)
        setup = read(text)
    except Refused as r:
        return b'refused=%d\n' % r.args
    return written(setup) + b'LIMIT=%d\nARGLIMIT=%d\n' % (setup.limit, setup.arg_limit)


def files():
    yield from map(written, ACCEPTED)
    for _, some in form():
        yield from some
    for _, some in conditions():
        yield from map(written, some)
    yield from both()
    yield from each_byte()
    yield from at_longest(written(ACCEPTED[0]))


if __name__ == '__main__':
    if len(sys.argv) != 2:
        sys.exit(__doc__)
    sys.exit(compare('numbers', sys.argv[1:], files(), printed))
