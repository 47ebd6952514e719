#!/usr/bin/env python3
"""The model: the rules as a program (rules/), which answers scripts and lists images.

    model.py          a script on standard input, an answer for each line
    model.py list     an image on standard input, the listing
    model.py lists    an image a line, as BYTES; its listing on one line, `;` between the lines
    model.py aouts    a line each of MAGIC, UTZERO and an a.out as BYTES; what its reader by itself gives: `refused N`, or the entry and
                      the segments, each with its kind, address, memory size and file size
"""
import sys

from rules.aout import read_aout
from rules.listing import listing
from rules.machine import KINDS, Refused
from script import Script, bytes_of


def read_line(line):
    """What the reader of a.outs gives for a line."""
    magic, utzero, image = line.split(b' ')
    try:
        entry, segments = read_aout(bytes_of(image), int(magic), int(utzero))
    except Refused as r:
        return 'refused %d' % r.args
    return ' '.join(['ok %d' % entry] + ['%s %d %d %d' % (KINDS[s.perm], s.vaddr, s.memsz, len(s.file)) for s in segments])


def main():
    data = sys.stdin.buffer.read()
    out = []
    if sys.argv[1:] == []:
        script = Script()
        out = [a for a in map(script.answer, data.split(b'\n')) if a is not None]
    elif sys.argv[1:] == ['list']:
        out = listing(data)
    elif sys.argv[1:] == ['lists']:
        out = [';'.join(listing(bytes_of(line))) for line in data.split(b'\n') if line]
    elif sys.argv[1:] == ['aouts']:
        out = [read_line(line) for line in data.split(b'\n') if line and line[:1] != b'#']
    else:
        sys.exit('usage: model.py [list|lists|aouts]')
    sys.stdout.write(''.join(a + '\n' for a in out))


if __name__ == '__main__':
    main()
