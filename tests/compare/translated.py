#!/usr/bin/env python3
"""a.outs put to the Rust, which reads ELF alone: each as the ELF image that loads the same.

    translated.py ORACLE [HISTORIES]      tests/replay/aout.txt, and HISTORIES random histories (20)

The model answers the lines as they are, the oracle with each a.out exchanged for an ELF image of its entry and segments, or for no
byte where the model's reader refuses it; the answers must be equal, sums of records, book and frames among them. Left out are parts
of the script with other machine numbers or flag tables, and what has a line that is too long with the image in it.
"""
import os
import random
import sys

import compare
from compare import OPTIONS, REPLAY, answers, asked, of_both, script_lines
from elf import DATA, TEXT, header, program
from histories import History
from rules.aout import read_aout
from rules.machine import PAGE, Refused, up
from rules.machine import TEXT as TEXT_PAGES
from rules.setup import DEPOSIT
from script import BadLine, bytes_of, shown

MODEL = 'tests/compare/model.py'
LINE_MAX = 65536


def elf_of(image, magic):
    """The ELF image that loads as an a.out does, each segment from a page of the file on."""
    try:
        entry, segments = read_aout(image, magic, DEPOSIT.utzero)
    except Refused:
        return b''
    heads, body = b'', b''
    for s in segments:
        flags = TEXT if s.perm == TEXT_PAGES else DATA
        heads += program(flags, PAGE + len(body), s.vaddr, len(s.file), s.memsz)
        body += s.file + bytes(up(len(s.file)) - len(s.file))
    return (header(entry, len(segments)) + heads).ljust(PAGE, b'\0') + body


def translated(line):
    """A line with the ELF image in the a.out's place; a bad line as it is."""
    if not OPTIONS['--aouts'].match(line):
        return line
    words = line.split(b' ')
    magic = words[3].removeprefix(b'aout=')
    if len(words) < 5 or not magic.isdigit() or int(magic) >= 2**32:
        return line
    try:
        image = bytes_of(words[4])
    except BadLine:
        return line
    return b' '.join(words[:3] + [shown(elf_of(image, int(magic))).encode()] + words[5:])


def compared(oracle, lines, what):
    """How many answers both gave, and how many a.outs they were asked for; none where a line is too long."""
    others = [translated(line) for line in lines]
    if any(len(line) > LINE_MAX for line in others):
        return 0, 0
    ours, theirs = of_both(MODEL, oracle, answers(MODEL, lines), answers(oracle, others))
    if ours != theirs:
        at = next((i for i, (a, b) in enumerate(zip(ours, theirs)) if a != b), min(len(ours), len(theirs)))
        sys.exit('translated: %s: %r: the model %r, the Rust %r' % (what, *(got[at:at + 1] for got in (asked(lines), ours, theirs))))
    return len(ours), sum(a != b for a, b in zip(lines, others))


def parts(lines):
    """A script cut before each `frames`."""
    cut = [i for i, line in enumerate(lines) if line.startswith(b'frames')]
    return [lines[a:b] for a, b in zip(cut, cut[1:] + [len(lines)])]


def main(oracle, histories='20'):
    os.chdir(compare.ROOT)
    runs = [p for p in parts(script_lines(os.path.join(REPLAY, 'aout.txt'))) if not any(line.startswith((b'numbers', b'flags')) for line in p)]
    runs += [History(random.Random('translated/%d' % k), compare.CALLS_A_HISTORY, k % 2 == 1, aouts=True).lines for k in range(int(histories))]
    counts = [compared(oracle, lines, 'run %d' % k) for k, lines in enumerate(runs)]
    if not sum(n for _, n in counts):
        sys.exit('translated: no a.out was compared')
    print('a.outs as ELF images, %d runs, %d left out: no difference in %d answers, %d of them of a.outs%s' % (
        len(runs), sum(n == 0 for n, _ in counts), sum(n for n, _ in counts), sum(n for _, n in counts), compare.by_28()))


if __name__ == '__main__':
    main(*sys.argv[1:])
