#!/usr/bin/env python3
"""Writes the directed scripts, tests/replay/NAME.txt (boundaries/), the files that some of them read, example.elf, example.aout,
pages.elf, pages-more.elf, school.numbers and partner.flags, and tests/images/aouts.txt with the reader's answers, aouts.out.

    directed.py            writes them
    directed.py --check    says whether they are as it would write them
"""
import os
import sys

import aout as plan9
from boundaries import (access, addresses, alignment, aout, brk, flag_texts, flags, fork, form, frames, images, numbers, pages, push,
                        replace, sets, shared, start, texts)
from rules.flags import table_lines
from rules.setup import written
from random_images import EXAMPLE

HERE = os.path.dirname(os.path.abspath(__file__))
REPLAY, IMAGES = (os.path.join(os.path.dirname(HERE), name) for name in ('replay', 'images'))
SCRIPTS = [images.images, start.examples, start.args, push.push, brk.brk, frames.frames, access.access, access.strings,
           replace.replace, start.names, fork.fork, numbers.numbers, frames.sizes, brk.rule, frames.history, form.form, form.files,
           sets.sets, texts.texts, flags.flags, flag_texts.flag_texts, shared.shared, shared.orders, shared.torn, aout.aout,
           addresses.addresses, addresses.address_sets, alignment.alignment, pages.pages]


def main(argv):
    read = {'example.elf': EXAMPLE, 'example.aout': plan9.EXAMPLE, 'school.numbers': written(texts.SCHOOL),
            'partner.flags': table_lines(flags.PARTNER), **pages.IMAGES}
    files = {os.path.join(HERE, name): content for name, content in read.items()}
    for end, lines in zip(('txt', 'out'), aout.reader()):
        files[os.path.join(IMAGES, 'aouts.' + end)] = ''.join(line + '\n' for line in lines).encode()
    for script in SCRIPTS:
        out = script()
        files[os.path.join(REPLAY, out.name + '.txt')] = out.content().encode()
    other = 0
    for path, content in files.items():
        if argv != ['--check']:
            with open(path, 'wb') as f:
                f.write(content)
        elif not os.path.isfile(path) or open(path, 'rb').read() != content:
            print('directed: %s is not what directed.py writes' % os.path.relpath(path), file=sys.stderr)
            other += 1
    if not other:
        print('directed: %d scripts%s' % (len(SCRIPTS), ', as directed.py writes them' if argv == ['--check'] else ' written'))
    return min(other, 1)


if __name__ == '__main__':
    sys.exit(main(sys.argv[1:]))
