#!/usr/bin/env python3
"""Links random programs with the flags of ../../docs/LINKING.md, and counts what becomes of them by the model.

  random_links.py SEED COUNT [POWER]     alignments up to 2^POWER, else 2^16; ./check doesn't run it

Each program has sections of random sizes and alignments, and is tried as linked, linked with -s, and stripped by GNU strip. Exit status
1 if one is refused that the page says is accepted.
"""
import collections
import pathlib
import random
import subprocess
import sys
import tempfile

from linking import STRIP, answer

FLAGS = ['-static', '-z', 'norelro', '-z', 'max-page-size=4096']
LINKERS = {'GNU ld': ['aarch64-linux-gnu-ld'], 'GNU ld, separate code': ['aarch64-linux-gnu-ld', '-z', 'separate-code'],
           'gold': ['aarch64-linux-gnu-ld.gold'], 'LLD': ['ld.lld']}
SECTIONS = {'.rodata': '"a",@progbits', '.tdata': '"awT",@progbits', '.tbss': '"awT",@nobits', '.init_array': '"aw",@init_array',
            '.data': '"aw",@progbits', '.bss': '"aw",@nobits'}
INITIALISED = {'.tdata', '.init_array', '.data'}
SIZES = [1, 4, 8, 40, 300, 1000, 3000, 4096, 5000, 9000]


def program(draw, power):
    """A program's text, and the alignment of each of its sections beside .text."""
    lines = ['.globl _start', '_start: b _start', f'.space {draw.choice(SIZES)}']
    aligned = {}
    for name, kind in SECTIONS.items():
        if draw.random() < 0.5:
            aligned[name] = 8 if name == '.init_array' else 2 ** draw.randint(0, power)
            size = 8 if name == '.init_array' else draw.choice(SIZES)
            lines += [f'.section {name},{kind}', f'.balign {aligned[name]}', f'.zero {size}']
    return '\n'.join(lines) + '\n', aligned


def said(linker, form, result, aligned):
    """Whether the page says that such a program may be refused with this number."""
    writable = {name: align for name, align in aligned.items() if name != '.rodata'}
    largest = max(writable.values(), default=0)
    if result == '22':
        return largest >= 512 and not writable.keys() & INITIALISED and (linker == 'GNU ld' or (linker, form) == ('LLD', 'stripped'))
    return result == '30' and largest >= 8192 and len(writable) > 1 and linker.startswith('GNU ld')


def forms(folder, command):
    """The program in its forms."""
    for form, run in (('as linked', command + ['-o', 'a.out']), ('-s', command + ['-s', '-o', 'b.out']),
                      ('stripped', [STRIP, 'a.out', '-o', 'b.out'])):
        subprocess.run(run, cwd=folder, check=True)
        yield form, (folder / run[-1]).read_bytes()


def main(seed, count, power=16):
    draw = random.Random(seed)
    counts, wrong = collections.Counter(), 0
    with tempfile.TemporaryDirectory() as name:
        folder = pathlib.Path(name)
        for _ in range(count):
            text, aligned = program(draw, power)
            (folder / 'a.s').write_text(text)
            subprocess.run(['aarch64-linux-gnu-as', 'a.s', '-o', 'a.o'], cwd=folder, check=True)
            for linker, command in LINKERS.items():
                for form, image in forms(folder, command + FLAGS + ['a.o']):
                    result, _ = answer(image)
                    counts[linker, form, result] += 1
                    if result != 'accepted' and not said(linker, form, result, aligned):
                        wrong += 1
                        print(f'random_links.py: {linker}, {form}: {result}, which the page does not say: {text!r}', file=sys.stderr)
    for (linker, form, result), times in sorted(counts.items()):
        print(f'{linker}, {form}: {result}: {times}')
    return min(wrong, 1)


if __name__ == '__main__':
    if len(sys.argv) not in (3, 4):
        sys.exit(__doc__)
    sys.exit(main(*map(int, sys.argv[1:])))
