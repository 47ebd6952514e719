#!/usr/bin/env python3
"""Runs the same scripts through two commands and reports the first difference.

    compare.py random SEED COUNT A B [--small] [--sets] [--tables] [--aouts] [--bad]
                                                          COUNT random calls, in histories of 40
    compare.py directed A B [--sets] [--tables] [--aouts] [FILE ..]
                                                          the directed scripts of tests/replay, or the files named
    compare.py recorded A [--sets] [--tables] [--aouts]   all scripts of tests/replay, beside their recorded answers
    compare.py books A B                                  every word of a small book changed (books.py)
    compare.py images SEED COUNT A B                      the listing: every one-byte change and every prefix of the
                                                          184-byte image, the images of tests/replay/images.txt and of
                                                          the listing's cases, and COUNT random images
    compare.py write SEED COUNT [--small] [--sets] [--tables] [--aouts] [--bad]
                                                          the random script on standard output

A and B are commands, each in one word, that read a script on standard input and
write an answer for each line: `target/oracle/release/oracle`, `target/bin/replay`,
`tests/compare/model.py`. For images they read one image; a command that ends in
` lists` reads an image a line instead. They run in the repository's root.

--sets: other sets of the machine's numbers too, in three histories of four, and the directed scripts that have some.
--tables: other flag tables too, in histories and directed scripts.
--aouts: images that are Plan 9 a.outs too, in histories and directed scripts.
--bad: more calls that name a bad address, in histories.
The oracle has the deposit machine's numbers and the built-in table and ELF alone, so it is compared without. It names no bad address either: beside it
answers are compared without their addresses (`of_both`); all others are compared in full. And it does not read the alignment field,
for which 28 refuses images: start and replace of such an image are put to it with no bytes in the image's place (`for_rust`), which
30 answers too, and the image by itself, whose listing must be that of the rules without 28 (`with_28`).

It counts the answers that are the oracle's own needs of frames and not the Rust's, and the images that 28 refuses beside the oracle.
"""
import os
import random
import re
import shlex
import subprocess
import sys
import time
from collections import Counter

HERE = os.path.dirname(os.path.abspath(__file__))
ROOT = os.path.dirname(os.path.dirname(HERE))
REPLAY = os.path.join(ROOT, 'tests', 'replay')
sys.path[:0] = HERE, os.path.join(ROOT, 'tests', 'images')
import books  # noqa: E402
from elf import change  # noqa: E402
from histories import History  # noqa: E402
from rules.flags import BUILT_IN, read_table, table_ok  # noqa: E402
from rules.image import parse  # noqa: E402
from rules.listing import listing  # noqa: E402
from rules.machine import TEXT, Refused  # noqa: E402
from rules.setup import DEPOSIT, read  # noqa: E402
from random_images import EXAMPLE, any_image, random_image  # noqa: E402
from random_sets import random_set, random_table  # noqa: E402
from readelf_check import read_cases  # noqa: E402
from script import LINE_MAX, BadLine, bytes_of, shown  # noqa: E402

CALLS_A_HISTORY = 40
HISTORIES_A_RUN = 50
TIME_LIMIT = 600
TEN = ['start', 'replace', 'push', 'break', 'fork', 'end', 'range', 'from', 'to', 'string']
COUNTED = TEN + ['rule', 'name']
# What the oracle has none of: lines that hand over a set or a table, and those of an a.out.
OPTIONS = {'--sets': re.compile(rb'numbers'), '--tables': re.compile(rb'flags'),
           '--aouts': re.compile(rb'(start|replace) [^ ]+ [^ ]+ aout=')}
# What histories are drawn with.
DRAWN = '--small', *OPTIONS, '--bad'
# An answer up to its bad address: 35 that ends the process, a range's no, and 35 of a string, whose buffer follows.
ADDRESS = re.compile(rb'(ended 35|ok no|refused 35(?= \d+ )) \d+')
# Forks and replaces that the oracle answered by its harness's needs of frames, with the frames of its book as they were.
NEEDS = Counter()
# Images that 28 refuses and the oracle was asked for, and how many of them it lists.
BY_28 = Counter()


def run(command, data):
    """What a command writes for this input, and how it failed, if it did."""
    try:
        p = subprocess.run(shlex.split(command), input=data, capture_output=True, cwd=ROOT, timeout=TIME_LIMIT,
                           close_fds=False, env=dict(os.environ, ORACLE_NEEDS='1'))
    except subprocess.TimeoutExpired:
        return b'', '(took over %d s)' % TIME_LIMIT
    for forks, replaces in re.findall(rb'^needs: (\d+) (\d+)$', p.stderr, re.M):
        NEEDS.update(forks=int(forks), replaces=int(replaces))
    failed = '' if p.returncode == 0 else '(status %d) %s' % (p.returncode, p.stderr.decode(errors='replace').strip())
    return p.stdout, failed


def whole(out):
    """The answers in what a command wrote."""
    got = []
    for line in out.split(b'\n')[:-1]:
        if line.startswith(b' ') and got:    # a further line of a table
            got[-1] += b'\n' + line
        else:
            got.append(line)
    return got


def is_oracle(command):
    return os.path.basename(shlex.split(command)[0]) == 'oracle'


def image_of(line):
    """The ELF image of a line that starts or replaces one, or None."""
    name, *words = line.split(b' ')
    if name not in (b'start', b'replace') or len(words) < 3 or len(line) > LINE_MAX:
        return None
    try:
        # Files are named from the root.
        return bytes_of(b'@' + os.path.join(ROOT.encode(), words[2][1:]) if words[2][:1] == b'@' else words[2])
    except BadLine:
        return None


def refused_with_28(image):
    """Whether the rules do, under the built-in table, the only one that the oracle has."""
    try:
        parse(image, BUILT_IN)
    except Refused as r:
        return r.args[0] == 28
    return False


def for_rust(lines):
    """Lines as the oracle gets them, and the images that it gets by themselves, by the places of their lines. The Rust doesn't read the
    alignment field (request 1): an image that 28 refuses is exchanged for one of no bytes, which 30 answers too."""
    out, images = asked(lines), {}
    for at, line in enumerate(out):
        image = image_of(line)
        if image is not None and refused_with_28(image):
            words = line.split(b' ')
            out[at], images[at] = b' '.join(words[:3] + [b'-'] + words[4:]), image
    return out, images


def on_one_line(lines):
    return ';'.join(lines).encode()


def with_28(image, listed):
    """What the Rust lists, as it is compared: `refused=28` for an image that the rules refuse so, if without 28 they list it the
    same."""
    if listing(image) != ['refused=28']:
        return listed
    without = on_one_line(listing(image, alignment=False))
    BY_28.update(images=1, listed=not listed.startswith(b'refused'))
    return b'refused=28' if listed == without else listed + b' (the rules without 28: ' + without + b')'


def by_28():
    """What `with_28` counted."""
    return ', %(images)d images refused with 28 (%(listed)d of them listed by the Rust)' % BY_28 if BY_28['images'] else ''


def answers(command, lines):
    """The answers of a command to script lines; one more if it failed. The oracle gets the lines as `for_rust` says; if it lists one of
    those images otherwise than the rules, that is its answer."""
    lines, images = for_rust(lines) if is_oracle(command) else (lines, {})
    out, failed = run(command, b'\n'.join(lines) + b'\n')
    got = whole(out) + ([failed.encode()] if failed else [])
    for (at, image), listed in zip(images.items(), listings(command + ' lists', list(images.values())) if images else []):
        if listed != on_one_line(listing(image)):
            got[at:at + 1] = [listed]
    return got


def without_address(answer):
    found = ADDRESS.match(answer)
    return found[1] + answer[found.end():] if found else answer


def of_both(a, b, x, y):
    """What both answered, as it is compared: beside the Rust, which names no bad address (request 4), without it."""
    if is_oracle(a) or is_oracle(b):
        return [[without_address(answer) for answer in got] for got in (x, y)]
    return x, y


def asked(lines):
    """The lines that have an answer."""
    return [line for line in lines if line and not line.startswith(b'#')]


def difference(lines, a, b):
    """The answers of both and the place of the first difference, or None."""
    x, y = of_both(a, b, answers(a, lines), answers(b, lines))
    n = len(asked(lines))
    for i in range(max(n, len(x), len(y))):
        if i >= len(x) or i >= len(y) or x[i] != y[i]:
            return x, y, i
    return x, y, None


def both(x, y, at):
    """Both answers at a place."""
    return [got[at] if at < len(got) else b'(no answer)' for got in (x, y)]


def cut(b, n=200):
    text = b.decode('latin-1')
    return text if len(text) <= n else '%s .. (%d bytes)' % (text[:n], len(text))


def smallest(lines, a, b):
    """Fewer of the lines that still differ: each line is left out in turn, from the end."""
    i = len(lines) - 1
    while i >= 0:
        fewer = lines[:i] + lines[i + 1:]
        if asked(fewer) and difference(fewer, a, b)[2] is not None:
            lines = fewer
        i -= 1
    return lines


def report(lines, a, b, where, first):
    """Print the first difference with the lines around it, and a smaller script that shows it.
    `first` has both answers where they differed in the run that found it."""
    x, y, at = difference(lines, a, b)
    if at is None:
        print('%s: differed in a longer run, and not by itself:\n    A %s\n    B %s' % (where, *map(cut, first)))
        return
    calls = asked(lines)
    print('%s: first difference at call %d' % (where, at + 1))
    for i in range(max(0, at - 4), min(len(calls), at + 3)):
        print('%s %s' % ('>' if i == at else ' ', cut(calls[i])))
        print('    A %s\n    B %s' % tuple(map(cut, both(x, y, i))))
    if at >= len(calls):
        print('    A %s\n    B %s' % tuple(map(cut, both(x, y, at))))
    small = smallest(calls[:at + 1], a, b)
    file = os.path.join(ROOT, 'target', 'compare-difference.txt')
    os.makedirs(os.path.dirname(file), exist_ok=True)
    with open(file, 'wb') as f:
        f.write(b'\n'.join(small) + b'\n')
    print('a script of %d lines that differs: %s' % (len(small), file))


def handed(line):
    """The set that an accepted line `numbers` hands over, or the table of a line `flags`."""
    name, *words = line.split(b' ')
    if len(words) > 1:
        return tuple(map(int, words))
    return read(bytes_of(*words)).numbers if name == b'numbers' else read_table(bytes_of(*words))


class Count:
    """What was called and answered."""

    def __init__(self):
        self.calls, self.kinds, self.aouts, self.sums = Counter(), Counter(), Counter(), 0
        self.handed = {'numbers': set(), 'flags': set()}
        NEEDS.clear()
        BY_28.clear()

    def add(self, lines, got):
        for line, answer in zip(asked(lines), got):
            name = line.split(b' ')[0].decode('latin-1')
            if name in COUNTED:
                self.calls[name] += 1
                words = answer.split(b' ')
                kind = words[0].decode('latin-1')
                if kind in ('refused', 'ended'):
                    kind += ' ' + words[1].decode('latin-1')
                self.kinds[kind] += 1
                if OPTIONS['--aouts'].match(line):
                    self.aouts[name] += 1
                    self.aouts[name, kind] += 1
            elif name == 'sum':
                self.sums += 1
            elif name in self.handed and answer == b'ok':
                self.handed[name].add(handed(line))

    def under(self):
        """What was handed to the calls beside the deposit machine's numbers and the built-in table."""
        sets, tables = self.handed['numbers'] - {DEPOSIT.numbers}, self.handed['flags'] - {BUILT_IN}
        kept = sum(map(table_ok, tables))
        counts = (len(sets), 'other sets'), (kept, 'other tables'), (len(tables) - kept, 'tables that break a rule')
        said = ', '.join('%d %s' % count for count in counts if count[0])
        return said and ' under ' + said

    def show(self, what, seconds):
        made = sum(self.calls.values())
        print('%s: no difference in %d calls and %d sums%s%s, %.0f s' % (what, made, self.sums, self.under(), by_28(), seconds))
        print('  calls: ' + ', '.join('%s %d' % (n, self.calls[n]) for n in COUNTED if self.calls[n]))
        order = sorted(self.kinds, key=lambda k: (k.split()[0], int(k.split()[1]) if ' ' in k else 0))
        print('  answers: ' + ', '.join('%s: %d' % (k, self.kinds[k]) for k in order))
        if self.aouts:
            print('  of a.outs: ' + ', '.join('%s %d, %d of them ok' % (n, self.aouts[n], self.aouts[n, 'ok']) for n in TEN[:2]))
        if NEEDS:
            print('  by the needs of the harness: %d forks accepted, %d replaces ended' % (NEEDS['forks'], NEEDS['replaces']))


def history(seed, k, small, sets, tables, aouts, bad):
    r = random.Random('%s/%d' % (seed, k))
    setup = random_set(r) if sets and r.random() < 0.75 else DEPOSIT
    if tables:
        setup = setup._replace(flags=random_table(r, [TEXT]))
    return History(r, CALLS_A_HISTORY, small, setup, tables, aouts, bad).lines


def compare_random(seed, count, a, b, small, sets=False, tables=False, aouts=False, bad=False, explain=True):
    begin, total = time.time(), Count()
    k = 0
    while sum(total.calls.values()) < count:
        many = [history(seed, k + i, small, sets, tables, aouts, bad) for i in range(HISTORIES_A_RUN)]
        lines = [line for h in many for line in h]
        x, y, at = difference(lines, a, b)
        if at is not None and not explain:
            return False
        if at is not None:
            # The history that differs, by itself.
            first = both(x, y, at)
            for i, h in enumerate(many):
                at -= len(asked(h))
                if at < 0 or i == len(many) - 1:
                    report(h, a, b, 'seed %s, history %d' % (seed, k + i), first)
                    return False
        total.add(lines, x)
        k += HISTORIES_A_RUN
    total.show('seed %s, %d histories' % (seed, k), time.time() - begin)
    return True


def script_lines(file):
    with open(file, 'rb') as f:
        return f.read().split(b'\n')


def recorded_scripts(options):
    """The scripts of tests/replay. Without `--sets`, those without a line `numbers`; without `--tables`, those without a line `flags`;
    without `--aouts`, those without an a.out."""
    files = [os.path.join(REPLAY, n) for n in sorted(os.listdir(REPLAY)) if n.endswith('.txt')]
    left_out = [has for option, has in OPTIONS.items() if option not in options]
    return [f for f in files if not any(has.match(line) for line in script_lines(f) for has in left_out)]


def directed_scripts(options):
    """Those that directed.py writes: all but the recorded random histories."""
    return [f for f in recorded_scripts(options) if not os.path.basename(f).startswith('random-')]


def compare_recorded(a, options):
    files = recorded_scripts(options)
    for file in files:
        lines = script_lines(file)
        with open(file[:-4] + '.out', 'rb') as f:
            x, y = of_both(a, a, whole(f.read()), answers(a, lines))
        at = next((i for i in range(max(len(x), len(y))) if x[i:i + 1] != y[i:i + 1]), None)
        if at is not None:
            print('%s: first difference at call %d\n> %s\n    recorded %s\n    A %s' % (
                os.path.relpath(file, ROOT), at + 1, cut(b''.join(asked(lines)[at:at + 1])), *map(cut, both(x, y, at))))
            return False
    print('%s: %d recorded scripts, the same answers%s' % (os.path.basename(a), len(files), by_28()))
    return True


def compare_directed(a, b, files, options=(), explain=True):
    begin, total = time.time(), Count()
    files = files or directed_scripts(options)
    fine = True
    for file in files:
        lines = script_lines(file)
        x, y, at = difference(lines, a, b)
        if at is not None and not explain:
            return False
        if at is not None:
            report(lines, a, b, os.path.relpath(file, ROOT), both(x, y, at))
            fine = False
        total.add(lines, x)
    if fine:
        total.show('%d directed scripts' % len(files), time.time() - begin)
    return fine


def compare_books(a, b):
    begin, judged = time.time(), Counter()
    for first, cases in (books.changes(), books.sizes()):
        encoded = lambda lines: [line.encode() for line in lines]
        lines = encoded(first + [line for case in cases for line in case])
        x, y, at = difference(lines, a, b)
        if at is not None:
            # The case that differs, by itself.
            answer, at = both(x, y, at), at - len(first)
            for i, case in enumerate(cases):
                at -= len(case)
                if at < 0 or i == len(cases) - 1:
                    report(encoded(first + case), a, b, 'books', answer)
                    return False
        judged.update(answer.decode() for line, answer in zip(lines, x) if line.startswith((b'range', b'end')))
    print('books: no difference in %d books, %.0f s' % (sum(judged.values()), time.time() - begin))
    print('  answers: ' + ', '.join('%s: %d' % (k, judged[k]) for k in sorted(judged)))
    return True


def images_to_list(seed, count):
    """Every prefix and every one-byte change of the example, the images of the directed script and of the listing's cases, random
    images."""
    yield from (EXAMPLE[:n] for n in range(len(EXAMPLE) + 1))
    yield from (change(EXAMPLE, at, 1, v) for at in range(len(EXAMPLE)) for v in range(256) if v != EXAMPLE[at])
    yield from (EXAMPLE + bytes(n - len(EXAMPLE)) for n in (32768, 32769))
    with open(os.path.join(REPLAY, 'images.txt'), 'rb') as f:
        lines = (line.split() for line in f)
        yield from (bytes_of(words[3]) for words in lines if words[:1] == [b'start'])
    yield from (image for _, image, _ in read_cases())
    r = random.Random('images/%s' % seed)
    for _ in range(count):
        yield r.choice([any_image, random_image])(r, 'big' if r.random() < 0.1 else 'plain')


def listings(command, images):
    if command.endswith(' lists'):
        out, failed = run(command, b''.join(shown(i).encode() + b'\n' for i in images))
        got = out.split(b'\n')[:-1]
        got += [failed.encode()] * (len(images) - len(got))
    else:
        both = (run(command, i) for i in images)
        got = [(out.rstrip(b'\n').replace(b'\n', b';') + failed.encode()) for out, failed in both]
    return list(map(with_28, images, got)) if is_oracle(command) else got


def compare_images(seed, count, a, b):
    begin, kinds, n = time.time(), Counter(), 0
    BY_28.clear()
    images = list(images_to_list(seed, count))
    for at in range(0, len(images), 5000):
        part = images[at:at + 5000]
        for image, x, y in zip(part, listings(a, part), listings(b, part)):
            n += 1
            if x != y:
                print('image %d differs:\n  %s\n  A %s\n  B %s' % (n, shown(image), x.decode(), y.decode()))
                return False
            kinds[x.decode().split(';')[0] if x.startswith(b'refused') else 'listed'] += 1
    print('seed %s: no difference in the listings of %d images%s, %.0f s' % (seed, n, by_28(), time.time() - begin))
    print('  ' + ', '.join('%s: %d' % (k, kinds[k]) for k in sorted(kinds, key=lambda k: (len(k), k))))
    return True


def main(argv):
    options = [a for a in argv if a in DRAWN]
    argv = [a for a in argv if a not in options]
    small, *drawn = (option in options for option in DRAWN)
    if len(argv) == 5 and argv[0] == 'random':
        return compare_random(argv[1], int(argv[2]), argv[3], argv[4], small, *drawn)
    if len(argv) >= 3 and argv[0] == 'directed':
        return compare_directed(argv[1], argv[2], argv[3:], options)
    if len(argv) == 2 and argv[0] == 'recorded':
        return compare_recorded(argv[1], options)
    if len(argv) == 3 and argv[0] == 'books':
        return compare_books(argv[1], argv[2])
    if len(argv) == 5 and argv[0] == 'images':
        return compare_images(argv[1], int(argv[2]), argv[3], argv[4])
    if len(argv) == 3 and argv[0] == 'write':
        made, k = 0, 0
        while made < int(argv[2]):
            lines = history(argv[1], k, small, *drawn)
            sys.stdout.buffer.write(b'\n'.join(lines) + b'\n')
            made += sum(line.split(b' ')[0].decode() in COUNTED for line in lines)
            k += 1
        return True
    sys.exit(__doc__)


if __name__ == '__main__':
    sys.exit(0 if main(sys.argv[1:]) else 1)
