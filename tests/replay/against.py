#!/usr/bin/env python3
"""Runs a replay program on every script here, and compares what it answers with the recorded answers.

  against.py PROGRAM [ARGUMENT..]     as against.py ../../target/bin/replay

Standard input is a file, then a pipe that is written in pieces. Scripts that are too long to be kept are made here, and answered
by ../compare/model.py. All run on a stack of 8 MiB.
"""
import functools
import os
import resource
import sys
import tempfile
import time

HERE = os.path.dirname(os.path.abspath(__file__))
ROOT = os.path.dirname(os.path.dirname(HERE))
sys.path.insert(0, os.path.join(ROOT, 'tests', 'compare'))
import aout  # noqa: E402
import feed  # noqa: E402
from rules.flags import BUILT_IN, table_lines  # noqa: E402
from rules.setup import Setup, written  # noqa: E402
from script import FILE_MAX, LINE_MAX, Script  # noqa: E402

STACK = 8 << 20


def small_stack():
    resource.setrlimit(resource.RLIMIT_STACK, (STACK, resource.getrlimit(resource.RLIMIT_STACK)[1]))


from_file = functools.partial(feed.from_file, cwd=ROOT, preexec_fn=small_stack)
in_pieces = functools.partial(feed.in_pieces, cwd=ROOT, preexec_fn=small_stack)


def answered(script):
    """The model's answers."""
    model = Script()
    os.chdir(ROOT)
    return b''.join(a.encode() + b'\n' for a in map(model.answer, script.split(b'\n')) if a is not None)


def recorded():
    """Each script with its answers."""
    for name in sorted(os.listdir(HERE)):
        if name.endswith('.txt'):
            with open(os.path.join(HERE, name), 'rb') as script, open(os.path.join(HERE, name[:-4] + '.out'), 'rb') as out:
                yield name, script.read(), out.read()


def made(folder):
    """Lines, files and arguments at the limits of the form."""
    def file(name, data):
        path = os.path.join(folder, name)
        with open(path, 'wb') as f:
            f.write(data)
        return b'@' + path.encode()
    with open(os.path.join(ROOT, 'tests', 'compare', 'example.elf'), 'rb') as f:
        example = f.read()
    elf = file('elf', example)
    most, over = file('most', example + bytes(FILE_MAX - len(example))), file('over', bytes(FILE_MAX + 1))
    name, nul, letters = file('name', b'/bin/' + b'x' * 100000), file('nul', b'a\0'), file('letters', b'a' * 5000)
    empty = file('empty', b'')
    full = b"to 1 69632 '" + b'x' * (LINE_MAX - 12)
    yield 'lines', b'\n'.join([
        b'frames 40', b"start 1 'x " + elf, full[:LINE_MAX - 60000], full, full + b'x', b'#' * 200000, b'x' * 200000,
        b' ' * LINE_MAX, b"start 2 'x " + elf + b' -' * 453, b"start 3 'x " + elf + b' -' * 454,
        b"start 3 'x " + elf + b' -' * 20000, b'fork 1 3' + b' 1 2 3' * 9000, b'fork 1 3' + b' 1 2 3' * 17, b'sum',
        b'map 1', b'map 2', b'map 3', b'map 17'])
    top, low = b'140737488355328', b'140737488338944'
    yield 'files', b'\n'.join([
        b'frames 600', b'start 1 ' + name + b' ' + most + b' ' + empty, b'map 1', b'start 2 ' + most + b' ' + elf, b'map 2',
        b'sum', b"start 3 'x " + over, b'start 3 ' + over + b' ' + elf, b"start 3 'x " + elf + b' ' + over,
        b"start 3 'x " + elf + b' ' + nul, b"start 3 'x " + elf + b' ' + letters,
        b"start 3 'x " + elf + b' ' + letters + b' ' + nul, b"start 3 'x " + elf + b' ' + most,
        b'push 1 0 ' + top + b' ' + letters, b'push 1 0 ' + top + b' ' + nul, b'push 1 0 ' + top + b' ' + empty,
        b'to 1 69632 @' + folder.encode(), b'to 1 69632 ' + empty, b'to 1 69632 @', b'to 1 69632 @' + b'x' * 5000,
        b'to 1 ' + low + b' ' + elf, b'to 1 69632 ' + over, b'from 1 ' + low + b' 184', b'name ' + name, b'name ' + most,
        b'replace 1 ' + name + b' ' + elf + b' 140737488355304', b'to 1 69632 ' + most, b'sum'])
    yield 'book', b'\n'.join([
        b'frames 1025', b'word 17424 7', b'word 17425 0', b'word 17424 0', b'lend 4198400 17425', b'lend 4198400 17426',
        b'lend 4198401 17425', b'end 1', b'lend 4194304 17409', b'end 1', b'lend 4194304 17408', b"start 1 'x " + elf,
        *(b'fork %d %d' % (n, n + 1) for n in range(1, 16)), b'break 16 3874817', b'break 16 3874816', b'map 1', b'map 16',
        b'sum', b'word 17407 17', b'end 1', b'word 17407 16', b'end 1', b'end 15', b'map 16', b'sum',
        *(b'word %d 1' % (17 * i + n) for i in range(1024) for n in range(15)), b'map 16', b'end 16'])
    school = written(Setup(4096, 65536, 8192, 65536))
    yield 'numbers', b'\n'.join([
        b'rule 0 0 0 0', b'rule 0 53248 99 53249', b'numbers ' + file('school', school), b'rule 0 53248 99 53249', b'start 1 - -',
        b'numbers ' + file('long', school + bytes(FILE_MAX - len(school))), b'numbers ' + over, b'numbers ' + empty, b'numbers ' + elf,
        b'numbers ' + file('broken', school.replace(b'8192', b'8193')), b'rule 0 53248 99 53249', b'numbers 0 0 0 0', b'rule 0 0 0 0',
        b'start 1 - -', b'frames 7', b'rule 0 53248 99 53249', b'start 1 - ' + elf, b'sum'])
    partner = table_lines(BUILT_IN).replace(b'6=data', b'6=rodata')
    yield 'flags', b'\n'.join([
        b'rule 0 0 0 0', b'frames 9', b'flags ' + file('partner', partner), b'start 1 - ' + elf, b'map 1', b'fork 1 2', b'end 1',
        b'end 2', b'flags ' + file('long-table', partner + bytes(FILE_MAX - len(partner))), b'flags ' + over, b'flags ' + empty,
        b'flags ' + elf, b'flags ' + file('no-end', partner[:-1]), b'flags ' + file('row-7', partner.replace(b'7=refused', b'7=text')),
        b'start 1 - ' + elf, b'range 1 69632 1 w', b'flags' + b' 0' * 8, b'start 2 - ' + elf, b'flags' + b' 0' * 30000,
        b'flags' + b' 255' * 8, b'start 1 - -', b'rule 0 0 0 0', b'numbers 0 0 0 0', b'rule 0 0 0 0', b'frames 7', b'rule 0 0 0 0',
        b'start 1 - ' + elf, b'map 1', b'sum'])
    long_text = bytes(range(1, 250)) * (FILE_MAX // 249 + 1)
    def of_text(size):
        return aout.build(long_text[:size - aout.HEADER])
    said = b'aout=%d ' % aout.MAGIC
    small, whole, cut = file('aout', aout.EXAMPLE), file('whole', of_text(FILE_MAX)), file('cut', of_text(FILE_MAX)[:-1])
    behind = file('behind', aout.EXAMPLE + bytes(FILE_MAX - len(aout.EXAMPLE)))
    # A line of as many bytes as there may be.
    long_line = b"start 5 'xy " + said + of_text(32757).hex().encode()
    yield 'aouts', b'\n'.join([
        b'frames 600', b"start 1 'x " + said + small, b'map 1', b"start 2 'x " + said + whole, b'break 2 0', b'from 2 2162680 8',
        b'from 2 2162687 2', b"start 2 'x " + said + cut, b"start 2 'x " + said + over, b"start 2 'x " + said + empty,
        b"start 2 'x " + said + elf, b"start 2 'x " + said + behind + b' -' * 453, b"start 3 'x aout=" + b'0' * 60000 + said[5:] + small,
        b"start 4 'x aout=" + b'9' * 60000 + b' ' + small, b"start 4 'x aout=" + b'0' * 66000 + said[5:] + small, long_line,
        long_line.replace(b'start 5', b'start 55'), b'map 5', b'sum', b'replace 1 ' + name + b' ' + said + whole + b' 140737488355320',
        b'sum', b'fork 1 6', b'sum', b'replace 2 ' + name + b' ' + said + small + b' 140737488351240', b'sum',
        b'replace 1 ' + name + b' ' + said + cut + b' 140737488355320', b'replace 1 - ' + elf + b' 140737488355320', b'sum'])
    yield 'tails', b'frames 1\n\n\n#\nsum\nend 1\r\nsum\0\nname \'\xff\xfe\nmap 1'
    yield 'nothing', b''
    yield 'a line feed', b'\n'


def short(command):
    """How long a thousand short calls take, beside the program's own start."""
    lines = [b'frames 1024', b"start 1 'lex @tests/compare/example.elf"]
    for i in range(250):
        lines += [b'break 1 %d' % (77824 + 4096 * (i % 5)), b'from 1 69632 8', b'range 1 65536 100 r', b'string 1 65536 4']
    best = 9
    for _ in range(3):
        start = time.time()
        from_file(command, b'\n'.join(lines) + b'\n')
        best = min(best, time.time() - start)
    return best


def main(command):
    command[0] = os.path.abspath(command[0])
    bad = runs = 0
    with tempfile.TemporaryDirectory() as folder:
        scripts = list(recorded())
        for name, script, wanted in scripts + [(name, script, answered(script)) for name, script in made(folder)]:
            ways = [('a file', from_file(command, script)), ('pieces of 65536', in_pieces(command, script, 65536)),
                    ('pieces of 4095', in_pieces(command, script, 4095)),
                    ('no last line feed', from_file(command, script.rstrip(b'\n')))]
            if len(script) < 4500:
                ways.append(('pieces of 7', in_pieces(command, script, 7, 0.0002)))
            for way, out in ways:
                runs += 1
                if out != wanted:
                    a, b = out.split(b'\n'), wanted.split(b'\n')
                    at = next(i for i in range(max(len(a), len(b)) + 1) if a[i:i + 1] != b[i:i + 1])
                    print(f'against.py: {name} from {way}: answer {at + 1} is {a[at:at + 1]!r:.200}, not {b[at:at + 1]!r:.200}',
                          file=sys.stderr)
                    bad += 1
    took = short(command)
    if took > 1:
        print(f'against.py: a thousand short calls took {took:.2f} s', file=sys.stderr)
        bad += 1
    if not bad:
        print(f'replay: {os.path.relpath(command[0], ROOT)}: {runs} runs of {len(scripts)} recorded scripts and others, '
              f'all as answered; a thousand short calls in {1000 * took:.0f} ms')
    return min(bad, 1)


if __name__ == '__main__':
    if len(sys.argv) < 2:
        sys.exit(__doc__)
    sys.exit(main(sys.argv[1:]))
