#!/usr/bin/env python3
"""Builds the programs of ../../docs/LINKING.md by the page's own commands, and compares what becomes of them with what it says.

  linking.py                      the model's answer (tests/compare), for each command of the page
  linking.py LISTING REPLAY       those of the proved programs too, as linking.py ../../target/bin/listing ../../target/bin/replay
  linking.py --any-version ..     with tools of other versions than the page names, too
  linking.py --file FILE ..       builds nothing: the model's answer for each file, of any length

Three things of the page are read: lines of the form NAME='TEXT', which commands use as $NAME; the tables with a column Command, each
run in a folder with the sources of linking/, and a column Result, which is `accepted` or the number that its program, a.out, is
refused with; and the commands that make `program` of `program.c`. These are tried with every source of PLAIN, or without -nostdlib of
HOSTED, as linked, with -g and stripped, and all must be accepted.

What needs a tool that is missing, or another version of it than the page names, is skipped, and a line says so.
"""
import concurrent.futures
import os
import pathlib
import re
import shlex
import shutil
import subprocess
import sys
import tempfile

HERE = pathlib.Path(__file__).resolve().parent
PAGE = HERE.parents[1] / 'docs' / 'LINKING.md'
SOURCES = HERE / 'linking'
sys.path.insert(0, str(HERE.parent / 'compare'))
from feed import from_file  # noqa: E402
from rules.layout import load, page_count  # noqa: E402
from rules.listing import listing  # noqa: E402
from rules.machine import Refused  # noqa: E402
from rules.setup import DEPOSIT  # noqa: E402
from script import Script  # noqa: E402

FRAMES = 1024
PLAIN = ['text.c', 'rodata.c', 'data.c', 'bss.c', 'both.c', 'thread.c', 'init.c', 'alone.c']
HOSTED = ['hello.c']
DRIVERS = {'aarch64-linux-gnu-gcc', 'clang'}
LINKERS = {'aarch64-linux-gnu-ld': 'GNU ld', 'aarch64-linux-gnu-ld.gold': 'gold', 'ld.lld': 'LLD'}
CHOSEN = {'-fuse-ld=gold': 'aarch64-linux-gnu-ld.gold', '-fuse-ld=lld': 'ld.lld'}
STRIP = 'aarch64-linux-gnu-strip'
LIBRARY = 'static glibc'


class Page:
    """What LINKING.md says: names, versions of tools, rows of command and result, commands for any program."""

    def __init__(self, text):
        self.names = dict(re.findall(r"^    (\w+)='(.*)'$", text, re.M))
        self.any_program = re.findall(r'^    (\S.* program\.c -o program)$', text, re.M)
        self.versions, self.rows = {}, []
        columns = []
        for line in text.split('\n'):
            cells = [c.strip() for c in line.strip('|').split('|')] if line.startswith('|') else []
            if not cells or not columns:
                columns = cells
            elif not line.startswith('|---'):
                self.row(dict(zip(columns, cells)))
        if not (self.names and self.any_program and self.versions and self.rows):
            sys.exit('linking.py: docs/LINKING.md has no names, commands, versions or rows where they are looked for')

    def row(self, row):
        if 'Version' in row:
            self.versions[row['Tool'].strip('`')] = row['Version'].strip('`')
        elif 'Command' in row:
            if not re.fullmatch('`[^`]+`', row['Command']) or not re.fullmatch('accepted|[0-9]+', row['Result']):
                sys.exit(f'linking.py: docs/LINKING.md has a row that is not one command and its result: {row}')
            self.rows.append((row['Command'].strip('`'), row['Result']))
        else:
            sys.exit(f'linking.py: docs/LINKING.md has a table with neither versions nor commands: {row}')

    def programs(self):
        """Each command, and the result that the page says."""
        yield from self.rows
        for command in self.any_program:
            for source in PLAIN if '-nostdlib' in command else HOSTED:
                build = command.replace('program.c -o program', source)
                yield from ((form, 'accepted') for form in (build, build + ' -g', f'{build} && {STRIP} a.out'))

    def needs(self, command):
        """The tools that a command runs."""
        for part in re.sub(r'\$(\w+)', lambda m: self.names.get(m.group(1), ''), command).split('&&'):
            words = shlex.split(part)
            yield words[0]
            if words[0] in DRIVERS and '-c' not in words:
                yield next((tool for flag, tool in CHOSEN.items() if flag in words), 'aarch64-linux-gnu-ld')
                if '-nostdlib' not in words:
                    yield LIBRARY


def first_line(*command):
    try:
        return subprocess.run(command, capture_output=True, text=True).stdout.split('\n')[0]
    except FileNotFoundError:
        return ''


def lacks(tool, version):
    """Why a tool can't be used, or ''."""
    if tool == LIBRARY:
        # The path of a library that is there; otherwise its bare name.
        return '' if '/' in first_line('aarch64-linux-gnu-gcc', '-print-file-name=libc.a') else 'no ' + tool
    if not shutil.which(tool):
        return 'no ' + tool
    return 'needs ' + version if version and first_line(tool, '--version') != version else ''


def choose(page, any_version):
    """The programs whose tools are there, and for each reason the number of those that are skipped."""
    found, chosen, skipped = {}, [], {}
    for command, result in page.programs():
        why = ''
        for tool in page.needs(command):
            if tool not in found:
                found[tool] = lacks(tool, '' if any_version else page.versions.get(tool, ''))
            why = why or found[tool]
        if why:
            skipped[why] = skipped.get(why, 0) + 1
        else:
            chosen.append((command, result))
    return chosen, skipped


def build(page, command, folder):
    """Runs a command in a folder with the sources; what went wrong, or ''."""
    shutil.copytree(SOURCES, folder)
    done = subprocess.run(['sh', '-ec', command], cwd=folder, env={**os.environ, **page.names, 'LC_ALL': 'C'}, capture_output=True,
                          text=True, errors='replace')
    if done.returncode or not (folder / 'a.out').is_file():
        return 'makes no program: ' + (done.stderr.strip() or 'no a.out').split('\n')[0]
    return ''


def answer(image):
    """What becomes of an image, by the model: `accepted` or a number, 33 where no number of frames suffices; and its pages."""
    try:
        _, _, ranges, bss = load(DEPOSIT, image)
    except Refused as refused:
        return str(*refused.args), 0
    pages = page_count(DEPOSIT, ranges, bss)
    return 'accepted' if pages <= FRAMES else '33', pages


def judge(page, command, result, folder):
    """What is wrong with a program of the page, or ''."""
    wrong = build(page, command, folder)
    if not wrong:
        out, _ = answer((folder / 'a.out').read_bytes())
        wrong = f'{out}, and docs/LINKING.md says {result}' if out != result else ''
    return wrong and f'{command}: {wrong}'


def listed(program, commands, images):
    """Where a listing program differs from the model."""
    for command, image in zip(commands, images):
        data = image.read_bytes()
        out, wanted = from_file([program], data).decode().split('\n')[:-1], listing(data)
        if out != wanted:
            yield f'{command}: {program} writes {out}, not {wanted}'


def started(program, commands, images):
    """Where a replay program differs from the model, with each image started in all frames."""
    lines = [b'frames %d' % FRAMES]
    for image in images:
        lines += [b"start 1 'x @%s" % bytes(image), b'end 1']
    model = Script()
    wanted = [model.answer(line) for line in lines]
    out = from_file([program], b'\n'.join(lines) + b'\n').decode().split('\n')[:-1]
    if len(out) != len(wanted):
        yield f'{program} answers {len(out)} lines of {len(wanted)}'
    for command, answers, want in zip(commands, zip(out[1::2], out[2::2]), zip(wanted[1::2], wanted[2::2])):
        if answers != want:
            yield f'{command}: {program} answers {answers}, not {want}'


def try_all(page, programs, any_version):
    chosen, skipped = choose(page, any_version)
    with tempfile.TemporaryDirectory() as folder:
        folders = [pathlib.Path(folder) / str(n) for n in range(len(chosen))]
        with concurrent.futures.ThreadPoolExecutor(os.cpu_count()) as pool:
            wrong = [w for w in pool.map(lambda c, f: judge(page, *c, f), chosen, folders) if w]
        if programs and not wrong:
            commands, images = [command for command, _ in chosen], [f / 'a.out' for f in folders]
            wrong = [*listed(os.path.abspath(programs[0]), commands, images), *started(os.path.abspath(programs[1]), commands, images)]
    for line in wrong:
        print('linking.py: ' + line, file=sys.stderr)
    for why, count in skipped.items():
        print(f'images: linking: skipped: {why} ({count} programs)')
    if chosen and not wrong:
        tools = {tool for command, _ in chosen for tool in page.needs(command)}
        linkers = [name for tool, name in LINKERS.items() if tool in tools]
        said = ', '.join(linkers[:-1]) + ' and ' * (len(linkers) > 1) + linkers[-1]
        also = f', and so {" and ".join(programs)}' if programs else ''
        print(f'images: linking: {len(chosen)} programs of {said}, as docs/LINKING.md says{also}')
    return 1 if wrong else 0


def unused(page):
    """Sources that the page and the lists above don't name."""
    named = ' '.join(command for command, _ in page.programs())
    return [source.name for source in SOURCES.iterdir() if source.name not in re.split('[ ,]', named)]


def main(arguments):
    if arguments[:1] == ['--file'] and len(arguments) > 1:
        for name in arguments[1:]:
            said, pages = answer(pathlib.Path(name).read_bytes())
            print(name + ': ' + ('' if said == 'accepted' else 'refused ') + said + (f', {pages} pages' if pages else ''))
        return 0
    any_version = arguments[:1] == ['--any-version']
    programs = arguments[any_version:]
    if len(programs) not in (0, 2):
        sys.exit(__doc__)
    page = Page(PAGE.read_text())
    if unused(page):
        sys.exit(f'linking.py: docs/LINKING.md does not name {unused(page)}')
    return try_all(page, programs, any_version)


if __name__ == '__main__':
    sys.exit(main(sys.argv[1:]))
