#!/usr/bin/env python3
"""Runs programs that the library has loaded in an emulated processor, and compares what they print with the same files under
qemu-aarch64.

  emulate.py PROCESSES DIRECTORY LINKERS     as tests/library/run has it

PROCESSES is built from processes.c, DIRECTORY by programs/build.sh, whose line is LINKERS.
"""
import functools
import pathlib
import resource
import signal
import struct
import subprocess
import sys

from processor import DATA, EVERYTHING, PAGE, PC, Failure, Library, Process, Refused

sys.path.insert(0, str(pathlib.Path(__file__).resolve().parents[1] / 'compare'))
import aout  # noqa: E402
from rules.image import parse  # noqa: E402

# The machine's numbers: those of the deposit machine, whose stack ends at 2^47, and others with a larger stack that ends at 2^27.
DEPOSIT = 65536, 1 << 47, 16384, 1 << 47
SMALL = 65536, 1 << 27, 65536, 1 << 27
BUILT_IN = 0, 0, 0, 0, 2, 1, 3, 0


class Program:
    """A file, and the image that is loaded: the file itself, or an a.out of its bytes."""

    def __init__(self, file):
        self.file = self.image = file
        self.name, self.kind = file.name, file.name.split('-')[0]
        self.magic = 0
        if self.name.endswith('-plan9'):
            self.image, self.magic = file.with_suffix('.aout'), aout.MAGIC
            self.image.write_bytes(as_aout(file.read_bytes()))

    def start(self, args, setup=DEPOSIT):
        library = Library(setup, self.image, args, self.magic)
        return library.as_linux() if self.kind == 'sorter' else library

    @functools.lru_cache
    def under_qemu(self, *args):
        """What the file prints under qemu-aarch64, and its status, negative for a signal. Linux starts no program without a name, of
        which the reader prints a line."""
        name, *words = args or ['reader']
        run = subprocess.run(['qemu-aarch64', '-0', name, str(self.file), *words], capture_output=True, timeout=60)
        return run.stdout if args else run.stdout.replace(b'read by reader\n', b''), run.returncode


def as_aout(elf):
    entry, (text, data) = parse(elf, BUILT_IN)
    return aout.build(text.file, data.file, data.memsz - len(data.file), entry=entry)


# ---- what programs print

FEW = 'reader', 'lego', 'aqua', 'W\u00f6rterbuch', '/', 'lego', 'pons', '', 'vita'
# The longest that the deposit machine takes, a quarter of its stack: with one word, and with as many words as can be.
LONG = 'reader', ('littera scripta manet ' * 200)[:4056]
MANY = 'reader', *['a'] * 406
SORT = 'sorter', *'mensa aqua lego scribo aqua vita'.split()
LISTS = {'reader': [(FEW, DEPOSIT), ((), DEPOSIT), (LONG, DEPOSIT), (MANY, DEPOSIT), (FEW, SMALL)],
         'sorter': [(SORT, DEPOSIT), (SORT, SMALL)]}


def overwrite(library, number):
    """Every byte that the process may write."""
    library.ask('fill', number, 0x5a)
    if any(held != b'\x5a' * PAGE for permission, held in library.pages(number).values() if permission == DATA):
        raise Failure('process %d is not overwritten' % number)


def family(library):
    """Process 1, and children that it has before it runs: one runs then, one after its parent's data is overwritten, and one after its
    parent has ended and a process in its frames is overwritten."""
    for child in 2, 3, 4:
        library.ask('fork', 1, child)
    yield 'process 1', Process(library, 1, library.registers)
    yield 'its child', Process(library, 2, library.registers)
    overwrite(library, 1)
    yield 'its child, after its data is overwritten,', Process(library, 3, library.registers)
    library.ask('end', 1)
    library.ask('fork', 4, 1)
    overwrite(library, 1)
    yield 'its child, after it has ended,', Process(library, 4, library.registers)


def compare_texts(program, args, setup):
    library = program.start(args, setup)
    text, status = program.under_qemu(*args)
    for who, process in family(library):
        process.run()
        if process.fault is not None:
            raise Failure('%s stops at %d' % (who, process.fault))
        if (process.printed, process.status) != (text, status):
            raise Failure('%s prints, and ends with %d:\n%s\nqemu-aarch64, with %d:\n%s' % (
                who, process.status, process.printed.decode(errors='replace'), status, text.decode(errors='replace')))
    library.close()


def compare_lists(program):
    """All lists of arguments with gcc's code, one with clang's."""
    lists = LISTS[program.kind]
    for args, setup in lists if '-gcc-' in program.name else lists[:1]:
        try:
            compare_texts(program, args, setup)
        except Failure as failure:
            raise Failure('%s, %d arguments, USTKTOP=%d: %s' % (program.name, len(args), setup[1], failure))


def refuse_longer(program):
    for args in LONG[:1] + (LONG[1] + 'x',), MANY + ('a',):
        try:
            program.start(args)
        except Refused as refused:
            if refused.number == 33:
                continue
        raise Failure('%s: longer arguments are not refused' % program.name)


# ---- pages that are not as the library gives them

def find(pages, text):
    for address, (_, held) in pages.items():
        place = (held + pages.get(address + PAGE, (0, b''))[1]).find(text)
        if 0 <= place < PAGE:
            return address + place
    raise Failure('the reader has no %r' % text)


def flipped(pages, address):
    """One bit is changed."""
    page, place = address & -PAGE, address % PAGE
    permission, held = pages[page]
    return {**pages, page: (permission, held[:place] + bytes([held[place] ^ 1]) + held[place + 1:])}


def swapped(pages, address):
    """A page and the next have each other's bytes."""
    one, other = address & -PAGE, (address & -PAGE) + PAGE
    return {**pages, one: (pages[one][0], pages[other][1]), other: (pages[other][0], pages[one][1])}


def without(pages, address):
    return {at: page for at, page in pages.items() if at != address & -PAGE}


def changes(pages, entry):
    """The pages of the reader of FEW, each time with a change: in text, read-only data, data, bss and arguments."""
    aqua = find(pages, b'aqua'.ljust(16, b'\0') + b'water')
    vita = find(pages, b'vita'.ljust(16, b'\0') + b'life')
    note = find(pages, b'no pupil has asked for aqua')
    pointer = find(pages, struct.pack('<Q', vita))
    zeros = [at for at, (_, held) in pages.items() if held == bytes(PAGE)]  # the second has the reader's `asked` alone
    argument = find(pages, FEW[3].encode())
    for at in entry, entry + 5000, aqua, vita + 20, note, pointer, zeros[1] + 100, argument:
        yield flipped(pages, at)
    for at in entry, min(aqua, vita), note:
        yield swapped(pages, at)
    for at in entry, vita, pointer, argument:
        yield without(pages, at)


def notice_changes(program):
    """Each change must make the reader print something else, or stop it. How many there are."""
    library, count = program.start(FEW), 0
    for pages in changes(library.pages(1), library.registers[PC]):
        count += 1
        library.ask('fork', 1, 2)
        process = Process(library, 2, library.registers, pages)
        try:
            process.run()
        except Failure:
            pass
        if (process.printed, process.status) == program.under_qemu(*FEW):
            raise Failure('%s prints the same after change %d' % (program.name, count))
        library.ask('end', 2)
    library.close()
    return count


# ---- accesses that the pages don't allow

FORBIDDEN = 'write-text', 'write-rodata', 'run-rodata', 'run-data', 'run-bss', 'run-stack'
NOWHERE = 'read-nowhere', 'write-nowhere', 'run-nowhere', 'stack'


def at_its_address(process, what):
    """Whether it stopped at the address that it printed, or in the page below the stack."""
    if what == 'stack':
        end = process.library.top - process.library.size
        return end - PAGE <= process.fault < end
    return process.fault == int(process.printed)


def compare_stops(program, what):
    """The processor stops process 1 and its child where qemu-aarch64 does, which gives SIGSEGV; else they end with its status. How many
    it stops."""
    _, status = program.under_qemu('faults', what)
    library, count = program.start(('faults', what)), 0
    library.ask('fork', 1, 2)
    for number in 1, 2:
        process = Process(library, number, library.registers).run()
        if process.fault is None:
            same = process.status == status
        else:
            same = status == -signal.SIGSEGV and at_its_address(process, what)
            count += 1
        if not same:
            raise Failure('%s %s: process %d ends with %s or stops at %s; under qemu-aarch64 %d' % (
                program.name, what, number, process.status, process.fault, status))
    library.close()
    return count


def need_permissions(program):
    """What is forbidden is stopped by nothing else: it isn't where every page may be written and run."""
    for what in FORBIDDEN:
        library = program.start(('faults', what))
        if Process(library, 1, library.registers, allowed=EVERYTHING).run().status != 1:
            raise Failure('%s %s is not stopped by a permission' % (program.name, what))
        library.close()


def main(directory, linkers):
    resource.setrlimit(resource.RLIMIT_CORE, (0, 0))
    programs = [Program(file) for file in sorted(pathlib.Path(directory).iterdir()) if file.suffix != '.aout']
    faults = [program for program in programs if program.kind == 'faults']
    printing = [program for program in programs if program.kind != 'faults']
    readers = [program for program in printing if program.kind == 'reader']
    for program in printing:
        compare_lists(program)
    ran = Process.count
    refuse_longer(readers[0])
    changed = sum(map(notice_changes, [r for r in readers if r.name.replace('reader', 'faults') in [f.name for f in faults]]))
    stopped = sum(compare_stops(program, what) for program in faults for what in FORBIDDEN + NOWHERE)
    need_permissions(faults[0])
    print('library: emulated: %d programs of %s, %d processes, all print what qemu-aarch64 prints; %d changes of pages noticed, '
          '%d bad accesses stopped' % (len(printing), linkers, ran, changed, stopped))


if __name__ == '__main__':
    if len(sys.argv) != 4:
        sys.exit(__doc__)
    Library.program = sys.argv[1]
    try:
        main(*sys.argv[2:])
    except Failure as failure:
        sys.exit('emulate.py: %s' % failure)
