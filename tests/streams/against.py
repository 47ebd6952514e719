#!/usr/bin/env python3
"""An error is never a verdict: runs each program with an input or an output that fails.

  against.py DIR     as against.py ../../target/bin

Where reading fails, a program writes nothing for what it had not read whole, and where writing fails, nothing behind that; one line on
standard error says which of the two it was, and why, and the status is 1. An input that fails half-way has a beginning that would be
accepted by itself. No contract can say any of this, since a contract knows nothing of what the C library's read and write do.
"""
import contextlib
import os
import pathlib
import pty
import resource
import signal
import subprocess
import sys
import tempfile
import tty

ROOT = pathlib.Path(__file__).resolve().parents[2]
CRATES = ROOT / 'crates'

# What each program is given that it accepts; for a script also what is answered where the last line lacks its end.
INPUTS = {name: (CRATES / name / 'stdin').read_bytes() for name in ('numbers', 'flags', 'listing')}
INPUTS['replay'] = b'frames 3\nframes 2'
ANSWERED = {'numbers': b'', 'flags': b'', 'listing': b'', 'replay': b'ok\n'}


# ---- inputs; each gives a descriptor, or None for none

@contextlib.contextmanager
def directory(_):
    fd = os.open('/', os.O_RDONLY)
    yield fd
    os.close(fd)


@contextlib.contextmanager
def closed(_):
    yield None


@contextlib.contextmanager
def for_writing(_):
    with tempfile.NamedTemporaryFile() as file:
        fd = os.open(file.name, os.O_WRONLY)
        yield fd
        os.close(fd)


@contextlib.contextmanager
def silent_pipe(data):
    """A pipe with these bytes in it, read without waiting: behind them a read fails."""
    ours, theirs = os.pipe()
    os.write(theirs, data)
    os.set_blocking(ours, False)
    yield ours
    os.close(ours)
    os.close(theirs)


@contextlib.contextmanager
def hung_up(data):
    """A terminal whose other end is closed behind these bytes: then a read fails."""
    ours, theirs = pty.openpty()
    tty.setraw(theirs)
    os.write(theirs, data)
    os.close(theirs)
    yield ours
    os.close(ours)


def run(command, read, write, folder=None, files=None):
    """Status and standard error of a run with these descriptors, None for a closed one; with at most `files` bytes in a file that it
    writes."""
    def prepare():
        signal.signal(signal.SIGPIPE, signal.SIG_IGN)
        signal.signal(signal.SIGXFSZ, signal.SIG_IGN)
        if files is not None:
            resource.setrlimit(resource.RLIMIT_FSIZE, (files, files))
        for fd, given in (0, read), (1, write):
            if given is None:
                os.close(fd)
    done = subprocess.run(command, stdin=read, stdout=write, stderr=subprocess.PIPE, cwd=folder, preexec_fn=prepare, timeout=60)
    return done.returncode, done.stderr


# ---- outputs; each gives a descriptor, or None, how many bytes a file may have, and what was written

@contextlib.contextmanager
def into_file(most=None):
    with tempfile.TemporaryFile() as file:
        def written():
            file.seek(0)
            return file.read()
        yield file.fileno(), most, written


@contextlib.contextmanager
def full():
    fd = os.open('/dev/full', os.O_WRONLY)
    yield fd, None, bytes
    os.close(fd)


@contextlib.contextmanager
def unread_pipe():
    ours, theirs = os.pipe()
    os.close(ours)
    yield theirs, None, bytes
    os.close(theirs)


@contextlib.contextmanager
def shut():
    yield None, None, bytes


def half_full():
    return into_file(5)


FAILING_INPUTS = [(directory, b'Is a directory (os error 21)'), (closed, b'Bad file descriptor (os error 9)'),
                  (for_writing, b'Bad file descriptor (os error 9)'),
                  (silent_pipe, b'Resource temporarily unavailable (os error 11)'), (hung_up, b'Input/output error (os error 5)')]
FAILING_OUTPUTS = [(full, b'No space left on device (os error 28)'), (unread_pipe, b'Broken pipe (os error 32)'),
                   (shut, b'Bad file descriptor (os error 9)'), (half_full, b'File too large (os error 27)')]


def there(ways, *data):
    """Those of the ways that this machine has: a terminal or /dev/full may be missing."""
    found = []
    for make, why in ways:
        try:
            with make(*data):
                found.append((make, why))
        except OSError as error:
            print(f'streams: {make.__name__}: skipped: {error}')
    return found


class Tally:
    def __init__(self):
        self.runs = self.bad = 0

    def told(self, what, got, wanted):
        self.runs += 1
        if got != wanted:
            print(f'streams: {what}: {got!r}, not {wanted!r}', file=sys.stderr)
            self.bad += 1


NOTHING_SAID = 0, b''


def line(name, part, why):
    """The status of a run that fails, and its line."""
    return 1, b'%s: %s: %s\n' % (name.encode(), part, why)


def failing_reads(tally, name, program, ways):
    data = INPUTS[name]
    for make, why in ways:
        with make(data) as read, into_file() as (write, _, written):
            said = run([program], read, write)
            answered = ANSWERED[name] if make in (silent_pipe, hung_up) else b''
            tally.told(f'{name} reads: {make.__name__}', (written(), said), (answered, line(name, b'standard input', why)))


def failing_writes(tally, name, program, ways, folder, whole):
    for make, why in ways:
        with tempfile.TemporaryFile() as file, make() as (write, most, written):
            file.write(INPUTS.get(name, b''))
            file.seek(0)
            said = run([program], file.fileno(), write, folder, most)
            tally.told(f'{name} writes: {make.__name__}', (written(), said),
                       (whole[:most] if most else b'', line(name, b'standard output', why)))


def whole_runs(tally, name, program):
    """Where nothing fails, standard error stays empty, and the answer is that of the whole input."""
    with tempfile.TemporaryFile() as file, into_file() as (write, _, written):
        file.write(INPUTS[name])
        file.seek(0)
        said = run([program], file.fileno(), write)
        tally.told(f'{name}: nothing fails', (bool(written()), said), (True, NOTHING_SAID))
        return written()


def failing_cases(tally, program, ways):
    """listing_cases, which reads the file `cases`: missing, a directory, and cut short in each part of an image."""
    name = 'listing_cases'
    whole = (CRATES / name / 'data' / 'cases').read_bytes()
    first = 4 + whole[0] + int.from_bytes(whole[1:4], 'little')
    listed = (CRATES / name / 'stdout').read_bytes()
    # No read failed: the file is short. That is said, and is no error.
    cut = 0, line(name, b'cases', b'it ends within an image')[1]
    with tempfile.TemporaryDirectory() as folder:
        def tried(what, said, lines):
            with into_file() as (write, _, written):
                tally.told(f'{name}: {what}', (run([program], None, write, folder), written()), (said, lines))
        cases = pathlib.Path(folder, 'cases')
        tried('no file', line(name, b'cases', b'No such file or directory (os error 2)'), b'')
        cases.mkdir()
        tried('a directory', line(name, b'cases', b'Is a directory (os error 21)'), b'')
        cases.rmdir()
        for what, n in ('head', 3), ('name', 4 + whole[0] - 1), ('image', first - 1):
            cases.write_bytes(whole[:n])
            tried(f'cut in the {what}', cut, b'')
        cases.write_bytes(whole[:first])
        with into_file() as (write, _, written):
            said, only = run([program], None, write, folder), written()
        tally.told(f'{name}: one image', (said, listed.startswith(only) and len(only) > 0), (NOTHING_SAID, True))
        cases.write_bytes(whole[:first + 2])
        tried('cut in the second head', cut, only)
        long = bytes([1]) + (40000).to_bytes(3, 'little') + b'x'
        cases.write_bytes(whole[:first] + long + bytes(39999))
        tried('cut in what is dropped', cut, only)
        cases.write_bytes(whole[:first])
        failing_writes(tally, name, program, ways, folder, only)


def main(programs):
    tally = Tally()
    inputs, outputs = there(FAILING_INPUTS, b''), there(FAILING_OUTPUTS)
    for name in INPUTS:
        program = os.path.join(programs, name)
        whole = whole_runs(tally, name, program)
        failing_reads(tally, name, program, inputs)
        failing_writes(tally, name, program, outputs, None, whole)
    failing_cases(tally, os.path.join(programs, 'listing_cases'), outputs)
    if not tally.bad:
        print(f'streams: {tally.runs} runs of five programs: no error was a verdict')
    return min(tally.bad, 1)


if __name__ == '__main__':
    if len(sys.argv) != 2:
        sys.exit(__doc__)
    sys.exit(main(os.path.abspath(sys.argv[1])))
