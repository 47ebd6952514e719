"""What a program writes for an input, which is given as a file, or through a pipe in pieces."""
import subprocess
import sys
import tempfile
import time


def from_file(command, data, **how):
    with tempfile.TemporaryFile() as file:
        file.write(data)
        file.seek(0)
        return subprocess.run(command, stdin=file, capture_output=True, **how).stdout


def in_pieces(command, data, size, pause=0, **how):
    """Each piece is written by itself; `pause` lets the program read it before the next one comes."""
    with tempfile.TemporaryFile() as out:
        process = subprocess.Popen(command, stdin=subprocess.PIPE, stdout=out, bufsize=0, **how)
        try:
            for at in range(0, len(data), size):
                process.stdin.write(data[at:at + size])
                time.sleep(pause)
        except BrokenPipeError:
            # A program may stop reading once the input is too long.
            pass
        process.stdin.close()
        process.wait()
        out.seek(0)
        return out.read()


FILE_MAX = 4096  # the longest file of lines that is read


def at_longest(whole):
    """A file with line feeds behind it, around the longest length that is read, and far longer."""
    return [whole + b'\n' * (n - len(whole)) for n in (FILE_MAX - 1, FILE_MAX, FILE_MAX + 1, 10 * FILE_MAX)]


def compare(name, command, files, printed):
    """Runs a program on files of lines, from a file and in pieces, and compares what it prints with `printed`; 1 where it differs."""
    bad = runs = 0
    for text in files:
        wanted = printed(text)
        for way, out in ('a file', from_file(command, text)), ('pieces of 61', in_pieces(command, text, 61)):
            runs += 1
            if out != wanted:
                print(f'against.py: {text!r:.200} from {way}: {out!r}, not {wanted!r}', file=sys.stderr)
                bad += 1
    if not bad:
        print(f'{name}: {command[0]}: {runs} runs, all as the model says')
    return min(bad, 1)
