#!/usr/bin/env python3
"""Shows that the recorded scripts can fail: each edit of misreadings.txt, which has the model misread the rules, must change answers.

    misread.py [--all]    --all names every script that notices an edit, and not only the first

Each edit is made in a copy of the model outside the repository, and the scripts of its request are run through it: those of
alignments for request 1, that of pages for request 3, those of bad addresses for request 4, those with a line `flags` for request 7,
those with an a.out for request 9. Start and replace answer 30 for most of an image's numbers alike, so for request 1 the listing's
cases follow, and for request 9 the cases of the reader of a.outs by itself, tests/images/aouts.txt.
"""
import os
import re
import shutil
import subprocess
import sys
import tempfile

HERE = os.path.dirname(os.path.abspath(__file__))
ROOT = os.path.dirname(os.path.dirname(HERE))
REPLAY, IMAGES = (os.path.join(ROOT, 'tests', name) for name in ('replay', 'images'))
sys.path.insert(0, IMAGES)
from readelf_check import read_cases  # noqa: E402

MODEL = 'model.py', 'script.py', 'rules'
# Of each request, a line that its scripts have.
LINES = {'Request 1': re.compile(rb'^# Alignments', re.M), 'Request 3': re.compile(rb'^# Pages', re.M),
         'Request 4': re.compile(rb'^# Bad addresses', re.M), 'Request 7': re.compile(rb'^flags', re.M),
         'Request 9': re.compile(rb'^(start|replace) [^ ]+ [^ ]+ aout=', re.M)}


def edits():
    """Each edit's request, what it is, and its texts: file, old and new."""
    with open(os.path.join(HERE, 'misreadings.txt')) as f:
        blocks = f.read().strip().split('\n\n')[1:]
    for about, *lines in (block.split('\n') for block in blocks):
        if about.startswith('## '):
            request = about[3:]
            continue
        changes = []
        for line in lines:
            if line.startswith('- '):
                changes.append((file, line[2:], []))
            elif line.startswith('+ '):
                changes[-1][2].append(line[2:])
            else:
                file = line
        yield request, about[2:], [(file, old, '\n'.join(new)) for file, old, new in changes]


def recorded(folder, name):
    """Lines and their answers."""
    with open(os.path.join(folder, name), 'rb') as lines, open(os.path.join(folder, name[:-4] + '.out'), 'rb') as answers:
        return lines.read(), answers.read()


def scripts(request):
    """Each script of a request by its name, how the model is asked, and lines with their recorded answers."""
    for name in sorted(os.listdir(REPLAY)):
        if name.endswith('.txt'):
            lines, answers = recorded(REPLAY, name)
            if LINES[request].search(lines):
                yield name, [], lines, answers
    if request == 'Request 1':
        images, listings = zip(*((image.hex() or '-', ';'.join(listing)) for _, image, listing in read_cases()))
        yield "the listing's cases", ['lists'], *('\n'.join(lines + ('',)).encode() for lines in (images, listings))
    if request == 'Request 9':
        yield 'aouts.txt', ['aouts'], *recorded(IMAGES, 'aouts.txt')


def changed(folder, changes):
    """The model with an edit made, in a folder."""
    for name in MODEL:
        copy = shutil.copytree if name == 'rules' else shutil.copyfile
        copy(os.path.join(HERE, name), os.path.join(folder, name))
    for file, old, new in changes:
        path = os.path.join(folder, file)
        with open(path) as f:
            text = f.read()
        if text.count(old) != 1:
            sys.exit('%s has the old text %d times: %s' % (file, text.count(old), old))
        with open(path, 'w') as f:
            f.write(text.replace(old, new))
    return os.path.join(folder, 'model.py')


def noticed(model, request, every):
    """The scripts that a changed model answers otherwise. A model that fails is no misreading."""
    names = []
    for name, words, lines, answers in scripts(request):
        run = subprocess.run([sys.executable, '-B', model, *words], input=lines, capture_output=True, cwd=ROOT)
        if run.returncode != 0:
            sys.exit('a model that fails: ' + run.stderr.decode().strip())
        if run.stdout != answers:
            names.append(name)
        if names and not every:
            break
    return names


def main(argv):
    count = missed = 0
    for request, about, changes in edits():
        with tempfile.TemporaryDirectory(prefix='misreading-') as folder:
            names = noticed(changed(folder, changes), request, argv == ['--all'])
        count += 1
        missed += not names
        if argv == ['--all'] or not names:
            print('%2d %-68s %s' % (count, about, ', '.join(names) or 'NOT NOTICED'), flush=True)
    print('misread: %d misreadings of the model, %d noticed' % (count, count - missed))
    return missed == 0


if __name__ == '__main__':
    if sys.argv[1:] not in ([], ['--all']):
        sys.exit(__doc__)
    sys.exit(0 if main(sys.argv[1:]) else 1)
