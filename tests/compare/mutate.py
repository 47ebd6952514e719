#!/usr/bin/env python3
"""Shows that the comparison can fail: each edit of mutations.txt must be noticed.

    mutate.py ORACLE [--all] [K ..]    all edits, or the K-th ones; ORACLE is the unchanged oracle

ORACLE_SRC names the published files, as for tests/oracle/published. Each edit is made
in a copy of them outside the repository, the oracle is built from it, and compared
with the unchanged one by the directed scripts, random histories and images: by all
three with --all, else until one notices.
"""
import contextlib
import io
import os
import shutil
import subprocess
import sys
import tempfile

import compare

SEED, CALLS, IMAGES = 'mutate', 4000, 2000


def edits():
    out = []
    with open(os.path.join(compare.HERE, 'mutations.txt')) as f:
        blocks = f.read().split('\n\n')
    for block in blocks:
        lines = [line for line in block.split('\n') if line and not line.startswith('#')]
        if lines:
            file, old, new = lines
            assert old.startswith('- ') and new.startswith('+ '), block
            out.append((file, old[2:], new[2:]))
    return out


def build(src, target):
    """The oracle built from src; None if it can't be."""
    env = dict(os.environ, ORACLE_CHANGED='1', CARGO_TARGET_DIR=target)
    p = subprocess.run([os.path.join(compare.ROOT, 'tests/oracle/build'), src], env=env, capture_output=True, text=True)
    return p.stdout.strip() if p.returncode == 0 else None


def noticed(oracle, changed, every):
    """Which of the three kinds of comparison notice the change."""
    runs = {
        'directed': lambda: compare.compare_directed(oracle, changed, [], explain=False),
        'random': lambda: compare.compare_random(SEED, CALLS, oracle, changed, False, explain=False),
        'images': lambda: compare.compare_images(SEED, IMAGES, oracle + ' lists', changed + ' lists'),
    }
    kinds = []
    for kind, same in runs.items():
        with contextlib.redirect_stdout(io.StringIO()):
            if not same():
                kinds.append(kind)
        if kinds and not every:
            break
    return kinds


def main(argv):
    thorough = '--all' in argv
    oracle, *numbers = [a for a in argv if a != '--all']
    found = subprocess.run([os.path.join(compare.ROOT, 'tests/oracle/published')], capture_output=True, text=True)
    if found.returncode != 0:
        sys.exit('mutate: ' + (found.stdout or found.stderr).strip())
    published = found.stdout.strip()
    every = edits()
    chosen = [int(k) for k in numbers] or range(1, len(every) + 1)
    missed = 0
    with tempfile.TemporaryDirectory(prefix='mutations-') as tmp:
        for k in chosen:
            file, old, new = every[k - 1]
            src = os.path.join(tmp, 'src')
            os.makedirs(src, exist_ok=True)
            for name in os.listdir(published):
                shutil.copyfile(os.path.join(published, name), os.path.join(src, name))
            with open(os.path.join(src, file)) as f:
                text = f.read()
            if text.count(old) != 1:
                sys.exit('%d: %s has the old text %d times: %s' % (k, file, text.count(old), old))
            with open(os.path.join(src, file), 'w') as f:
                f.write(text.replace(old, new))
            changed = build(src, os.path.join(tmp, 'target'))
            if changed is None:
                sys.exit('%d: %s with %r does not build' % (k, file, new))
            kinds = noticed(oracle, changed, thorough)
            missed += not kinds
            print('%2d %-10s %-52s %s' % (k, file, new[:52], ', '.join(kinds) or 'NOT NOTICED'), flush=True)
    print('%d edits, %d noticed' % (len(chosen), len(chosen) - missed))
    return missed == 0


if __name__ == '__main__':
    if len(sys.argv) < 2:
        sys.exit(__doc__)
    sys.exit(0 if main(sys.argv[1:]) else 1)
