#!/usr/bin/env python3
"""Runs the built program on every front of a program's and a job's text, and on each of the two with
one byte replaced, and says where the answer is none: a status other than 0, 5 and 6, or a text that
isn't theirs.

usage: mutations.py [--program PROGRAM] [FOLDER..]
A FOLDER holds a program Main.java and its jobs; without any, these are those of examples/. `run` takes
the file `job`, and `solo` each file `job` and `job-WORD`.
"""

import argparse
import os
import pathlib
import subprocess
import sys
import tempfile
from concurrent.futures import ThreadPoolExecutor

ROOT = pathlib.Path(__file__).resolve().parent.parent

# Bytes that begin or end something, or are in no text.
BYTES = [b'\0', b'\t', b'\r', b'\n', b'"', b'\\', b'/', b'*', b'{', b'9', b'\x7f', b'\x80', b'\xff']

# How the text of each command begins, and that of each status begins and ends.
BEGINS = {'run': b'calls\n', 'solo': b'history\n'}
FORMS = {0: (b'', b'done\n'), 5: (b'program ', b'\n'), 6: (b'job ', b'\n')}


def damaged(text):
    """Each front of the text, and the text with each byte replaced by each of BYTES."""
    for length in range(len(text)):
        yield text[:length]
    for place in range(len(text)):
        for byte in BYTES:
            yield text[:place] + byte + text[place + 1:]


def is_answer(command, status, text):
    if status not in FORMS:
        return False
    begin, end = FORMS[status]
    return text.startswith(begin or BEGINS[command]) and text.endswith(end)


def answer(program, command, texts):
    """The status of a run over a program's and a job's text, and what it wrote."""
    with tempfile.TemporaryDirectory() as folder:
        names = [os.path.join(folder, name) for name in ('program', 'job')]
        for name, text in zip(names, texts):
            pathlib.Path(name).write_bytes(text)
        run = subprocess.run([program, command, *names], stdout=subprocess.PIPE, timeout=60)
        return run.returncode, run.stdout


def judge(program, command, texts):
    status, text = answer(program, command, texts)
    if is_answer(command, status, text):
        return status
    print(f'{command}: status {status} and {text[:60]} at {texts}')
    return None


def main():
    words = argparse.ArgumentParser(description=__doc__)
    words.add_argument('--program', default=ROOT / 'crates/px_main/out/px_main')
    words.add_argument('folders', nargs='*', type=pathlib.Path, metavar='FOLDER')
    words = words.parse_args()
    folders = words.folders or sorted(p.parent for p in ROOT.glob('examples/*/Main.java'))
    failed = False
    for folder in folders:
        source = (folder / 'Main.java').read_bytes()
        for path in sorted(folder.glob('job*')):
            job = path.read_bytes()
            cases = [(text, job) for text in damaged(source)] + [(source, text) for text in damaged(job)]
            for command in ('run', 'solo') if path.name == 'job' else ('solo',):
                with ThreadPoolExecutor(4) as pool:
                    found = list(pool.map(lambda texts: judge(words.program, command, texts), cases))
                counts = ', '.join(f'{found.count(status)} of status {status}' for status in FORMS)
                print(f'{command} {folder.name}/{path.name}: {len(found)} runs, {counts}, {found.count(None)} wrong')
                failed = failed or None in found
    sys.exit(failed)


if __name__ == '__main__':
    main()
