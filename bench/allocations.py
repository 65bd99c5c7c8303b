#!/usr/bin/env python3
"""Runs the built program with each of its allocations failing in turn, and says where the answer is
neither status 4 with nothing written nor the one with ample memory.

usage: allocations.py [--program PROGRAM] [FOLDER..]
A FOLDER holds a program Main.java and its jobs; without any, these are those of examples/. `run` takes
the file `job`, and `solo` each file `job` and `job-WORD`. Each program is also run with its last byte cut
off, and each job with a line that is none.
"""

import argparse
import os
import pathlib
import subprocess
import sys
import tempfile

ROOT = pathlib.Path(__file__).resolve().parent.parent


def cases(folder):
    """A command with the folder's program and a job, and with the two with a fault each."""
    program = (folder / 'Main.java').read_bytes()
    for path in sorted(folder.glob('job*')):
        job = path.read_bytes()
        for command in ('run', 'solo') if path.name == 'job' else ('solo',):
            yield command, program, job
            yield command, program.rstrip()[:-1], job
            yield command, program, job + b'nonsense\n'


def run(program, words, shim, number):
    env = dict(os.environ, LD_PRELOAD=shim, FAIL_AT=str(number))
    ran = subprocess.run([program, *words], env=env, capture_output=True, timeout=60)
    return ran.returncode, ran.stdout, ran.stderr == b'failed\n'


def main():
    parser = argparse.ArgumentParser()
    parser.add_argument('--program', default=str(ROOT / 'crates/px_main/out/px_main'))
    parser.add_argument('folders', nargs='*', type=pathlib.Path)
    given = parser.parse_args()
    folders = given.folders or sorted(it.parent for it in ROOT.glob('examples/*/Main.java'))
    tried = refused = wrong = 0
    with tempfile.TemporaryDirectory() as at:
        shim = f'{at}/failing_malloc.so'
        source = ROOT / 'bench/failing_malloc.c'
        subprocess.run(['cc', '-shared', '-fPIC', '-O1', '-o', shim, source], check=True)
        for folder in folders:
            for command, program, job in cases(folder):
                words = [command, f'{at}/program', f'{at}/job']
                for name, text in zip(words[1:], (program, job)):
                    pathlib.Path(name).write_bytes(text)
                ample = run(given.program, words, shim, 0)[:2]
                number, failed = 1, True
                while failed:
                    status, text, failed = run(given.program, words, shim, number)
                    tried += failed
                    refused += (status, text) == (4, b'')
                    if (status, text) not in ((4, b''), ample):
                        wrong += 1
                        print(f'{command} {folder}: allocation {number}: status {status}, {text!r}')
                    number += 1
    print(f'{tried} failing allocations: {refused} times status 4, {wrong} wrong answers')
    return wrong > 0


if __name__ == '__main__':
    sys.exit(main())
