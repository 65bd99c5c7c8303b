#!/usr/bin/env python3
"""Runs the deepest programs under the limits: each shape of nesting at the most that `check` takes, in each of 200 frames.

Usage: bench/deepest.py [PYXIS]. Each must be served with the default stack of the process cut down to 1 MiB, by the thread with a large one.
For each it also tells how much the process's own stack needs where there can be no thread: as nobody, allowed no other process or thread."""
import os
import subprocess
import sys
import tempfile

PYXIS = os.path.abspath(sys.argv[1] if len(sys.argv) > 1 else "crates/px_main/out/px_main")


def program(body, member=""):
    return f"class Main {{ {member} public int f(int d) {{ if (d == 0) return 0; {body} }} }}"


SHAPES = {
    "arguments": lambda k: program("return " + "g(" * k + "f(d - 1)" + ")" * k + ";", "int g(int x) { return x; }"),
    "groups": lambda k: program("return " + "(" * k + "f(d - 1)" + ")" * k + ";"),
    "prefixes": lambda k: program("return " + "- " * k + "f(d - 1);"),
    "right operands": lambda k: program("return " + "1 + (" * k + "f(d - 1)" + ")" * k + ";"),
    "left operands": lambda k: program("return " + "1 + " * k + "f(d - 1);"),
    "indexes": lambda k: program("if (a == null) a = new int[1]; return " + "a[" * k + "f(d - 1)" + "]" * k + ";", "int[] a;"),
    "ifs": lambda k: program("if (d > 0) " * k + "return f(d - 1); return 0;"),
    "loops": lambda k: program("while (d > 0) " * k + "return f(d - 1); return 0;"),
    "blocks": lambda k: program("{" * k + "return f(d - 1);" + "}" * k),
}


# As nobody where we are root, whom no limit of threads holds.
DROP = ["setpriv", "--reuid=65534", "--regid=65534", "--clear-groups"] if os.geteuid() == 0 else []

STACKS = [8, 16, 32, 64, 128, 256]


def run(words, limits="", drop=()):
    return subprocess.run([*drop, "bash", "-c", f'ulimit -c 0; {limits} exec "$@"', "", *words], capture_output=True)


def is_served(done):
    replies = [line.split(b" ", 3)[3] for line in done.stdout.splitlines() if line.startswith(b"call ")]
    return done.returncode == 0 and len(replies) == 3 and not replies[1].startswith(b"threw") and replies[2] == b"threw StackOverflowError"


def alone(words):
    """The least of the stacks with which it is served in its own thread."""
    for mib in STACKS:
        if is_served(run(words, f"ulimit -u 1; ulimit -s {mib * 1024};", DROP)):
            return f"{mib} MiB"
    return f"more than {STACKS[-1]} MiB"


def main():
    failed = 0
    with tempfile.TemporaryDirectory() as folder:
        os.chmod(folder, 0o755)
        path, job = folder + "/program", folder + "/job"
        with open(job, "w") as file:
            file.write("call 1 f 198\ncall 1 f 199\ncall 1 f 250\n")
        for name, shape in SHAPES.items():
            for most in range(100, 0, -1):
                with open(path, "w") as file:
                    file.write(shape(most))
                if run([PYXIS, "check", path]).returncode == 0:
                    break
            words = [PYXIS, "run", path, job]
            done = run(words, "ulimit -s 1024;")
            good = is_served(done)
            failed += not good
            print(f"{name}: {most} deep, {'served' if good else 'FAILED ' + repr(done)}; without a thread it takes {alone(words)}", flush=True)
    sys.exit(failed > 0)


main()
