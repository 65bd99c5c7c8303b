"""Writes programs that grow, for main.rt.txt beside this file, into a folder: programs.py FOLDER"""
import os
import sys


# A class has at most 200 fields.
def fields(classes):
    part = "".join(f"long a{i};" for i in range(200))
    return "class Main {}\n" + "".join(f"class C{i} {{{part}}}\n" for i in range(classes))


def methods(count):
    return "class Main {\n" + "".join(f"public long m{i}(long x) {{ return m{i}(x) + {i}; }}\n" for i in range(count)) + "}\n"


def statements(count):
    part = "".join(f"long y{j} = x + {j}; f = o.f + y{j}; if (x > 3 && f < 2) {{ o = new Main(); }} " for j in range(30))
    return "class Main { long f; Main o;\n" + "".join(f"void m{i}(long x) {{ {part}}}\n" for i in range(count)) + "}\n"


# One method has at most 10,000 tokens, and nesting is at most 100.
SHAPES = {
    "methods, to 2,000": lambda k: methods(125 * k),
    "fields, to 57,600": lambda k: fields(18 * k),
    "a = a && a && ..; ..": lambda k: "class Main { void f(boolean a) { " + ("a = a" + " && a" * 90 + ";\n") * (3 * k) + "} }",
    "s = s + s + ..; ..": lambda k: "class Main { void f(String s) { " + ("s = s" + " + s" * 90 + ";\n") * (3 * k) + "} }",
    "x = a[x] + x * 3; ..": lambda k: "class Main { void f(int[] a, int x) { " + "x = a[x] + x * 3;\n" * (50 * k) + "} }",
    "methods of many statements, to 0.3 MiB": lambda k: statements(7 * k),
}

for title, make in SHAPES.items():
    for k in (2, 4, 8, 16):
        name = "".join(c if c.isalnum() else "_" for c in title)
        with open(os.path.join(sys.argv[1], f"{name}-{k:02}"), "w") as file:
            file.write(make(k))
