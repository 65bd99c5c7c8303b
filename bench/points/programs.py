"""Writes programs that grow, for main.rt.txt beside this file, into a folder: programs.py FOLDER [SIZE..]"""
import os
import sys

BOX = "class Box { long v; Box o; }\n"


# A method has at most 10,000 tokens, and nesting is at most 100.
def copies(count):
    part = "".join(f"Box b{i + 1} = b{i};\n" for i in range(count))
    return BOX + "class Main { public void f() { Box b0 = new Box();\n" + part + "} }\n"


def copies_through_methods(count):
    part = "".join(f"Box b{i + 1} = b{i};\n" for i in range(40))
    first = "public void f() { m0(new Box()); }\n"
    each = "".join(f"void m{i}(Box b0) {{\n{part}m{min(i + 1, count - 1)}(b40); }}\n" for i in range(count))
    return BOX + "class Main {\n" + first + each + "}\n"


def ring(count):
    first = "public void f() { m0(new Box()); m0(new Box()); }\n"
    each = "".join(f"Box m{i}(Box x) {{ if (x.v > 0) {{ return x; }} return m{(i + 1) % count}(x); }}\n" for i in range(count))
    return BOX + "class Main {\n" + first + each + "}\n"


def fields(count):
    each = "".join(f"void m{i}(Box x) {{ x.v = {i}; x.o = x; }}\n" for i in range(count))
    calls = "".join(f"m{i}(b);\n" for i in range(count))
    return BOX + "class Main {\n" + each + "public long f() { Box b = new Box();\n" + calls + "return b.o.v; }\n}\n"


def loops(count):
    names = "".join(f"int a{i} = 0;\n" for i in range(count))
    part = "".join(f"a{i} = a{i} + 1;\n" for i in range(count))
    return "class Main { public void f(int n) {\n" + names + "while (n > 0)\n" * 80 + "{\n" + part + "n--; } } }\n"


def loops_beside(count):
    part = "while (n > x) { while (n > x) { while (n > x) { x = x + 1; y = x; } n = y; } x = n; }\n"
    return "class Main { public int f(int n) { int x = 0; int y = 0;\n" + part * count + "return x; } }\n"


# The edges grow with the square here, since each step reaches each other.
def steps(count, depth):
    part = "if (c) { x = x + 1; }\n" * count
    return "class Main { public int f(int n, boolean c) { int x = 0;\n" + "while (n > 0) {\n" * depth + part + "}\n" * depth + "return x; } }\n"


def sites(count):
    first = "public void f() { m0(new Box()); }\n"
    part = "Box a = new Box(); Box b = new Box(); a.o = x; b.o = a; a.v = b.v + x.v; Box c = new Box(); c.o = a.o; a = b.o; c.v = a.v * 3 + b.v; if (c.v > a.v) { a = c; } long t = a.v;"
    part += " while (t > 0) { t = t - a.v; Box d = new Box(); d.o = c; c = d.o; if (c.v > t) { c.v = t * 2; } } b.v = t; a.o = b; c.o = x; x.v = a.v + b.v + c.v;\n"
    part += " for (int i = 0; i < 10; i++) { long u = a.v + b.v * 5; a.v = u - i; b.v = u + i; c.v = u * i; }"
    each = "".join(f"void m{i}(Box x) {{ {part} m{min(i + 1, count - 1)}(new Box()); }}\n" for i in range(count))
    return BOX + "class Main {\n" + first + each + "}\n"


SHAPES = {
    "copies in one method": lambda k: copies(110 * k),
    "copies through methods": lambda k: copies_through_methods(100 * k),
    "calls in a ring": lambda k: ring(124 * k),
    "fields written from everywhere": lambda k: fields(116 * k),
    "80 loops in one another": lambda k: loops(50 * k),
    "loops of three, side by side": lambda k: loops_beside(13 * k),
    "steps in a loop": lambda k: steps(48 * k, 1),
    "steps in 10 loops": lambda k: steps(48 * k, 10),
    "methods of five sites": lambda k: sites(124 * k),
}

if __name__ == "__main__":
    for title, make in SHAPES.items():
        for k in [int(n) for n in sys.argv[2:]] or (2, 4, 8, 16):
            name = "".join(c if c.isalnum() else "_" for c in title)
            with open(os.path.join(sys.argv[1], f"{name}-{k:02}"), "w") as file:
                file.write(make(k))
