"""Runs the built program and the reference on the same files and prints where they differ.

    compare.py [--command run|solo] [--seed N] [--programs N] [--mutants N] [--only GROUP] [--corpus FOLDER] [--program PATH]

A FOLDER has a folder for each case, with the files `program` and `job`.
"""
import argparse
import collections
import multiprocessing
import os
import random
import re
import shutil
import subprocess
import sys
import tempfile

import reference as plain
import solo

HERE = os.path.dirname(os.path.abspath(__file__))
REFERENCES = {"run": plain.reference, "solo": solo.reference}
WORKED = (b"class Main { long n; public long add(long x) { long y = x * 3; n = n + y; return n - 1; } }\n",
          b"call 1 add 4\ncall 1 add -9223372036854775808\n")
SPLIT = (b"class Main {\nlong a;\nlong b;\npublic long f(long x) {\nlong y = x * 3;\nb = a + y;\nreturn b;\n}\nvoid g() {\n}\n}\n",
         b"part p upto 1000\ndb all\napp line 6\napp field Main.b\ncall 1 f 4\ncall 1 f -5\n")
ODD_BYTES = [b"\0", b"\t", b"\r", b"\n", b'"', b"\\", b"/", b"*", b"{", b"9", b"\x7f", b"\x80", b"\xff"]


# ---- fixed cases ----------------------------------------------------------------------------------

def corpus_cases(folder):
    for name in sorted(os.listdir(folder)) if folder else []:
        files = [open(os.path.join(folder, name, part), "rb").read() for part in ("program", "job")]
        yield "corpus", *files


def worked_cases(program, job):
    for end in range(len(program) + 1):
        yield "prefix", program[:end], job
    for end in range(len(job) + 1):
        yield "prefix", program, job[:end]
    for odd in ODD_BYTES:
        for at in range(len(program)):
            yield "odd byte", program[:at] + odd + program[at + 1:], job
            yield "odd byte put in", program[:at] + odd + program[at:], job
        for at in range(len(job)):
            yield "odd byte", program, job[:at] + odd + job[at + 1:]
            yield "odd byte put in", program, job[:at] + odd + job[at:]


def side_cases():
    """Lines about a part, behind none, alone, and with others."""
    program, job = SPLIT
    part, sides, calls = b"part p upto 1000\n", b"db all\n", b"call 1 f 4\n"
    for line in PART_LINES:
        for end in (b"\n", b"", b"\r\n", b" \r\n", b"\r\r\n"):
            yield "handmade part", program, line + end
            yield "handmade part", program, part + line + end
            yield "handmade part", program, calls + line + end + sides + calls
            yield "handmade part", program, part + sides + b"app " + line[3:] + end + calls
        yield "handmade part", program, part + line + b"\nload 1 5\n"
        yield "handmade part", program, part + b"db line 1\n" + line + b"\n"
        yield "handmade part", program, part + b"   " + line.replace(b" ", b"   ") + b"   \n" + calls
        yield "handmade part", program, part + line.replace(b" ", b"\t") + b"\n"


PART_LINES = [line.encode("latin-1") for line in [
    "part p upto 1000", "part p upto 0", "part p upto 999", "part p upto 1001", "part p upto 01000", "part p upto 18446744073709551616", "part p upto 99999999999999999999999",
    "part p upto -1", "part p upto -0", "part p upto +1", "part p upto x", "part p upto", "part p 1000", "part upto 1000", "part p", "part", "part if upto 1000", "part true upto 1000",
    "part upto upto 1000", "part budget upto 1000", "part p upto budget 4", "part p upto 1000 budget 5", "part p upto 1000 budget", "part p upto 5 budget 5", "part p upto x budget y", "part p upto 1000 budgets 5",
    "part p upto 1000 5", "part p upto 1000 5 budget", "part p upto 1000 # c", "part p up 1000", "part 9 upto 1000", 'part "p" upto 1000', "part p.q upto 1000", "part $_9 upto 1000", "Part p upto 1000", "parts p upto 1000",
    "part p upto 1000\t", "part\x80", "part p upto 1000 \x80", "part p upto 1000 budget \x80", "db", "app", "db all", "app all", "db all all", "db All", "db all 5", "db \x80", "db all\x80", "DB all", "dball",
    "db line", "db line 4", "db line 5", "db line 6", "db line 7", "db line 8", "db line 9", "db line 10", "db line 005", "db line 0", "db line -5", "db line +5", "db line x", "db line 5 6", "db line 5x",
    "db line 18446744073709551621", "db line 4294967301", "db line 99999999999999999999999", "db method", "db method f", "db method Main.f", "db method Main.g", "db method Main.h", "db method Main.a", "db method Other.f", "db method Main.",
    "db method .f", "db method .", "db method Main..f", "db method Main.f.g", "db method Main .f", "db method Main. f", "db method if.f", "db method Main.if", "db method Main.f Main.g", 'db method "Main.f"', "db method Main.f()",
    "db field", "db field a", "db field Main.a", "db field Main.b", "db field Main.f", "db field Main.x", "db field Other.a", "db field this.a", "db field Main.null", "db field Main.a Main.b", "db fields Main.a", "db row Main.a",
    "call 1 f 1", "call 1 g", "call 2 f 1", "call 1 f", "call 1 f x", "# part p upto 1000", "", "sessions 1", "order 1", "row t 1"]]


def main_with(body, params="long x", gives="long", members="long n; "):
    return f"class Main {{ {members}public {gives} f({params}) {{ {body} }} }}\n".encode()


def limit_cases():
    job = b"call 1 f 7\n"
    whole = main_with("return x;")
    for count in (199, 200, 201):
        yield "limits", main_with("return x;", members="".join(f"long a{i}; " for i in range(count))), job
    for count in (1998, 1999, 2000):
        yield "limits", main_with("return x;", members="".join(f"void m{i}() {{ }} " for i in range(count))), job
    for size in (9996, 9997, 9998, 9999, 10000, 10001):
        for mod in (0, 1):
            text = main_with(";" * (size - 12) + " return x;")
            yield "limits", text if mod else text.replace(b"public ", b""), job
    for size in (1_048_575, 1_048_576, 1_048_577, 1_048_600):
        for begin in (whole, b"", b"\n#if", b"if"):
            yield "limits", begin + b" " * (size - len(begin)), job
            yield "limits", begin + b"\n" * (size - len(begin)), b"row\n"
    for size in (16_777_215, 16_777_216, 16_777_217):
        yield "limits", whole, b" " * size
        yield "limits", whole, job + b"row " + b" " * (size - len(job) - 4)
        yield "limits", b"class A { }", b"row" + b" " * (size - 3)
    for last in ("call 1 f 7", "call 1 f", "call 2 f 7", "call 1 g", "call 1 f true", "call x", "# c", "", "row t 1"):
        for before in (1998, 1999, 2000):
            yield "limits", whole, b"call 1 f 7\n" * before + last.encode() + b"\ncall 1 f 7\n"
    for digits in ("9" * 5000, "1" + "0" * 5000, "9223372036854775808", "18446744073709551617", "4294967296",
                   "340282366920938463463374607431768211457", "0" * 5000 + "7", "0" * 30 + "9223372036854775807"):
        for suffix in ("", "L", "l"):
            yield "limits", main_with(f"return -{digits}{suffix};"), job
            yield "limits", main_with(f"return {digits}{suffix};"), job
        yield "limits", whole, f"call 1 f {digits}\ncall 1 f -{digits}\n".encode()
        yield "limits", whole, f"call 1 f -{digits}\n".encode()
        yield "limits", whole, f"call {digits} f 1\n".encode()
    name = "v" * 70000
    yield "limits", main_with(f"long {name} = x; return {name};"), job
    yield "limits", whole.replace(b" f(", b" " + name.encode() + b"("), f"call 1 {name} 5\n".encode()
    yield "limits", whole, b"call 1 f " + b"1 " * 70000 + b"\n"
    yield "limits", main_with("return x;", ", ".join(f"long p{i}" for i in range(300)) + ", long x"), \
        b"call 1 f " + b" ".join(b"%d" % i for i in range(301))
    yield "limits", main_with("return x;", ", ".join(f"long p{i}" for i in range(300)) + ", long x"), \
        b"call 1 f " + b" ".join(b"%d" % i for i in range(45))
    yield "limits", main_with("".join(f"long v{i} = {i}; " for i in range(1500)) + "return v1499;"), job
    for unit in (b"(", b"-", b"- ", b"{", b"this.", b"x+", b"x*", b"x.", b"[", b"/*", b"//", b'"', b"\\", b"/", b"x=", b"class "):
        for count in (3000, 60000):
            yield "limits", main_with("return x;").replace(b"return x", b"return " + unit * count + b"x"), job
            yield "limits", main_with("return x;").replace(b"return x", unit * count), job


def handmade_cases():
    job = b"call 1 f 7\n"
    bodies = """
return x; | return; | ; | | return x;; | return x; x = 1; | { return x; } | { return x; } x = 1; | return this; | x = this; return x;
{ return x; ; } | { { return x; } } return x; | { } return x; | return x; { } | return x; long y = 1; | long x = 1; return x;
long y = y; return y; | long n = n; return n; | long n = this.n; return n; | n = 4; long n = 5; n = 6; return this.n;
{ long y = 1; } long y = 2; return y; | long y = 1; { long y = 2; } return y; | { long y = 1; } y = 2; return x; | { long y = 1; } { long y = 2; n = y; } return n;
long y = 1; long y = 2; return y; | { long n = 1; n = 9; } return n; | long f = x; return f; | long Main = x; return Main; | return Main; | return f;
long Db = 1; return x; | long System = 1; return x; | long String = 1; return x; | long ResultSet = 1; return x; | long SQLException = x; return SQLException;
long CREATE = 1; long TABLE = 2; long LONG = 3; long TEXT = 4; long out = 5; long println = 6; return out;
return 2147483647 + 1; | return 2147483647 + 1L; | return 2147483647 * 2 + x; | return x + 2147483647 * 2; | return -2147483648 - 1; | return - 2147483648 * -1;
return 2147483648; | return -2147483648; | return -(2147483648); | return - -2147483648; | return x - 2147483648; | return x - -2147483648; | return -/**/2147483648;
return (-2147483648); | return -(-2147483648); | return -2147483649; | return 9223372036854775807L; | return 9223372036854775808L; | return -9223372036854775808L;
return -(9223372036854775808L); | return -9223372036854775808; | return 9223372036854775807; | return - - 9223372036854775808l; | return -9223372036854775809L; | return x-9223372036854775808L;
return 007; | return 0L; | return 00; | return 0 0; | return 1_0; | return 0x1F; | return 1L2; | return 1LL; | return 12Lx; | return 2147483648L; | return 1.; | return .5; | return 1e5;
return (x); | return ((x); | return (x)); | return (); | return x x; | return x 1; | return 1 x; | return + x; | return x + ; | return x - - x; | return x -- x; | return x --x; | return x ++ x; | return x + + x;
return -x * -x; | return -x - -x; | return - - - x; | return x*-x; | return x*(-x)-x; | return x - x - x; | return x - (x - x); | return x - x * x; | return (x - x) * x; | return -(x + 1) * 2;
this.n = x; return n; | this.n = x; return this.n; | this.x = 1; return x; | this.q = 1; return x; | q = 1; return x; | return q; | return this.q; | this.f = 1; return x; | this = 3; return x; | this; return x; | this.n; return x; | x; return x;
(x) = 1; return x; | 5 = 3; return x; | x = n = 1; return x; | x = ; return x; | = 1; return x; | -x = 1; return x; | x = 1, return x; | x == 1; return x; | x =+ 1; return x; | x += 1; return x;
this . n = 1; return x; | this /**/ . // c
n = 1; return x; | return this . n; | return x.n; | return (this).n; | return this.n.n; | return f(x); | return this.f(x); | f(x); return x; | return f (x);
return (long) x; | return (int) x; | return x % 2; | return x / 2; | return x & 1; | return !x; | return ~x; | return x << 1; | return x < 1; | return x ? 1 : 2; | return "a"; | return true; | return null; | return new Main();
if (x) return x; | while (x) { } | for (;;) { } | int y = 1; return y; | String s = "a"; return x; | Main m = this; return x; | boolean b = true; return x; | long[] a = null; return x; | final long y = 1; return x;
long y; return x; | long y = 1, z = 2; return y; | long long y = 1; return x; | long 5 = 1; return x; | long y 5; return x; | long = 1; return x; | public long y = 1; return x; | return x | return x } | } return x;
return x; } long g() { return 1; | return x; } public void f() { | return x; } public void g() { return 1; | return x; } public void g() { return; | return x; } public void g() { return this; | return x; } void g() { { return; } return; | return x; } long n() { return n;
return x; } void g() throws SQLException { | return x; } void g() throws Foo { | return x; } void g() throws SQLException, SQLException { | return x; } void g() throws { | return x; } void g() throws SQLException throws SQLException { | return x; } void g() { } { | return x; } void g() { }; void h() { | return x; } void g() throws SQLException; void h() { | return x; } throws SQLException void g() {
return x; } long n; void g() { | return x; } long Db; void g() { | return x; } void Db() { | return x; } void System() { | return x; } void g(long Db) { | return x; } void g(long a, long a) { | return x; } void g(long a, ) { | return x; } void g(long a long b) { | return x; } void g(a) { | return x; } void g(long) {
return x; } void x; void g() { | return x; } long SQLException() { return 1; | return x; } public private void g() { | return x; } public void void g() { | return x; } static void g() { | return x; } void g() { long g = 1; g = g; | return x; } long Main; void g() { Main = 1;
a # b | a @ b; | a \x80 b; | long # ) | this # . n = 1; return x; | f # ( | long # f ( | # if | ' | ? x y | x # . y | : | x : y z | `x` y z | a \x7f b | a \x00 b | a \\ b | "a b | " a b | a " b | x " ( | this " . n | long " )
// \x80
return x; | // \x00 a b
return x; | /* \x80 */ return x; | /* */ return x; | /*/ return x; | /*/ */ return x; | /**/ return x; | /***/ return x; | /* * / */ return x; | /* // */ return x; | // /*
return x; | // a \r return q;
return x; | //
return x; | //* */
return x; | ///* \x80 */
return x; | //\x80/* */
return x; | / / x | /\x80* */ | return x; // | return x; /* | return x; */ | return x * / 1; | return x */**/ 2; | return x *// c
2; | return 4\r\n; | return\tx; | return\x0bx; | return\x0cx; | return x;\x1a
"""
    for body in re.split(r" \| |\n(?=[^\n])", bodies):
        text = body.encode("latin-1").decode("unicode_escape") if "\\x" in body or "\\r" in body else body
        text = text.replace("\\\\", "\\")
        raw = text.encode("latin-1")
        for gives in (b"long", b"void"):
            whole = b"class Main { long n; public " + gives + b" f(long x) {\n" + raw + b"\n} }\n"
            yield "handmade", whole, job
            yield "handmade", whole.replace(b"return x", b"return"), job
        yield "handmade", b"class Main {\n" + raw + b"\n}", job
        yield "handmade", raw, job
    for whole in [b"", b" ", b"\n\n", b"class", b"class Main", b"class Main {", b"class Main { }", b"public class Main { }", b"class main { }",
                  b"class Db { }", b"class String { }", b"class Main { } class Main { }", b"class A { }\nclass B { }", b"class\nclass",
                  b"private class Main { }", b"class Main { } }", b"class Main { } ;", b"; class Main { }", b"class Main { }//", b"class Main { }/*",
                  b"class Main { }//\r", b"class Main { }// \x80", b"class Main { } x", b"class Main x { }", b"class if { }", b"class { }",
                  b"CREATE TABLE t (id LONG);\nclass Main { }", b"CREATE", b"CREATE;", b"CREATE(", b"class CREATE { }", b"class Main extends X { }",
                  b"class Main { long }", b"class Main { long\n)\n }", b"class Main { x\n( }", b"(", b"x(", b"x\n(", b"x\n\ny", b".", b"\n.", b"this\n.", b"\n\nlong\n)",
                  b"\xef\xbb\xbfclass Main { }", b"class Main { }\x00", b"class Main\x80 { }", b"cl\x00ass Main { }", b"class M\\u0041in { }",
                  b"class Main { long \\u0041; }", b"class Main { long x; long x; if }", b"class Main { \n#\n }", b"import x;", b"package a;", b"@A class Main { }",
                  b"class Main { long a$; long _; long $; long _9; long $9; }", b"class Main { long 9a; }", b"class Main { long goto; }",
                  b"class Main { long true; }", b"class Main { long const; }", b"class Main { long strictfp; }", b"class Main { long enum; }",
                  b"class Main { long assert; }", b"class Main { long var; }", b"class Main { long Long; }", b"class Main { long THIS; }",
                  b"class Main { longx; }", b"class Main { long\xa0x; }", b"class Main {} ", b"class Main{long a;public long b(){return a;}}"]:
        yield "handmade", whole, b""
        yield "handmade", whole, b"row\n"
        yield "handmade", whole, b"call 1 f\n"
    for text in [b'"a"', b'"\t"', b'"\r"', b'"\x7f"', b'"\x00"', b'"\x80"', b'"\\q"', b'"\\n"', b'"\\t\\"\\\\"', b'"\\"', b'"\\\\"', b'"\\\\', b'"a\\\nb"', b'"a\nb"', b'"//"', b'"/*"',
                 b'"/*" */', b'/* " */', b'// "', b'"\\u0041"', b'"\\\r"', b'"\'"', b'"\\r"', b'"" ""', b'"""', b'\\"a"', b'"a\\']:
        for after in (b"", b"\nif", b"\n\n5 == 3", b'\n"', b'\n"a"', b"\n/* if", b"\n/* if */", b"\n// if", b"\n/ / if"):
            yield "handmade", b"class Main {\n}\n" + text + after, b""
            yield "handmade", text + after + b"\n", b""
    whole = main_with("n = n + x; return n;", members="long n; public void z() { } void hid() { } private void prv() { } "
                      "public long two(long a, long b) { return a - b; } public void SQLException() { } public void Db() { } public void $_9() { } ")
    for line in JOB_LINES:
        for end in (b"\n", b"", b"\r\n", b"\r", b"\r\r\n", b" \r\n", b"\r \n", b"\ncall 1 z\n"):
            yield "handmade job", whole, line + end
            yield "handmade job", whole, b"call 1 z\n" + line + end
        yield "handmade job", whole, line + b"\nrow t 1\n"
        yield "handmade job", whole, line + b"\n\ncall 2 f 1\n"
        yield "handmade job", whole, b"   " + line + b"   \n"
        yield "handmade job", whole, line.replace(b" ", b"    ") + b"\n"
        yield "handmade job", whole, line.replace(b" ", b"\t") + b"\n"
        yield "handmade job", whole, b"\t" + line + b"\n"


JOB_LINES = [line.encode("latin-1") for line in [
    "call 1 f 7", "call 1 f", "call 1 f 1 2", "call 1 f true", "call 1 f false", "call 1 f null", 'call 1 f "a"', 'call 1 f ""', 'call 1 f "a b"',
    'call 1 f "a\\n\\t\\"\\\\"', 'call 1 f "\\r"', 'call 1 f "\\u0041"', 'call 1 f "a', 'call 1 f a"', 'call 1 f "a"1', 'call 1 f 1"a"', 'call 1 f true"a"',
    'call 1 f "a""b"', 'call 1 f "a" "b"', 'call 1 two "a b" "c"', 'call 1 two 1 "c', 'call 1 f "\x00"', 'call 1 f "\x7f"', 'call 1 f "\t"', 'call 1 f "\r"',
    'call 1 f "\x80"', 'call 1 f "\xff', 'call 1 f "\\', 'call 1 f "\\"', 'call 1 f "\\""', "call 1 f -", "call 1 f --1", "call 1 f +1", "call 1 f - 1", "call 1 f -0",
    "call 1 f 007", "call 1 f -007", "call 1 f 0", "call 1 f 00", "call 1 f 9223372036854775807", "call 1 f 9223372036854775808", "call 1 f -9223372036854775808",
    "call 1 f -9223372036854775809", "call 1 f 1L", "call 1 f 0x1", "call 1 f 1.0", "call 1 f 1,", "call 1 f x", "call 1 f True", "call 1 f truex", "call 1 f nul",
    "call 0 f 7", "call 2 f 7", "call 01 f 7", "call 001 f 7", "call 17 f 7", "call -1 f 7", "call +1 f 7", "call 1x f 7", "call x f 7", "call 18446744073709551617 f 7",
    "call 4294967297 f 7", "call 65537 f 7", "call 257 f 7", "call 1 g 7", "call 1 hid", "call 1 prv", "call 1 z", "call 1 z 1", "call 1 n", "call 1 Main", "call 1 two 9 4", "call 1 two 9",
    "call 1 SQLException", "call 1 Db", "call 1 $_9", "call 1 if", "call 1 long", "call 1 true", "call 1 null", "call 1 this", "call 1 class", "call 1 goto", "call 1 9f", "call 1 f-", "call 1 f(",
    'call 1 "f"', "call 1 -f", "call 1", "call", "call 1 ", "call  1  f  7  ", "Call 1 f 7", "CALL 1 f 7", "calls 1 f 7", "cal 1 f 7", "call1 f 7", "call\t1 f 7", "call 1\tf 7", "call 1 f\t7",
    "call 1 f 7\t", "call 1 f 7 # c", "call 1 f 7#", "#", "# c", "#call 1 f 7", " # c", "\t# c", "# \x80", "#\xff", "# \x00\x7f\t", "#\r#", "", " ", "   ", "\t", "\r", "\x00", "\x80", " \x80", "x", "x\x80",
    "sessions 2", "sessions", "sessions x", "sessions 1", "workers 1", "retries 1", "alpha 1", "latency 1", "perbyte 1", "profile 1", "row t 1", "row", "row\x80", "row \x80", "row\t", "part p upto 1000", "part", "app all",
    "db all", "load 1 1", "order 1", "order", "Row t 1", "rows t 1", '"row" 1', "db\x00", "app all \xff", "call 1 f 7 \x80", "call 2 g true \x80", "call 2 g", "call 2 f", "call 2 f true", "call 0 g 1 2", "call 1 g 1 2 \"",
    "call 2 if", "call 99 f x", "call 1 f 99999999999999999999999999999999", "call 1 f -99999999999999999999999999999999", "call 1 f 9223372036854775808 1", "call 1 two 1 99999999999999999999", "call 1 two true null"]]


def small_cases():
    """All short strings of tokens at three places, and some longer ones."""
    job, r = b"call 1 f 7\n", random.Random("small")
    places = [
        ("n = 1 ; | return n ;", "x n this . = ; ( ) - + * 1 long return { } q", 3, 5000),
        ("return | ;", "x 1 - + * ( ) this . n 2147483648", 4, 4000),
        ("return x ; } | void h ( ) {", "public private long void a ( ) , ; { } throws SQLException return class", 3, 5000),
        ("return x ; | ", "return ; { } x = 1 long y", 4, 3000)]
    for frame, words, whole, longer in places:
        before, after = frame.split("|")
        words = words.split()
        strings = [()]
        for length in range(whole + 1):
            if length:
                strings = [string + (word,) for string in strings for word in words]
            for string in strings:
                yield "small", main_with(before + " ".join(string) + after), job
        for _ in range(longer):
            string = [r.choice(words) for _ in range(r.randrange(whole + 1, whole + 5))]
            yield "small", main_with(before + " ".join(string) + after), job


# ---- made programs --------------------------------------------------------------------------------

LITERALS = ["0", "1", "2", "3", "7", "10", "65535", "65536", "46341", "1000000007", "2147483647", "2147483646", "0L", "1L", "3l", "2147483648L", "4294967296L",
            "4294967295l", "9223372036854775807L", "9223372036854775806l", "3037000500L"]
WRONG_LITERALS = ["2147483648", "2147483649", "4294967296", "9223372036854775807", "9223372036854775808L", "9223372036854775808l", "9223372036854775809L",
                  "18446744073709551616L", "99999999999999999999999999999999999999999999L", "9223372036854775808"]
NAMES = ["a", "b", "c", "n", "x", "y", "z", "SQLException", "CREATE", "TABLE", "LONG", "TEXT", "out", "println", "add", "f", "Main", "$", "_", "a1", "longer", "this_", "L", "l"]
RESERVED = ["Db", "System", "String", "ResultSet"]
FOREIGN = ["if", "else", "while", "for", "int", "boolean", "new", "true", "false", "null", "class", "try", "static", "final", "switch", "goto", "double", "import", '"a"', '""', '"\\n"', "[", "]", "/", "%",
           "&", "|", "^", "!", "~", "<", ">", "==", "!=", "<=", ">=", "&&", "||", "<<", ">>", ">>>", "+=", "-=", "*=", "/=", ">>>=", "++", "--", "a b", "x . y", "f (", "( long )", "long )", "a (", ". x", "Db . query", "System . out . println ( x ) ;"]
BAD = ["#", "@", "?", ":", "'", "`", "\\", '"', "\x00", "\x01", "\x0b", "\x0c", "\x7f", "\x80", "\xe9", "\xff"]
BUILT = ["public", "private", "class", "long", "void", "return", "this", "throws", "{", "}", "(", ")", ",", ";", ".", "=", "+", "-", "*"]
SEPARATORS = [" "] * 12 + ["\n"] * 3 + ["\t", "  ", "\r", "\r\n", "\n\n", "//\n", "// c\n", "// a \r b\n", "/* c */", "/**/", "/***/", "/* \n */", "/*/ */", "/* // */", "// /* \n", '/* " */', '// "\n', "//*x*/\n", "/*\r\n*/",
                             "// if ( a b ) class\n", "/* if a b class */"]
ODD_SEPARATORS = ["/*", "//", "// \x80\n", "/* \x00 */", "/* \x7f */", "/*/", "*/", "// \xff", "/", "/ /\n", "\x00", "\x0b", "\xa0"]


class Maker:
    def __init__(self, seed):
        self.r = random.Random(seed)
        self.faults = self.r.choice([0, 0, 0, 0.01, 0.03, 0.1])
        self.most = self.r.choice([5, 5, 30])        # fewer items than this stand in a body

    def fault(self, weight=1.0):
        return self.r.random() < self.faults * weight

    def name(self, taken=()):
        if self.fault(0.3):
            return self.r.choice(RESERVED)
        free = [name for name in NAMES if name not in taken]
        if self.fault() or not free:
            return self.r.choice(NAMES)
        return self.r.choice(free)

    def value(self, locals, depth=0, barred=None):
        r = self.r
        kind = r.random()
        if kind < 0.25 and depth < 6:
            return self.value(locals, depth + 1, barred) + [r.choice("+-*")] + self.value(locals, depth + 1, barred)
        if kind < 0.35 and depth < 6:
            return ["("] + self.value(locals, depth + 1, barred) + [")"]
        if kind < 0.45 and depth < 6:
            return ["-"] + self.value(locals, depth + 1, barred)
        if kind < 0.65:
            if self.fault(2):
                wrong = r.choice(WRONG_LITERALS)
                return r.choice([[wrong], ["-", wrong], ["-", "(", wrong, ")"], ["-", "-", wrong], ["(", "-", wrong, ")"], ["1", "-", wrong]])
            if r.random() < 0.06:
                return ["-", r.choice(["2147483648", "9223372036854775808L", "9223372036854775808l"])]
            return [str(r.randrange(2 ** 31)) if r.random() < 0.2 else str(r.randrange(2 ** 63)) + "L" if r.random() < 0.2 else r.choice(LITERALS)]
        if kind < 0.7 and self.fault():
            return [r.choice(NAMES)]
        if self.fault(0.3):
            return ["this"]
        if kind < 0.8 and self.fields or not locals:
            names = [name for name in self.fields if name not in locals and name != barred]
            if not names:
                return r.choice([["5"], ["this", ".", r.choice(self.fields)]]) if self.fields else ["5"]
            return r.choice([[r.choice(names)], ["this", ".", r.choice(self.fields)]])
        return [r.choice(list(locals))]

    def items(self, locals, depth, gives, last):
        r, made, locals = self.r, [], list(locals)
        for _ in range(r.randrange(5) if depth else r.randrange(self.most)):
            kind = r.random()
            if kind < 0.3:
                name = self.name(locals)
                if self.fields and r.random() < 0.3:
                    free = [field for field in self.fields if field not in locals]
                    name = r.choice(free or [name])
                value = self.value(locals, 0, name)
                if self.fault(3):
                    own = r.choice([[name], ["(", name, ")"], ["-", name], ["this", ".", name]])
                    value = r.choice([own, value + [r.choice("+-*")] + own, own + [r.choice("+-*")] + value])
                made += ["long", name, "="] + value + [";"]
                locals.append(name)
            elif kind < 0.4 and depth < 4:
                made += ["{"] + self.items(locals, depth + 1, gives, self.fault()) + ["}"]
            elif kind < 0.45:
                made += [";"]
            elif self.fault(0.5):
                made += ["return"] + (self.value(locals) if gives != self.fault() else []) + [";"]
            else:
                places = [[name] for name in locals] + [["this", ".", name] for name in self.fields] + [[name] for name in self.fields]
                if self.fault():
                    places = [["this", ".", r.choice(NAMES)], [r.choice(NAMES)], ["this"], ["(", "x", ")"], ["5"]]
                if places:
                    made += r.choice(places) + ["="] + self.value(locals) + [";"]
        if last and not self.fault():
            back = ["return"] + (self.value(locals) if gives != self.fault() else []) + [";"]
            made += ["{"] + back + ["}"] if r.random() < 0.1 else back
            if self.fault():
                made += [";"]
        return made

    def program(self):
        r = self.r
        self.fields, self.methods, self.entries = [], [], []
        for _ in range(r.randrange(5)):
            self.fields.append(self.name(self.fields))
        members = [(["public"], ["private"], [], [])[r.randrange(4)] + ["long", name, ";"] for name in self.fields]
        names = []
        for _ in range(r.randrange(1, 5)):
            name = self.name(names)
            names.append(name)
            params = []
            for _ in range(r.randrange(4)):
                params.append(self.name(params))
            gives = r.random() < 0.7
            mod = r.choice([["public"], ["public"], ["public"], ["private"], []])
            head = mod + ["long" if gives else "void", name, "("]
            for place, param in enumerate(params):
                head += ([","] if place else []) + ["long", param]
            head += [")"] + (["throws", "SQLException" if not self.fault() else r.choice(NAMES)] if r.random() < 0.15 else [])
            must = gives or r.random() < 0.3
            members.append(head + ["{"] + self.items(params, 0, gives, must) + ["}"])
            self.methods.append(name)
            if mod == ["public"]:
                self.entries.append((name, len(params)))
        if r.random() < 0.5:
            r.shuffle(members)
        tokens = (["public"] if r.random() < 0.2 else []) + ["class", "Main" if not self.fault() else self.name(), "{"]
        tokens += [token for member in members for token in member] + ["}"]
        if self.fault(3):
            at = r.randrange(len(tokens) + 1)
            tokens[at:at] = r.choice(FOREIGN).split(" ")
        if self.fault(2):
            tokens.insert(r.randrange(len(tokens) + 1), r.choice(BAD))
        return tokens

    def deep_program(self):
        """One method whose nesting comes close to the limit, in a mix of kinds."""
        r = self.r
        self.fields, self.methods, self.entries = ["n"], ["f"], [("f", 1)]
        goal = r.randrange(94, 104)
        kinds = r.choice(["(", "-", "+", ".", "(-", "(+", "-+", "(-+.", "(-+.*", "*", "+*", "(.", "({"])
        depth, open_blocks, front, back = 1, 0, [], []
        blocks = r.choice([0, 0, 0, 1, 3, r.randrange(52), 46, 48, 49])
        for _ in range(blocks):
            if depth + 2 > goal - 2:
                break
            depth += 2
            front += r.choice([[], [], [";"], ["x", "=", "1", ";"], ["long", f"v{depth}", "=", "x", ";"], ["{", "}"]]) + ["{"]
            back = ["}"] + r.choice([[], [], [";"], ["n", "=", "n", "+", "1", ";"]]) + back
        form = r.choice(["return", "local", "name", "field", "empty", "return"])
        if form == "empty":
            front += r.choice([[";"], ["{", "}"], ["{", ";", "}"], ["x", "=", "x", ";"], ["x", "=", "-", "x", ";"]])
        else:
            if form == "return":
                front += ["n", "=", "x", ";"] if r.random() < 0.5 else []
                depth += 2
            front += {"return": ["return"], "local": ["long", "w", "="], "name": ["n", "="], "field": ["this", ".", "n", "="]}[form]
            depth += {"return": 0, "local": 1, "name": 2, "field": 3}[form]
            expression, tail, prefixes = [], [], [0]
            while depth < goal:
                kind = r.choice(kinds)
                if kind in "({":
                    expression.append("(")
                    tail.append(r.choice([[")"], [")"], [")", "+", "x"], [")", "*", "this", ".", "n"]]))
                    prefixes.append(0)
                    depth += 1
                elif kind == "-":
                    expression.append("-")
                    prefixes[-1] += 1
                    depth += 1
                elif kind in "+*":
                    expression += [r.choice("x1n"), kind]
                    depth += 1 - prefixes[-1]
                    prefixes[-1] = 0
                elif kind == ".":
                    expression += ["this", ".", "n", r.choice("+-*")]
                    depth += 2 - prefixes[-1]
                    prefixes[-1] = 0
            expression += r.choice([["x"], ["x"], ["1"], ["this", ".", "n"], ["-", "x"], ["(", "x", ")"], ["x", "-", "x"], ["2147483647"], ["this"]])
            for part in reversed(tail):
                expression += part
            front += expression + [";"]
        gives = form == "return"
        end = [] if gives and blocks == 0 else back
        body = front + end
        if not gives:
            body += ["return", "n", ";"]
        elif blocks:
            # a nested return ends the method only where nothing follows in the blocks
            body = front + ["}"] * end.count("}") if r.random() < 0.8 else body
        return ["class", "Main", "{", "long", "n", ";", "public", "long", "f", "(", "long", "x", ")", "{"] + body + ["}", "}"]

    def render(self, tokens, plain=0.3):
        r = self.r
        separators = [" "] if r.random() < plain else SEPARATORS
        odd = 0.01 if self.faults >= 0.03 and r.random() < 0.3 else 0
        text, before = "", ""
        for token in tokens:
            joined = before and (before[-1].isalnum() or before[-1] in "_$") and (token[:1].isalnum() or token[:1] in "_$")
            joined = joined or before in ("-", "+") and token[:1] in "-+=" and r.random() < 0.99
            if joined or r.random() < 0.7:
                text += r.choice(separators)
                while r.random() < 0.1:
                    text += r.choice(separators)
            if odd and r.random() < odd:
                text += r.choice(ODD_SEPARATORS)
            text += token
            before = token
        text += r.choice(["", "\n", " ", "\r\n", "// end", "/* end */\n", "//"])
        return text.encode("latin-1")

    def job(self):
        r, lines = self.r, []
        for _ in range(r.randrange(8)):
            if not self.entries and self.faults < 0.03:
                break
            if self.entries and not self.fault():
                name, count = r.choice(self.entries)
            else:
                name, count = r.choice(NAMES + RESERVED + ["if", "true", "9", "a-b", ""]), r.randrange(3)
            if self.fault():
                count = max(0, count + r.choice([-1, 1]))
            session = "1" if not self.fault() else r.choice(["0", "2", "01", "1x", "-1", "16", "17", "", "99999999999999999999"])
            values = [self.job_value() for _ in range(count)]
            words = ["call" if not self.fault(0.5) else r.choice(["Call", "cal", "row", "part", "db", "sessions", "\tcall", "x", "call,"]), session, name] + values
            blank = " " if r.random() < 0.8 else r.choice(["  ", "   ", "\t"]) if self.fault(5) else "  "
            line = blank.join(words)
            if r.random() < 0.1:
                line = " " + line
            if r.random() < 0.1:
                line += "  "
            if self.fault():
                line += r.choice(["\r", "\x80", "\t", "#", " #", "\x00", '"', ' "'])
            lines.append(line)
            while r.random() < 0.2:
                lines.append(r.choice(["", " ", "# c", "  # c", "#", "    "]) if not self.fault(2) else r.choice(["\t", "# \x80", "\r", "x", "#\r", "row t 1", "load 1 5", "alpha 3", "\x80", " \t", "order 1"]))
        end = r.choice(["\n", "\n", "\n", "\r\n"])
        return (end.join(lines) + (end if r.random() < 0.7 else "")).encode("latin-1")

    def part(self, program):
        """A part for a program, with sides of what it has."""
        r = self.r
        name = r.choice(NAMES if not self.fault() else ["if", "9", ""])
        upto = "1000" if not self.fault() else r.choice(["999", "1001", "x", ""])
        lines, selectors = [f"part {name} upto {upto}"], [["all"], ["all"]]
        for kind, names in (("line", statement_lines(program) * 2), ("method", self.methods), ("field", self.fields * 2)):
            selectors += [[kind, name if kind == "line" else "Main." + name] for name in names]
        for _ in range(r.choice([0, 1, 2, 4, 8, 16])):
            selector = r.choice(selectors)
            if self.fault():
                selector = r.choice([selector + ["x"], selector[:-1], ["line", str(r.randrange(20))], ["method", "Main." + r.choice(NAMES)], ["field", r.choice(NAMES)], [r.choice(NAMES)]])
            lines.append(" ".join([r.choice(["db", "db", "app"] if not self.fault(0.5) else ["part", "Db", "call", "order"])] + selector))
        return "\n".join(lines).encode()

    def job_value(self):
        r = self.r
        if self.fault(2):
            return r.choice(["true", "false", "null", '"a"', '""', '"a b"', '"\\n"', '"\\x"', '"', '"a', "-", "+1", "1L", "x", "9223372036854775808", "-9223372036854775809", "99999999999999999999999", '"\x7f\t"', '"\x80"', "--1", "1 2", "0x1", "1.5"])
        return r.choice(["0", "1", "-1", "5", "007", "-0", "-007", "2147483647", "2147483648", "-2147483648", "9223372036854775807", "-9223372036854775808", "0000000000000000000000000000000000000007",
                         str(r.randrange(-2 ** 63, 2 ** 63)), str(r.randrange(-2 ** 33, 2 ** 33)), str(r.randrange(-100, 100))])


def statement_lines(program):
    """The lines of a program's normal statements, or none where it is refused."""
    try:
        main = plain.read_program(program)
    except plain.Refused:
        return []
    return [str(line) for method in main.methods for line in {made.line for made in solo.Lowering(method).made}]


WORDS = BUILT + NAMES + RESERVED + LITERALS + WRONG_LITERALS + FOREIGN + BAD


def mutate_tokens(r, tokens):
    tokens = list(tokens)
    for _ in range(r.choice([1, 1, 1, 2, 3])):
        at = r.randrange(len(tokens))
        kind = r.choice([0, 1, 2, 3, 4, 5, 6, 6, 6, 6, 7, 7])
        if kind == 6:                                # a token of the same sort
            sorts = [NAMES[:8] + [token for token in tokens if token in NAMES], LITERALS + WRONG_LITERALS, ["+", "-", "*"],
                     ["public", "private"], ["long", "void"], ["{", "}", ";"], ["(", ")", "-"]]
            fitting = [sort for sort in sorts if tokens[at] in sort]
            tokens[at] = r.choice(r.choice(fitting)) if fitting else tokens[at]
        elif kind == 7:                              # a stretch between two ends of statements goes or comes twice
            ends = [place + 1 for place, token in enumerate(tokens) if token in (";", "{", "}")]
            if len(ends) > 1:
                first, last = sorted(r.sample(ends, 2))
                last = min(last, first + 40)
                tokens[first:last] = r.choice([[], tokens[first:last] * 2])
        elif kind == 0:
            del tokens[at]
        elif kind == 1:
            tokens.insert(at, tokens[at])
        elif kind == 2:
            tokens[at] = r.choice(BUILT)
        elif kind == 3:
            tokens.insert(at, r.choice(BUILT + NAMES[:4] + LITERALS[:4]))
        elif kind == 4:
            other = r.randrange(len(tokens))
            tokens[at], tokens[other] = tokens[other], tokens[at]
        else:
            tokens[at] = r.choice(WORDS)
        if not tokens:
            tokens = ["class"]
    return tokens


def mutate_bytes(r, text):
    text = bytearray(text)
    for _ in range(r.choice([1, 1, 1, 2, 4])):
        at = r.randrange(len(text) + 1)
        odd = r.choice(ODD_BYTES + [b" ", b"#", b"-", b"0", b"1", b"}", b"(", b")", b";", b".", b"=", b"a", b"L", b"l", b"$", b"\r\n", b"//", b"/*", b"*/", b'"'] + [bytes([r.randrange(256)])])
        kind = r.randrange(4)
        if kind == 0:
            del text[at:at + 1]
        elif kind == 1:
            text[at:at] = odd
        elif kind == 2:
            text[at:at + 1] = odd
        else:
            other = r.randrange(len(text) + 1)
            at, other = min(at, other), max(at, other)
            other = min(other, at + 12)
            if r.random() < 0.5:
                del text[at:other]
            else:
                text[at:at] = text[at:other]
    return bytes(text)


def made_cases(command, seed, programs, mutants):
    for number in range(programs):
        maker = Maker(f"{seed} {number}")
        deep = maker.r.random() < 0.25
        tokens = maker.deep_program() if deep else maker.program()
        program, job = maker.render(tokens), maker.job()
        if deep and maker.r.random() < 0.8:
            job = b"call 1 f 7\ncall 1 f -9223372036854775808\n"
        if command == "solo" and maker.r.random() < 0.95:
            texts = [maker.part(program), job]
            job = b"\n".join(texts if maker.r.random() < 0.8 else texts[::-1])
        yield "deep" if deep else "made", program, job
        for _ in range(mutants):
            r = maker.r
            yield "token mutant", maker.render(mutate_tokens(r, tokens), 0.8), job
            yield "byte mutant", mutate_bytes(r, program), job
            yield "job mutant", program, mutate_bytes(r, job)


# ---- comparing ------------------------------------------------------------------------------------

def answer_of_program(program, job):
    for name, text in (("p", program), ("j", job)):
        with open(os.path.join(FOLDER, name), "wb") as file:
            file.write(text)
    try:
        done = subprocess.run([PROGRAM, COMMAND, os.path.join(FOLDER, "p"), os.path.join(FOLDER, "j")],
                              stdin=subprocess.DEVNULL, capture_output=True, timeout=20)
    except subprocess.TimeoutExpired:
        return "timeout", b""
    return done.returncode, without_place(done.stdout) + (b"<stderr> " + done.stderr if done.stderr else b"")


def without_place(text):
    """The references know neither the line of a syntax error nor which type rule is broken."""
    text = re.sub(rb"^program \d+ Syntax\n$", b"program 0 Syntax\n", text)
    return re.sub(rb"^program \d+ (T\d+|Later)\n$", b"program 0 Later\n", text)


def begin_worker(path, command, base):
    global PROGRAM, COMMAND, REFERENCE, FOLDER
    PROGRAM, COMMAND, REFERENCE, FOLDER = path, command, REFERENCES[command], tempfile.mkdtemp(dir=base)


def judge(case):
    group, program, job = case
    got = answer_of_program(program, job)
    try:
        wanted = REFERENCE(program, job)
    except Exception as fault:
        wanted = "fault", repr(fault).encode()
    kind = "done" if wanted[0] == 0 else re.sub(rb"^(\w+) (0|\d+) ", lambda m: m[1] + (b" 0 " if m[2] == b"0" else b" N "), wanted[1]).decode("latin-1").strip()
    if re.match(rb"(program|job) \d+ Later\n", wanted[1]):
        # The references know straight-line programs over one class alone, and of `solo` jobs of calls and a part.
        return group, "beyond the reference", None
    if got == wanted:
        return group, kind, None
    if len(program) + len(job) < 3000:
        program, job = smaller(program, job)
    return group, kind, (program, job)


def smaller(program, job):
    """Takes bytes out as long as the two still differ in the same way."""
    def way(p, j):
        got, wanted = answer_of_program(p, j), REFERENCE(p, j)
        return None if got == wanted else (got[0], got[1].split(b" ")[-1], wanted[0], wanted[1].split(b" ")[-1])
    first = way(program, job)
    files = [program, job]
    for place in (0, 1, 0, 1):
        size = max(1, len(files[place]) // 2)
        while size:
            at = 0
            while at < len(files[place]):
                shorter = list(files)
                shorter[place] = files[place][:at] + files[place][at + size:]
                if way(*shorter) == first:
                    files = shorter
                else:
                    at += size
            size //= 2
    return tuple(files)


def main():
    options = argparse.ArgumentParser()
    options.add_argument("--command", choices=REFERENCES, default="run")
    options.add_argument("--seed", default="1")
    options.add_argument("--programs", type=int, default=4000)
    options.add_argument("--mutants", type=int, default=1)
    options.add_argument("--only", default="")
    options.add_argument("--corpus", default="")
    options.add_argument("--program", default=os.path.join(HERE, "..", "crates", "px_main", "out", "px_main"))
    chosen = options.parse_args()
    groups = {"corpus": lambda: corpus_cases(chosen.corpus), "small": small_cases, "worked": lambda: worked_cases(*WORKED), "limits": limit_cases,
              "handmade": handmade_cases, "made": lambda: made_cases(chosen.command, chosen.seed, chosen.programs, chosen.mutants)}
    if chosen.command == "solo":
        groups |= {"split": lambda: worked_cases(*SPLIT), "sides": side_cases}
    cases = (case for name, make in groups.items() if not chosen.only or name in chosen.only.split(",") for case in make())
    counts, kinds, seen, differing = collections.Counter(), collections.defaultdict(collections.Counter), set(), 0
    base = tempfile.mkdtemp(dir="/dev/shm" if os.path.isdir("/dev/shm") else None)
    try:
        with multiprocessing.Pool(2, begin_worker, (chosen.program, chosen.command, base)) as pool:
            for group, kind, difference in pool.imap_unordered(judge, cases, 8):
                counts[group] += 1
                kinds[group][kind] += 1
                if difference is None:
                    continue
                differing += 1
                if difference in seen or len(seen) > 60:
                    continue
                seen.add(difference)
                begin_worker(chosen.program, chosen.command, base)
                print("DIFFERS", group, *(repr(text[:1500]) for text in difference), sep="\n   ")
                print("    program  ", repr(answer_of_program(*difference))[:400])
                print("    reference", repr(REFERENCE(*difference))[:400], flush=True)
    finally:
        shutil.rmtree(base)
    for group, count in counts.items():
        print(f"{group}: {count}  " + ", ".join(f"{kind} {n}" for kind, n in kinds[group].most_common()))
    print(f"{sum(counts.values())} cases compared, {differing} differ")
    return 1 if differing else 0


if __name__ == "__main__":
    sys.exit(main())
