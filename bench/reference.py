"""A plain reference of `run PROGRAM JOB` for straight-line programs over long.

    reference(program: bytes, job: bytes) -> (status, text)

Status 0 comes with the whole text, 5 with `program LINE CODE`, 6 with `job LINE CODE`.
"""
import re
import sys
from collections import namedtuple

PROGRAM_BYTES, JOB_BYTES = 1_048_576, 16_777_216
NESTING, FIELDS, METHODS, TOKENS_PER_METHOD, CALLS = 100, 200, 2_000, 10_000, 2_000

KEYWORDS = set(b"""abstract assert boolean break byte case catch char class const continue default do
double else enum extends final finally float for goto if implements import instanceof int interface
long native new package private protected public return short static strictfp super switch
synchronized this throw throws transient try void volatile while true false null""".split())
BUILT_KEYWORDS = {b"public", b"private", b"class", b"long", b"void", b"return", b"this", b"throws"}
BUILT_SIGNS = set(b"{ } ( ) , ; . = + - *".split())
RESERVED_NAMES = {b"Db", b"System", b"String", b"ResultSet"}
OTHER_JOB_WORDS = set(b"""sessions workers retries alpha latency perbyte profile row part app db load
order""".split())

Token = namedtuple("Token", "kind text line")       # kind: id, key, number, string, sign, bad, end
Class = namedtuple("Class", "name fields methods")
Method = namedtuple("Method", "public name line gives params body tokens")

# A statement and an expression are tuples: what it is, its parts, and last the line of its first token.


class Refused(Exception):
    """Carries the line and the code of a refusal."""


def syntax():
    return Refused(0, "Syntax")


# ---- tokens -------------------------------------------------------------------------------------

PIECE = re.compile(
    rb"(?P<space>[ \t\r\n]+|//[\t\r\x20-\x7e]*(?=\n|\Z)|/\*[\t\r\n\x20-\x7e]*?\*/)"
    rb"|(?P<word>[A-Za-z_$][A-Za-z0-9_$]*)"
    rb"|(?P<number>(?:0|[1-9][0-9]*)[lL]?)"
    rb"|(?P<string>\"(?:[\t\r\x20\x21\x23-\x5b\x5d-\x7e]|\\[nt\"\\])*\")"
    rb"|(?P<sign>>>>=|<<=|>>=|>>>|\+=|-=|\*=|/=|%=|&=|\|=|\^=|\+\+|--|&&|\|\||==|!=|<=|>=|<<|>>"
    rb"|[-{}()\[\],;.=+*/%&|^!~<>])"
    rb"|(?P<bad>[\x00-\xff])")


def tokens_of(program):
    tokens, line, at = [], 1, 0
    while at < len(program):
        piece = PIECE.match(program, at)
        kind, text = piece.lastgroup, piece.group()
        if kind == "word":
            kind = "key" if text in KEYWORDS else "id"
        if kind != "space":
            tokens.append(Token(kind, text, line))
        line += text.count(b"\n")
        at = piece.end()
    tokens.append(Token("end", b"", line))
    return tokens


# ---- forms of a program that aren't built yet -----------------------------------------------------

def refuse_unbuilt_forms(tokens):
    class_seen = False
    before = Token("start", b"", 0)
    for this, after in zip(tokens, tokens[1:]):
        kind, text = this.kind, this.text
        unbuilt = (
            kind == "string"
            or kind == "key" and text not in BUILT_KEYWORDS
            or kind == "sign" and text not in BUILT_SIGNS
            or kind == "key" and text == b"class" and class_seen
            or kind == "id" and before.kind == "id"
            or kind == "sign" and text == b"." and before.text != b"this"
            or kind == "id" and after.text == b"(" and before.text not in (b"long", b"void")
            or kind == "key" and text == b"long" and after.text == b")")
        if unbuilt:
            raise Refused(this.line, "Later")
        class_seen = class_seen or text == b"class"
        before = this


# ---- grammar ------------------------------------------------------------------------------------

class Parser:
    """Recursive descent. `depth` is the nesting at the next token, and no token may be taken above
    the limit."""

    def __init__(self, tokens):
        self.tokens, self.at, self.depth = tokens, 0, 0

    def next_text(self):
        return self.tokens[self.at].text

    def line(self):
        return self.tokens[self.at].line

    def sees(self, text):
        return self.next_text() == text

    def take(self, text=None, kind=None):
        token = self.tokens[self.at]
        if text is not None and token.text != text or kind is not None and token.kind != kind:
            raise syntax()
        if token.kind in ("bad", "end") or self.depth > NESTING:
            raise syntax()
        self.at += 1
        return token

    def take_if(self, text):
        return self.take() if self.sees(text) else None

    def program(self):
        self.take_if(b"public")
        self.take(b"class")
        name = self.take(kind="id").text
        self.take(b"{")
        fields, methods = [], []
        while not self.sees(b"}"):
            self.member(fields, methods)
        self.take(b"}")
        if self.tokens[self.at].kind != "end":
            raise syntax()
        return Class(name, fields, methods)

    def member(self, fields, methods):
        start = self.at
        public = self.sees(b"public")
        if public or self.sees(b"private"):
            self.take()
        void = self.take_if(b"void")
        if not void:
            self.take(b"long")
        line, name = self.line(), self.take(kind="id").text
        if not void and self.take_if(b";"):
            fields.append(name)
            return
        self.take(b"(")
        params = []
        if not self.sees(b")"):
            params.append(self.param())
            while self.take_if(b","):
                params.append(self.param())
        self.take(b")")
        if self.take_if(b"throws"):
            self.take(b"SQLException")
        body = self.block()
        methods.append(Method(public, name, line, not void, params, body, self.at - start))

    def param(self):
        self.take(b"long")
        return self.take(kind="id").text

    def block(self):
        line = self.line()
        self.depth += 1
        self.take(b"{")
        items = []
        while not self.sees(b"}"):
            items.append(self.item())
        self.take(b"}")
        self.depth -= 1
        return ("block", items, line)

    def item(self):
        line = self.line()
        if not self.take_if(b"long"):
            return self.statement()
        name = self.take(kind="id").text
        self.take(b"=")
        value = self.expression()
        self.take(b";")
        return ("local", name, value, line)

    def statement(self):
        outside, line = self.depth, self.line()
        self.depth += 1
        if self.sees(b"{"):
            made = self.block()
        elif self.take_if(b";"):
            made = ("empty", line)
        elif self.take_if(b"return"):
            value = None if self.sees(b";") else self.expression()
            self.take(b";")
            made = ("return", value, line)
        else:
            if self.take_if(b"this"):
                self.depth += 1                      # the dot counts to the end of the statement
                self.take(b".")
                place = ("field", self.take(kind="id").text, line)
            else:
                place = ("name", self.take(kind="id").text, line)
            self.take(b"=")
            value = self.expression()
            self.take(b";")
            made = ("assign", place, value, line)
        self.depth = outside
        return made

    def expression(self):
        outside, line = self.depth, self.line()
        self.depth += 1
        left = self.product()
        while self.next_text() in (b"+", b"-"):
            self.depth += 1                          # an operator counts to the end of the expression
            sign = self.take().text
            left = ("binary", sign, left, self.product(), line)
        self.depth = outside
        return left

    def product(self):
        line = self.line()
        left = self.prefixed()
        while self.sees(b"*"):
            self.depth += 1
            sign = self.take().text
            left = ("binary", sign, left, self.prefixed(), line)
        return left

    def prefixed(self):
        if not self.sees(b"-"):
            return self.primary(False)
        self.depth += 1
        line = self.take().line
        value = self.primary(True) if not self.sees(b"-") else self.prefixed()
        self.depth -= 1                              # a dot in the operand counts on
        return ("minus", value, line)

    def primary(self, after_minus):
        token = self.tokens[self.at]
        if token.kind == "number":
            self.take()
            return ("number", token.text, after_minus, token.line)
        if token.kind == "id":
            self.take()
            return ("name", token.text, token.line)
        if token.text == b"this":
            self.take()
            if not self.sees(b"."):
                return ("this", token.line)
            self.depth += 1
            self.take(b".")
            return ("field", self.take(kind="id").text, token.line)
        self.take(b"(")
        value = self.expression()
        self.take(b")")
        return ("group", value, token.line)


# ---- type rules ---------------------------------------------------------------------------------

def decimal(digits):
    """The value of decimal digits, or one above every range where there are many of them."""
    digits = digits.lstrip(b"0") or b"0"
    return int(digits) if len(digits) <= 30 else 10 ** 30


def literal(text):
    """The value of an integer literal and whether it is a long."""
    long = text[-1:] in (b"L", b"l")
    return decimal(text[:-1] if long else text), long


def breaks_a_type_rule(main):
    if main.name != b"Main":
        return True
    methods = [method.name for method in main.methods]
    if len(set(main.fields)) < len(main.fields) or len(set(methods)) < len(methods):
        return True
    if len(main.fields) > FIELDS or len(methods) > METHODS or RESERVED_NAMES & set(main.fields):
        return True
    return any(method_breaks_a_rule(method, main.fields) for method in main.methods)


def method_breaks_a_rule(method, fields):
    if method.tokens > TOKENS_PER_METHOD:
        return True
    if len(set(method.params)) < len(method.params) or RESERVED_NAMES & set(method.params):
        return True
    if method.gives and can_complete(method.body):
        return True
    return statement_breaks_a_rule(method.body, set(method.params), set(fields), method.gives)


def can_complete(statement):
    if statement[0] == "block":
        return not statement[1] or can_complete(statement[1][-1])
    return statement[0] != "return"


def statement_breaks_a_rule(statement, locals, fields, gives):
    kind = statement[0]
    if kind == "block":
        inner = set(locals)
        for place, item in enumerate(statement[1]):
            if place > 0 and not can_complete(statement[1][place - 1]):
                return True
            if item[0] == "local":
                name, value = item[1], item[2]
                if name in inner or name in RESERVED_NAMES:
                    return True
                if expression_breaks_a_rule(value, inner, fields - {name}, fields):
                    return True
                inner.add(name)
            elif statement_breaks_a_rule(item, inner, fields, gives):
                return True
    elif kind == "return":
        if (statement[1] is not None) != gives:
            return True
        return gives and expression_breaks_a_rule(statement[1], locals, fields, fields)
    elif kind == "assign":
        return (expression_breaks_a_rule(statement[1], locals, fields, fields)
                or expression_breaks_a_rule(statement[2], locals, fields, fields))
    return False


def expression_breaks_a_rule(e, locals, bare_fields, fields):
    """`bare_fields` are the fields that a name without `this.` may mean."""
    kind = e[0]
    if kind == "number":
        value, long = literal(e[1])
        return value > (2 ** 63 if long else 2 ** 31) - (0 if e[2] else 1)
    if kind == "name":
        return e[1] not in locals and e[1] not in bare_fields
    if kind == "field":
        return e[1] not in fields
    if kind == "this":
        return True                                  # no operand or value is a reference here
    return any(expression_breaks_a_rule(part, locals, bare_fields, fields)
               for part in e[1:] if isinstance(part, tuple))


# ---- job ----------------------------------------------------------------------------------------

VALUE = re.compile(rb" +(?:(?P<number>-?[0-9]+)|(?P<word>true|false|null)"
                   rb"|(?P<text>\"(?:[^\"\\\n]|\\[nt\"\\])*\"))(?= |\Z)")
CALL = re.compile(rb" *call +(?P<session>[0-9]+) +(?P<entry>[A-Za-z_$][A-Za-z0-9_$]*)(?= |\Z)")


def job_lines(job):
    """The lines that aren't skipped, with their numbers."""
    lines = job.split(b"\n")
    ended = len(lines) - 1
    for number, line in enumerate(lines, 1):
        if number <= ended and line.endswith(b"\r"):
            line = line[:-1]
        plain = all(byte < 0x80 for byte in line)
        if plain and (line.strip(b" ") == b"" or line.lstrip(b" ").startswith(b"#")):
            continue
        yield number, line, plain


def read_job(job, main):
    """The calls, each as its method and its arguments."""
    for number, line, _ in job_lines(job):
        if line.lstrip(b" ").split(b" ")[0] in OTHER_JOB_WORDS:
            raise Refused(number, "Later")
    calls = []
    for number, line, plain in job_lines(job):
        calls.append(judged_call(number, line, plain, main, len(calls)))
    return calls


def judged_call(number, line, plain, main, before):
    """The method and the arguments of a line that is a call behind so many calls."""
    call = read_call(line) if plain else None
    if call is None:
        raise Refused(number, "J1")
    session, entry, values = call
    if session != 1:
        raise Refused(number, "J5")
    method = next((method for method in main.methods if method.public and method.name == entry), None)
    if method is None:
        raise Refused(number, "J10")
    if len(values) != len(method.params):
        raise Refused(number, "J11")
    if any(value is None or not -2 ** 63 <= value < 2 ** 63 for value in values):
        raise Refused(number, "J12")
    if before == CALLS:
        raise Refused(number, "J18")
    return method, values


def read_call(line):
    """Session, entry and values, a value that is no number as None; or None for another form."""
    head = CALL.match(line)
    if not head or head["entry"] in KEYWORDS:
        return None
    values, at = [], head.end()
    while line[at:].strip(b" "):
        value = VALUE.match(line, at)
        if not value:
            return None
        number = value["number"]
        if number is None:
            values.append(None)
        else:
            values.append(-decimal(number[1:]) if number.startswith(b"-") else decimal(number))
        at = value.end()
    return decimal(head["session"]), head["entry"], values


# ---- run ----------------------------------------------------------------------------------------

def wrapped(value, long):
    half = 2 ** (63 if long else 31)
    return (value + half) % (2 * half) - half


def evaluate(e, locals, fields):
    """The value and whether it is a long."""
    kind = e[0]
    if kind == "number":
        value, long = literal(e[1])
        return wrapped(value, long), long            # the least value stands after a minus
    if kind == "name":
        return (locals[e[1]] if e[1] in locals else fields[e[1]]), True
    if kind == "field":
        return fields[e[1]], True
    if kind == "group":
        return evaluate(e[1], locals, fields)
    if kind == "minus":
        value, long = evaluate(e[1], locals, fields)
        return wrapped(-value, long), long
    (left, left_long), (right, right_long) = (evaluate(part, locals, fields) for part in e[2:4])
    long = left_long or right_long
    value = left + right if e[1] == b"+" else left - right if e[1] == b"-" else left * right
    return wrapped(value, long), long


class Returned(Exception):
    """Carries the value of a return."""


def execute(statement, locals, fields):
    kind = statement[0]
    if kind == "block":
        inner = dict(locals)
        for item in statement[1]:
            if item[0] == "local":
                inner[item[1]] = evaluate(item[2], inner, fields)[0]
            else:
                execute(item, inner, fields)
        for name in locals:
            locals[name] = inner[name]
    elif kind == "return":
        raise Returned(None if statement[1] is None else evaluate(statement[1], locals, fields)[0])
    elif kind == "assign":
        place, value = statement[1], evaluate(statement[2], locals, fields)[0]
        where = locals if place[0] == "name" and place[1] in locals else fields
        where[place[1]] = value


def reply(method, values, fields):
    try:
        execute(method.body, dict(zip(method.params, values)), fields)
    except Returned as returned:
        if returned.args[0] is not None:
            return str(returned.args[0])
    return "void"


def run(main, calls):
    fields = dict.fromkeys(main.fields, 0)
    lines = ["calls"]
    for number, (method, values) in enumerate(calls, 1):
        lines.append(f"call 1 {number} {reply(method, values, fields)}")
    return text_of(lines, fields)


def text_of(lines, fields):
    """The lines, and what the calls leave."""
    cells = "".join(f" {value}" for value in fields.values())
    lines = lines + ["tables", "heaps", "heap 1", "0 Main" + cells, "done"]
    return "".join(line + "\n" for line in lines).encode()


# ---- whole --------------------------------------------------------------------------------------

def read_program(program):
    if len(program) > PROGRAM_BYTES:
        raise Refused(0, "TooLong")
    tokens = tokens_of(program)
    refuse_unbuilt_forms(tokens)
    main = Parser(tokens).program()
    if breaks_a_type_rule(main):
        raise Refused(0, "Later")
    return main


def reference(program, job, read_job=read_job, run=run):
    try:
        main = read_program(program)
    except Refused as refused:
        return 5, "program {} {}\n".format(*refused.args).encode()
    try:
        if len(job) > JOB_BYTES:
            raise Refused(0, "J2")
        calls = read_job(job, main)
    except Refused as refused:
        return 6, "job {} {}\n".format(*refused.args).encode()
    return 0, run(main, calls)


if __name__ == "__main__":
    with open(sys.argv[1], "rb") as program_file, open(sys.argv[2], "rb") as job_file:
        status, text = reference(program_file.read(), job_file.read())
    sys.stdout.buffer.write(text)
    sys.exit(status)
