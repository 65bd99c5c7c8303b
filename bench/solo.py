"""A plain reference of `solo PROGRAM JOB` for straight-line programs over long.

    reference(program: bytes, job: bytes) -> (status, text)

What a call replies and leaves is that of `run`. What its messages weigh is found from the program and
the part alone, before any call: it is the same for all calls of a method.
"""
import re
import sys
from collections import namedtuple

import reference as plain
from reference import OTHER_JOB_WORDS, KEYWORDS, Refused

SIDES = {b"app": "APP", b"db": "DB"}
OTHER = {"APP": "DB", "DB": "APP"}
FULL = 1_000

# Bytes in a message.
TRANSFER, COMMIT, FRAME, SLOT, CELL = 23, 9, 6, 4, 8
REF, INT, LONG = 5, 5, 9

# A normal statement: its line, the slot that it writes with the bytes of the value, and the field that it
# reads or writes; what it doesn't do is None.
Normal = namedtuple("Normal", "line slot size reads writes", defaults=(None, None, None, None))
# The sides of each method's statements, by the method's name, and of each field.
Part = namedtuple("Part", "name statements fields")
Trip = namedtuple("Trip", "moves bytes")


# ---- from a method's tree to normal statements ----------------------------------------------------

def inside(e):
    return inside(e[1]) if e[0] == "group" else e


class Lowering:
    """The normal statements of a method. Slots have numbers that only tell them apart."""

    def __init__(self, method):
        self.slots, self.made = 0, []
        locals = {name: self.slot() for name in method.params}
        self.statement(method.body, locals)
        if plain.can_complete(method.body):
            self.made.append(Normal(method.line))

    def slot(self):
        self.slots += 1
        return self.slots

    def statement(self, s, locals):
        kind, line = s[0], s[-1]
        if kind == "block":
            locals = dict(locals)
            for item in s[1]:
                self.statement(item, locals)
        elif kind == "local":
            slot = self.slot()
            self.to_local(s[2], slot, line, locals)
            locals[s[1]] = slot
        elif kind == "assign" and s[1][0] == "name" and s[1][1] in locals:
            self.to_local(s[2], locals[s[1][1]], line, locals)
        elif kind == "assign":
            self.long_operand(s[2], locals)
            self.made.append(Normal(line, writes=s[1][1]))
        elif kind == "return":
            if s[1] is not None:
                self.long_operand(s[1], locals)
            self.made.append(Normal(line))

    def is_operand(self, e, locals):
        return (e[0] == "number" or e[0] == "minus" and e[1][0] == "number"
                or e[0] == "name" and e[1] in locals)

    def is_long(self, e):
        if e[0] == "number":
            return plain.literal(e[1])[1]
        if e[0] in ("group", "minus"):
            return self.is_long(e[1])
        return e[0] != "binary" or self.is_long(e[2]) or self.is_long(e[3])

    def to_local(self, e, slot, line, locals):
        """A value into a local; the line is that of the statement."""
        e = inside(e)
        if self.is_operand(e, locals):
            self.made.append(Normal(line, slot, LONG))
        elif self.is_long(e):
            self.compute(e, slot, locals)
        else:
            self.compute(e, self.slot(), locals)
            self.made.append(Normal(e[-1], slot, LONG))

    def long_operand(self, e, locals):
        e = inside(e)
        self.operand(e, locals)
        if not self.is_operand(e, locals) and not self.is_long(e):
            self.made.append(Normal(e[-1], self.slot(), LONG))

    def operand(self, e, locals):
        e = inside(e)
        if not self.is_operand(e, locals):
            self.compute(e, self.slot(), locals)

    def compute(self, e, slot, locals):
        """The statements of what is no operand, the last of which writes the slot."""
        kind, line = e[0], e[-1]
        if kind in ("name", "field"):
            self.made.append(Normal(line, slot, LONG, reads=e[1]))
            return
        for part in e[1:2] if kind == "minus" else e[2:4]:
            self.operand(part, locals)
        self.made.append(Normal(line, slot, LONG if self.is_long(e) else INT))


# ---- job ------------------------------------------------------------------------------------------

# A quote at the front of a word begins a text, and spaces in it part no words.
WORD = re.compile(rb'"(?:\\.|[^"\\])*(?:"[^ ]*)?|[^ "][^ ]*', re.S)
NAME = re.compile(rb"[A-Za-z_$][A-Za-z0-9_$]*\Z")


def is_name(word):
    return NAME.match(word) is not None and word not in KEYWORDS


def is_digits(word):
    return re.match(rb"[0-9]+\Z", word) is not None


def refuse_unbuilt_lines(job):
    parted = False
    for number, line, _ in plain.job_lines(job):
        words = WORD.findall(line)
        first = words[0] if words else b""
        budget = words[4:5] == [b"budget"]
        if first in OTHER_JOB_WORDS - {b"part"} - SIDES.keys() or first == b"part" and (parted or budget):
            raise Refused(number, "Later")
        parted = parted or first == b"part"


def new_part(name, main, code):
    """A part with all at APP."""
    return Part(name, {method: ["APP"] * len(made) for method, made in code.items()}, dict.fromkeys(main.fields, "APP"))


def read_part(number, words, main, code):
    if len(words) != 4 or not is_name(words[1]) or words[2] != b"upto" or not is_digits(words[3]):
        raise Refused(number, "J1")
    upto = plain.decimal(words[3])
    if upto > FULL:
        raise Refused(number, "J4")
    if upto != FULL:
        raise Refused(number, "J17")
    return new_part(words[1], main, code)


def set_sides(number, words, part, code):
    """Sets the sides that a line sets."""
    side, kind, names = SIDES[words[0]], words[1:2], words[2:]
    dotted = names[0].split(b".") if names else []
    if kind == [b"line"]:
        fits = len(names) == 1 and is_digits(names[0])
    elif kind in ([b"method"], [b"field"]):
        fits = len(names) == 1 and len(dotted) == 2 and all(map(is_name, dotted))
    else:
        fits = kind == [b"all"] and not names
    if not fits:
        raise Refused(number, "J1")
    if part is None:
        raise Refused(number, "J13")
    chosen, fields = [], []
    if kind == [b"all"]:
        chosen = [(name, place) for name, made in code.items() for place in range(len(made))]
        fields = list(part.fields)
    elif kind == [b"line"]:
        line = plain.decimal(names[0])
        chosen = [(name, place) for name, made in code.items() for place, s in enumerate(made) if s.line == line]
    elif dotted[0] == b"Main" and kind == [b"method"]:
        chosen = [(dotted[1], place) for place in range(len(code.get(dotted[1], [])))]
    elif dotted[0] == b"Main":
        fields = [dotted[1]] if dotted[1] in part.fields else []
    if not chosen and not fields and kind != [b"all"]:
        raise Refused(number, "J14")
    for name, place in chosen:
        part.statements[name][place] = side
    for name in fields:
        part.fields[name] = side


def read_job(job, main):
    """The code, the part, and the calls, each as its method and its arguments."""
    refuse_unbuilt_lines(job)
    code = {method.name: Lowering(method).made for method in main.methods}
    part, calls = None, []
    for number, line, ascii in plain.job_lines(job):
        words = WORD.findall(line) if ascii else []
        if words[:1] == [b"part"]:
            part = read_part(number, words, main, code)
        elif words and words[0] in SIDES:
            set_sides(number, words, part, code)
        else:
            calls.append(plain.judged_call(number, line, ascii, main, len(calls)))
    return code, part or new_part(b"app", main, code), calls


# ---- messages -------------------------------------------------------------------------------------

def kept_fields(side, main, code, part):
    """The fields that a side keeps: those at home there, and those that a statement reads there. Only entries
    are called, so in other methods `this` is no object, and nothing is read."""
    home = {name for name, at in part.fields.items() if at == side}
    return home | {s.reads for method in main.methods if method.public
                   for s, at in zip(code[method.name], part.statements[method.name]) if at == side and s.reads}


def trip_of(method, statements, kept, part):
    """The transfers of a call of a method, and the bytes of all its messages."""
    at, moves, size = "APP", 0, 0
    frames, slots = 2, {0: REF, **{place: LONG for place in range(1, len(method.params) + 1)}}
    written, named = set(), set()

    def updates():
        return sum(CELL + LONG for name in written if part.fields[name] in named)

    def transfer():
        return TRANSFER + FRAME * frames + sum(SLOT + value for value in slots.values()) + updates()

    for statement, side in zip(statements, part.statements[method.name]):
        if side != at:
            moves, size = moves + 1, size + transfer()
            at, frames, slots, written, named = side, 0, {}, set(), set()
        if statement.slot is not None:
            slots[statement.slot] = statement.size
        if statement.writes is not None:
            written.add(statement.writes)
            # a send stands behind what the other side keeps, and names the fields at home with it
            if statement.writes in kept[OTHER[side]]:
                named.add(part.fields[statement.writes])
    if at == "DB":
        # the frame of the method is left, and the reply stands below it
        slots = {0: LONG} if method.gives else {}
        moves, size = moves + 1, size + transfer()
        written = set()
    return Trip(moves, size + COMMIT + updates())


# ---- whole ----------------------------------------------------------------------------------------

def run(main, job):
    code, part, calls = job
    kept = {side: kept_fields(side, main, code, part) for side in OTHER}
    trips = {method.name: trip_of(method, code[method.name], kept, part) for method in main.methods}
    fields, lines, name = dict.fromkeys(main.fields, 0), ["history"], part.name.decode()
    for number, (method, values) in enumerate(calls, 1):
        answer, trip = plain.reply(method, values, fields), trips[method.name]
        lines.append(f"begin 1 {number} 1")
        lines.append(f"end 1 {answer} part {name} avg 0 moves {trip.moves} bytes {trip.bytes} rehome 0")
    return plain.text_of(lines, fields)


def reference(program, job):
    return plain.reference(program, job, read_job, run)


if __name__ == "__main__":
    with open(sys.argv[1], "rb") as program_file, open(sys.argv[2], "rb") as job_file:
        status, text = reference(program_file.read(), job_file.read())
    sys.stdout.buffer.write(text)
    sys.exit(status)
