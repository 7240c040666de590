"""What a text that can be read gets (02, ticket 2), for text_grammar.py: 01's rules one after the other over the lines, and the
sheet. Expressions are read by Python's own parser, which binds as the ticket says."""

import ast
import re
import struct

OPERATORS = {ast.Add: 18, ast.Sub: 19, ast.Mult: 20, ast.Div: 21}
CODES = {"halt": 0, "skip": 1, "assign": 2, "if": 3, "store": 4, "load": 5, "unlock": 6, "lock": 7}
TAGS = {"var": 2, "reg": 5}
LENGTHS = {"limit": 19, "budget": 0, "label": 0, "locks": 4, "var": 11, "reg": 11, "thread": 4}
STATEMENTS = (
    ("skip", r"skip()"),
    ("assign", r"r(\d+) *:=(?P<expression>.*)"),
    ("if", r"if(?P<expression>.*)goto *(\d+)"),
    ("store", r"store *r(\d+) *to *x(\d+)"),
    ("load", r"load *r(\d+) *from *x(\d+)"),
    ("unlock", r"unlock *l(\d+)"),
    ("lock", r"lock *l(\d+)"),
)
VALUES = range(-2**31, 2**31)


class Refused(Exception):
    """Number and place."""


def tree(node):
    """A code, and the value of a leaf or the trees of its parts."""
    match node:
        case ast.BinOp():
            return (OPERATORS[type(node.op)], tree(node.left), tree(node.right))
        case ast.UnaryOp(op=ast.USub()):
            return (16, -node.operand.value)
        case ast.UnaryOp(op=ast.Not()):
            return (34, tree(node.operand))
        case ast.BoolOp():
            first, *rest = map(tree, node.values)
            for part in rest:
                first = (35, first, part)
            return first
        case ast.Compare(ops=[comparison]):
            return (36 if isinstance(comparison, ast.Eq) else 37, tree(node.left), tree(node.comparators[0]))
        case ast.Name():
            return (17, int(node.id[1:]))
        case ast.Constant(value=bool()):
            return (32 if node.value else 33,)
        case ast.Constant():
            return (16, node.value)
    raise ValueError(ast.dump(node))


def expression(text):
    """The tree of an expression. Python knows no leading zeros."""
    text = re.sub(r"\b(r?)0+(?=\d)", r"\1", text).replace("true", "True").replace("false", "False")
    return tree(ast.parse(text.replace("&&", " and ").replace("!", " not ").strip(), mode="eval").body)


def is_leaf(part):
    return part[0] in (16, 17, 32, 33)


def leaves(part):
    return [part] if is_leaf(part) else [leaf for inner in part[1:] for leaf in leaves(inner)]


def as_bytes(part):
    if part[0] == 16:
        return struct.pack(">Bi", *part)
    return bytes(part) if is_leaf(part) else bytes(part[:1]) + b"".join(map(as_bytes, part[1:]))


def length(part):
    return {16: 5, 17: 2, 32: 1, 33: 1}.get(part[0]) or 1 + sum(map(length, part[1:]))


class Line:
    """A line's kind, its place, its times, its other numbers, and its expression, if it has one."""

    def __init__(self, text, start):
        self.start, self.times, self.numbers, self.expression = start, (), [], None
        text = text.strip(" ")
        if not text[0].isdigit():
            self.kind, numbers = re.fullmatch(r"([a-z]+)(.*)", text).groups()
            self.numbers = [int(number.replace(" ", "")) for number in numbers.split("..") if number.strip()]
            self.length = LENGTHS.get(self.kind, 8)
            return
        least, greatest, rest = re.fullmatch(r"(\d+) *\.\. *(\d+) *(.*)", text).groups()
        self.times = int(least), int(greatest)
        for self.kind, form in STATEMENTS:
            if found := re.fullmatch(form, rest):
                break
        written = found.groupdict().get("expression")
        others = (part for at, part in enumerate(found.groups(), 1) if at != found.re.groupindex.get("expression"))
        self.numbers = [int(number) for number in others if number]
        self.length = 8 + len(self.numbers)
        if written is not None:
            self.expression = expression(written)
            self.length += length(self.expression)

    def is_too_big(self):
        """Whether a number is too big for its field."""
        constants = [leaf[1] for leaf in leaves(self.expression or (32,)) if leaf[0] == 16]
        registers = [leaf[1] for leaf in leaves(self.expression or (32,)) if leaf[0] == 17]
        fields = {"limit": 2**32, "budget": 2**32, "label": 2**32}
        if self.kind in TAGS:
            constants, rest = self.numbers, []
        else:
            rest = self.numbers
        return (any(time > 65_535 for time in self.times) or any(value not in VALUES for value in constants)
                or any(number >= fields.get(self.kind, 256) for number in rest + registers))

    def refuse_if(self, refused, number):
        if refused:
            raise Refused(number, self.start)


def lines_of(text):
    """The lines, the last newline left out."""
    lines, start = [], 0
    for line in text.decode("ascii").removesuffix("\n").split("\n"):
        lines.append(Line(line, start))
        start += len(line) + 1
    return lines


def look_at_expression(line, part, depth, registers):
    """From left to right."""
    line.refuse_if(depth > 12, 6)
    line.refuse_if(part[0] == 17 and part[1] >= registers, 5)
    for inner in () if is_leaf(part) else part[1:]:
        look_at_expression(line, inner, depth + 1, registers)


def look_at_statement(line, count, registers, variables, locks):
    line.refuse_if(line.is_too_big(), 4)
    line.refuse_if(count == 64, 8)
    if line.times:
        line.refuse_if(not 1 <= line.times[0] <= line.times[1], 4)
    limits = {"assign": [registers], "store": [registers, variables], "load": [registers, variables], "unlock": [locks], "lock": [locks]}
    line.refuse_if(any(name >= limit for name, limit in zip(line.numbers, limits.get(line.kind, []))), 5)
    if line.expression:
        look_at_expression(line, line.expression, 1, registers)


def look_at_thread(lines, variables, locks):
    """A thread's own line, then those of its registers and statements, then its closing."""
    thread, *rest = lines
    ranges = [line for line in rest if line.kind == "reg"]
    statements = rest[len(ranges):]
    thread.refuse_if(len(ranges) > 8, 4)
    for line in ranges:
        line.refuse_if(line.is_too_big() or line.numbers[0] > line.numbers[1], 4)
    for count, line in enumerate(statements):
        look_at_statement(line, count, len(ranges), variables, locks)
    statements[-1].refuse_if(statements[-1].kind != "halt", 7)
    for line in statements:
        line.refuse_if(line.kind == "if" and line.numbers[0] >= len(statements), 5)


def look_at(lines):
    """01's rules, field by field."""
    limit, budget, label, locks, *rest = lines
    limit.refuse_if(not 1 <= limit.numbers[0] <= 1_000_000, 4)
    budget.refuse_if(not 1 <= budget.numbers[0] <= 10_000_000, 4)
    label.refuse_if(not label.numbers[0] <= label.numbers[1] <= limit.numbers[0], 4)
    locks.refuse_if(locks.numbers[0] > 8, 4)
    starts = [at for at, line in enumerate(rest) if line.kind == "thread"]
    for count, line in enumerate(rest[:starts[0]]):
        line.refuse_if(line.is_too_big(), 4)
        line.refuse_if(count == 8, 8)
        line.refuse_if(line.numbers[0] > line.numbers[1], 4)
    for count, (start, end) in enumerate(zip(starts, starts[1:] + [len(rest)])):
        rest[start].refuse_if(count == 4, 8)
        look_at_thread(rest[start:end], starts[0], locks.numbers[0])


def sheet_of(lines):
    sheet = struct.pack(">BH4I", 1, 16, *(number for line in lines[:3] for number in line.numbers))
    sheet += bytes([3, 0, 1, *lines[3].numbers])
    for at, line in enumerate(lines[4:], 4):
        if line.kind in TAGS:
            sheet += struct.pack(">BH2i", TAGS[line.kind], 8, *line.numbers)
        elif line.kind == "thread":
            others = (count for count, other in enumerate(lines[at + 1:]) if other.kind != "reg")
            sheet += bytes([4, 0, 1, next(others)])
        else:
            body = struct.pack(">2HB", *(line.times or (0, 0)), CODES[line.kind]) + bytes(line.numbers)
            body += as_bytes(line.expression) if line.expression else b""
            sheet += struct.pack(">BH", 6, len(body)) + body
    return sheet


def converted(text, room):
    """Refusal, place and sheet, with so many bytes lent."""
    lines = lines_of(text)
    bytes_of_all = sum(line.length for line in lines)
    if bytes_of_all > 16_384:
        return 9, 0, b""
    try:
        look_at(lines)
    except Refused as refused:
        return *refused.args, b""
    return (19, 0, b"") if bytes_of_all > room else (0, 0, sheet_of(lines))
