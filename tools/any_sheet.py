#!/usr/bin/env python3
"""Makes the bytes of a sheet from its lines, also of a sheet that does not read: for the tests of ./zumbeiry, for worked_sheets.py
and for the garbled sheets of bench. What a person types goes through the proved converter (./zumbeiry convert), not through this.

    any_sheet.py < LINES > out.sheet

The lines are those that ./zumbeiry convert --help shows, and they are taken less strictly: only what is needed to make bytes is
looked at. A number may be outside its range, as long as it fits its bytes, low above high, a name absent, a halt missing.
"""

import re
import struct
import sys

sys.dont_write_bytecode = True

from fields import field

HEADERS = {"limit": "I", "budget": "I", "label": "II", "locks": "B"}  # and how their numbers are packed
TOKEN = re.compile(r"\s*(?:(\d+)|(r\d+)|(true|false)|(==|&&|[-+*/<!()]))")
OPERATORS = {"+": 18, "-": 19, "*": 20, "/": 21, "&&": 35}
COMPARISONS = {"==": 36, "<": 37}


class SheetError(Exception):
    """The lines do not make a sheet's bytes."""


def packed(layout, *numbers):
    """The numbers with the high byte first, in the layout of struct."""
    try:
        return struct.pack(">" + layout, *numbers)
    except struct.error as error:
        raise SheetError(f"a number does not fit its bytes: {error}") from None


class Expression:
    """Reads an expression; each part gives its bytes, operator first."""

    def __init__(self, text):
        self.tokens = []
        place = 0
        text = text.rstrip()
        while place < len(text):
            match = TOKEN.match(text, place)
            if not match:
                raise SheetError(f"cannot read {text[place:]!r}")
            self.tokens.append(match.group(match.lastindex))
            place = match.end()
        self.place = 0

    def peek(self):
        return self.tokens[self.place] if self.place < len(self.tokens) else None

    def take(self, *wanted):
        """The next token if it is one of those wanted, else None."""
        token = self.peek()
        if token is None or token not in wanted:
            return None
        self.place += 1
        return token

    def expect(self, wanted):
        if not self.take(wanted):
            raise SheetError(f"{wanted!r} expected, found {self.peek()!r}")

    def end(self, result):
        if self.peek() is not None:
            raise SheetError(f"{self.peek()!r} is left over")
        return result

    def chain(self, operators, operand):
        """Operands joined from left to right: so the last operator stands first."""
        codes, operands = [], [operand()]
        while operator := self.take(*operators):
            codes.append(OPERATORS[operator])
            operands.append(operand())
        return bytes(reversed(codes)) + b"".join(operands)

    def arithmetic(self):
        return self.chain("+-", lambda: self.chain("*/", self.operand))

    def operand(self):
        if self.take("("):
            inner = self.arithmetic()
            self.expect(")")
            return inner
        sign = -1 if self.take("-") else 1
        token = self.peek()
        if token is None or not re.fullmatch(r"\d+|r\d+", token):
            raise SheetError(f"a number or register expected, found {token!r}")
        self.place += 1
        if not token.startswith("r"):
            return packed("Bi", 16, sign * int(token))
        if sign < 0:
            raise SheetError("write 0 - r0 for a negated register")
        return packed("BB", 17, int(token[1:]))

    def condition(self):
        return self.chain(("&&",), self.negation)

    def negation(self):
        if self.take("!"):
            return packed("B", 34) + self.negation()
        if self.take("true"):
            return packed("B", 32)
        if self.take("false"):
            return packed("B", 33)
        start = self.place
        try:
            return self.comparison()
        except SheetError:
            # not a comparison: a parenthesis around a condition
            self.place = start
            if not self.take("("):
                raise
        inner = self.condition()
        self.expect(")")
        return inner

    def comparison(self):
        left = self.arithmetic()
        comparison = self.take(*COMPARISONS)
        if not comparison:
            raise SheetError(f"== or < expected, found {self.peek()!r}")
        return packed("B", COMPARISONS[comparison]) + left + self.arithmetic()


def arithmetic(text):
    expression = Expression(text)
    return expression.end(expression.arithmetic())


def condition(text):
    expression = Expression(text)
    return expression.end(expression.condition())


def whole(text):
    if not re.fullmatch(r"-?\d+", text):
        raise SheetError(f"a number expected, found {text!r}")
    return int(text)


def span(text):
    """The two numbers of low..high."""
    match = re.fullmatch(r"(-?\d+)\.\.(-?\d+)", text.strip())
    if not match:
        raise SheetError(f"low..high expected, found {text!r}")
    return int(match.group(1)), int(match.group(2))


# what follows the times of a statement
STATEMENTS = (
    (r"skip", lambda: packed("B", 1)),
    (r"r(\d+)\s*:=(.*)", lambda r, value: packed("BB", 2, int(r)) + arithmetic(value)),
    (r"if\b(.*)\bgoto\s+(\d+)", lambda test, target: packed("BB", 3, int(target)) + condition(test)),
    (r"store\s+r(\d+)\s+to\s+x(\d+)", lambda r, x: packed("BBB", 4, int(r), int(x))),
    (r"load\s+r(\d+)\s+from\s+x(\d+)", lambda r, x: packed("BBB", 5, int(r), int(x))),
    (r"unlock\s+l(\d+)", lambda lock: packed("BB", 6, int(lock))),
    (r"lock\s+l(\d+)", lambda lock: packed("BB", 7, int(lock))),
)


def statement(line):
    """The body of a statement's field."""
    if line == "halt":
        return packed("HHB", 0, 0, 0)
    times, _, rest = line.partition(" ")
    for pattern, assemble in STATEMENTS:
        match = re.fullmatch(pattern, rest.strip())
        if match:
            return packed("HH", *span(times)) + assemble(*match.groups())
    raise SheetError("not a statement")


def header(lines):
    """The first two fields, of the lines limit, budget, label and locks, in this order."""
    numbers = b""
    for (word, layout), line in zip(HEADERS.items(), lines, strict=True):
        given, _, rest = line.partition(" ")
        if given != word:
            raise SheetError(f"{word} expected, found {line!r}")
        numbers += packed(layout, *(span(rest) if word == "label" else (whole(rest),)))
    return field(1, numbers[:-1]) + field(3, numbers[-1:])


def line_field(line, registers):
    """The field of a line behind the header; registers is how many reg lines follow at once."""
    word, _, rest = line.partition(" ")
    if word in ("var", "reg"):
        return field(2 if word == "var" else 5, packed("ii", *span(rest)))
    return field(4, packed("B", registers)) if line == "thread" else field(6, statement(line))


def assemble(lines):
    """The bytes of a sheet."""
    lines = [re.sub(r" ?\.\. ?", "..", " ".join(line.split())) for line in lines]
    lines = [line for line in lines if line]
    sheet, behind = b"", 0
    for line in reversed(lines[4:]):
        sheet = line_field(line, behind) + sheet
        behind = behind + 1 if line.startswith("reg ") else 0
    return header(lines[:4]) + sheet


def main():
    try:
        sys.stdout.buffer.write(assemble(sys.stdin))
    except (OSError, ValueError, SheetError, UnicodeDecodeError) as error:
        sys.exit(f"any_sheet.py: {error}")


if __name__ == "__main__":
    main()
