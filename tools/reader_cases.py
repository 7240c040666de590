#!/usr/bin/env python3
"""Writes the input of crates/reader_main and what it must print.

    reader_cases.py ORACLE            crates/reader_main/stdin and stdout
    reader_cases.py ORACLE SEED N     N random sheets, half of them mutated, to ./stdin and ./stdout

ORACLE is the compiled separately written tool (tools/oracle.rs); it says which
sheets are refused, with which number and at which place. Of a sheet that reads,
the line has the numbers of its index, which are taken from the bytes here.
The input is one sheet behind another, each behind its length in two bytes.
"""

import random
import struct
import subprocess
import sys


def field(tag, body):
    return struct.pack(">BH", tag, len(body)) + body


def header(limit=10, budget=100, low=0, high=10):
    return field(1, struct.pack(">IIII", limit, budget, low, high))


def locks(n=0):
    return field(3, bytes([n]))


def span(tag, low, high):
    return field(tag, struct.pack(">ii", low, high))


def variable(low=0, high=1):
    return span(2, low, high)


def register(low=0, high=1):
    return span(5, low, high)


def thread(registers=0):
    return field(4, bytes([registers]))


def statement(code, operands=b"", least=1, greatest=1):
    return field(6, struct.pack(">HHB", least, greatest, code) + operands)


def constant(n):
    return b"\x10" + struct.pack(">i", n)


def reg(n):
    return bytes([17, n])


HALT = statement(0, least=0, greatest=0)
SKIP = statement(1)
START = header() + locks()
ONE = START + thread()
TRUE = b"\x20"


def assign(r, expression, **times):
    return statement(2, bytes([r]) + expression, **times)


def branch(target, condition, **times):
    return statement(3, bytes([target]) + condition, **times)


def pair(code, a, b, **times):
    return statement(code, bytes([a, b]), **times)


def lock(code, n, **times):
    return statement(code, bytes([n]), **times)


def left_deep(depth, leaf):
    """Arithmetic of the given depth whose deepest leaf stands first."""
    return leaf if depth == 1 else b"\x12" + left_deep(depth - 1, leaf) + constant(0)


def right_deep(depth, leaf):
    return leaf if depth == 1 else b"\x12" + constant(0) + right_deep(depth - 1, leaf)


def nots(depth, leaf):
    return b"\x22" * (depth - 1) + leaf


def full(depth, leaf):
    """The tree of the given depth in which every leaf is as deep."""
    return leaf if depth == 1 else b"\x12" + full(depth - 1, leaf) * 2


# Every statement code, expressions of every kind, two threads.
EVERY = (
    header(20, 100, 1, 20) + locks(2) + variable(-5, 5) + variable(0, 0)
    + thread(2) + register(-1, 1) + register(3, 3)
    + assign(0, b"\x15" + b"\x14" + constant(-7) + reg(1) + b"\x13" + reg(0) + constant(2), least=2, greatest=65535)
    + branch(3, b"\x23" + b"\x22" + b"\x24" + reg(0) + constant(1) + b"\x25" + reg(1) + reg(0))
    + pair(4, 0, 1) + pair(5, 1, 0) + lock(7, 1) + lock(6, 1) + SKIP + HALT
    + thread(1) + register(0, 9) + branch(1, b"\x23\x20\x21") + lock(7, 0) + HALT
)


def paper():
    """The reader's sheets of 01, and the sheet B cut at every place."""
    b = header(10, 100, 2, 3) + locks() + thread() + statement(1, least=2, greatest=3) + HALT
    for n in (43, 42, 35, 27, 0):
        yield b[:n]
    for n in range(43):
        yield b[:n]
    for depth in (12, 13):
        for deep in (left_deep, right_deep):
            yield START + thread(1) + register() + assign(0, deep(depth, reg(0))) + HALT
        yield ONE + branch(0, nots(depth, TRUE)) + HALT
        yield ONE + branch(0, nots(depth - 1, b"\x24" + constant(0) + constant(0))) + HALT
        yield START + thread(1) + register() + assign(0, full(depth - 1, reg(0))) + HALT
    yield START + thread(1) + register() + assign(0, left_deep(13, reg(9))) + HALT
    yield ONE + SKIP * 63 + HALT
    yield ONE + SKIP * 64 + HALT
    yield ONE + statement(1, least=0) + HALT
    yield ONE + statement(1, greatest=65535) + HALT
    yield ONE + statement(1, least=65535, greatest=65535) + HALT
    for limit in (0, 1, 1_000_000, 1_000_001, 2**31, 2**32 - 1):
        yield header(limit, 1, 0, 1) + locks() + thread() + HALT


def headers():
    for budget in (0, 1, 10_000_000, 10_000_001, 2**32 - 1):
        yield header(10, budget) + locks() + thread() + HALT
    for low, high in ((3, 2), (10, 10), (0, 11), (2**32 - 1, 5), (0, 2**32 - 1)):
        yield header(10, 100, low, high) + locks() + thread() + HALT
    for tag in (0, 2, 3, 6, 255):
        yield field(tag, bytes(16)) + locks() + thread() + HALT
    for length in (0, 15, 17):
        yield field(1, bytes(length)) + locks() + thread() + HALT
    yield struct.pack(">BH", 1, 17) + bytes(16)
    yield struct.pack(">BH", 1, 65535) + bytes(16)
    for n in (8, 9, 255):
        yield header() + locks(n) + thread() + HALT
    for tag in (0, 1, 2, 4):
        yield header() + field(tag, b"\x00") + thread() + HALT
    for body in (b"", b"\x00\x00"):
        yield header() + field(3, body) + thread() + HALT
    yield header() + struct.pack(">BH", 3, 2) + b"\x00"


def ranges():
    for n in (1, 8, 9, 10):
        yield START + variable() * n + thread() + HALT
    ninth = START + variable() * 8
    yield ninth + field(2, bytes(7)) + thread() + HALT
    yield ninth + struct.pack(">BH", 2, 8) + bytes(3)
    yield ninth + b"\x02"
    for low, high in ((1, 0), (0, -1), (-(2**31), 2**31 - 1), (2**31 - 1, -(2**31)), (-1, -1)):
        yield START + variable(low, high) + thread() + HALT
        yield START + thread(1) + register(low, high) + HALT
    for length in (0, 7, 9):
        yield START + field(2, bytes(length)) + thread() + HALT
        yield START + thread(1) + field(5, bytes(length)) + HALT
    yield START + struct.pack(">BH", 2, 9) + bytes(8)
    for tag in (0, 1, 3, 5, 6, 7):
        yield START + variable() + field(tag, bytes(8)) + thread() + HALT
    yield START + variable()
    for n in (8, 9, 255):
        yield START + thread(n) + register() * n + HALT
    for given in (0, 1, 3):
        yield START + thread(2) + register() * given + HALT
    yield START + field(4, b"") + HALT
    yield START + field(4, b"\x00\x00") + HALT


def statements():
    names = START[:-4] + locks(1) + variable() + thread(1) + register()
    for code in range(10):
        for length in range(10):
            body = (struct.pack(">HHB", 1, 1, code) + bytes(9))[:length]
            yield names + field(6, body) + HALT
    for code in range(8):
        operands = (b"", b"", b"\x00" + constant(0), b"\x00" + TRUE, b"\x00\x00", b"\x00\x00", b"\x00", b"\x00")[code]
        for least, greatest in ((0, 0), (0, 1), (1, 0), (1, 1), (2, 1), (65535, 65535), (0, 65535)):
            yield names + statement(code, operands, least, greatest) + HALT
    yield names + assign(1, constant(0)) + HALT
    for code in (4, 5):
        for a, b in ((0, 1), (1, 0), (1, 1), (255, 255)):
            yield names + pair(code, a, b) + HALT
    for code in (6, 7):
        for n in (1, 255):
            yield names + lock(code, n) + HALT
    # a fault before another within one field
    yield names + statement(8, b"", 0, 0)[:-1] + HALT
    yield names + statement(9, b"\x00", 2, 1) + HALT
    yield names + pair(4, 9, 9, least=2) + HALT
    yield names + assign(9, b"\xff") + HALT
    yield names + statement(2, b"\x09" + b"\xff", 2, 1) + HALT
    yield names + struct.pack(">BH", 6, 4) + bytes(2)
    yield names + struct.pack(">BH", 6, 65535) + bytes(2)


def expressions():
    one = START + thread(1) + register()
    bad = [b"", b"\x10", constant(0)[:-1], b"\x11", reg(1), reg(255), b"\x0f", b"\x16", TRUE, b"\x24" + reg(0) * 2,
           b"\x12", b"\x12" + reg(0), b"\x12" + reg(0) + b"\x10", b"\x12" + reg(1) + b"\xff", b"\x12" + b"\xff" + reg(1),
           b"\x12" + reg(0) + reg(1), reg(0) + b"\x00", reg(1) + b"\x00", constant(5) + constant(5), b"\x12" + reg(0) * 2 + b"\x11",
           b"\x12\x13\x14\x15" + reg(0) * 5]
    for e in bad:
        yield one + assign(0, e + b"") + HALT
    for c in [b"", b"\x1f", b"\x26", b"\x10", constant(0), reg(0), TRUE + TRUE, b"\x21", b"\x22", b"\x22" + reg(0), b"\x23" + TRUE,
              b"\x23" + TRUE + reg(0), b"\x23" + TRUE + b"\x24", b"\x24" + reg(0), b"\x25" + reg(0) + TRUE, b"\x25" + reg(0) + reg(1),
              b"\x24" + reg(1) + b"\xff", b"\x24" + b"\xff" + reg(1), b"\x23\x22\x20\x24" + reg(0) * 2, b"\x23\x25" + reg(0) * 2 + b"\x21"]:
        yield one + branch(0, c) + HALT


def closings():
    for last in (SKIP, lock(7, 0), branch(0, TRUE)):
        yield header() + locks(1) + thread() + last
        yield header() + locks(1) + thread() + last + thread() + HALT
        yield header() + locks(1) + thread() + HALT + last
    for end in (b"\x06", b"\x04\x00", b"\x06\x00\x05", field(2, bytes(8)), field(1, bytes(16)), field(0, b""), field(5, bytes(8))):
        yield ONE + SKIP + end
        yield ONE + HALT + end
    yield ONE
    yield ONE + thread() + HALT
    yield ONE + b"\x06\x00"
    for target in (0, 1, 2, 3, 255):
        yield ONE + branch(target, TRUE) + HALT
        yield ONE + HALT + thread() + SKIP + branch(target, TRUE) + HALT
        yield ONE + SKIP + SKIP + SKIP + HALT + thread() + branch(target, TRUE) + HALT
        yield ONE + branch(target, TRUE) + HALT + thread() + SKIP * 4 + HALT
    yield ONE + branch(5, TRUE) + branch(6, TRUE) + HALT
    yield ONE + branch(5, TRUE) + SKIP
    yield ONE + branch(5, TRUE) + SKIP + b"\x06"


def threads():
    for n in range(1, 7):
        yield START + (thread() + HALT) * n
    yield START + (thread() + HALT) * 3 + thread() + SKIP + thread() + HALT
    yield START + (thread() + HALT) * 3 + thread() + branch(2, TRUE) + HALT + thread() + HALT
    yield START + (thread() + HALT) * 4 + field(4, b"")
    yield START + (thread() + HALT) * 4 + b"\x04\x00"
    yield START + (thread() + HALT) * 4 + b"\x04\x00\x09"
    yield START + thread() + SKIP * 64 + thread() + HALT
    yield START + thread() + HALT + thread() + SKIP * 64 + HALT
    yield START + thread() + SKIP * 64 + field(6, b"")
    yield START + thread() + SKIP * 64 + b"\x06\x00\x05"
    yield START + (thread(8) + register() * 8 + SKIP * 63 + HALT) * 4


def long_sheets():
    """A sheet of the greatest length, cut and with a byte more, and zeros of such lengths."""
    sheet = START + thread(1) + register() + assign(0, full(12, constant(0))) + assign(0, full(10, constant(1)))
    left = 16_384 - len(sheet) - len(HALT)
    parts = [assign(0, full(5, reg(0))), assign(0, reg(0)), SKIP]
    counts = next((a, b, c) for a in range(40) for b in range(20) for c in range(20)
                  if a * len(parts[0]) + b * len(parts[1]) + c * len(parts[2]) == left)
    sheet += b"".join(part * count for part, count in zip(parts, counts)) + HALT
    assert len(sheet) == 16_384
    yield from (sheet, sheet[:-1], sheet + b"\x00", bytes(16_384), bytes(16_385), bytes(65_535))


def every_cut():
    for n in range(len(EVERY) + 1):
        yield EVERY[:n]


def random_sheet(rng):
    """A sheet near the rules; mutations make most of the faults."""
    nlocks, nvars = rng.randrange(1, 4), rng.randrange(1, 4)
    limit = rng.randrange(5, 30)
    out = header(limit, rng.randrange(1, 300), 0, rng.randrange(0, limit + 1)) + locks(nlocks)
    out += b"".join(variable(rng.randrange(-3, 1), rng.randrange(0, 3)) for _ in range(nvars))

    def arith(depth, n):
        k = rng.randrange(6) if depth > 1 else rng.randrange(2)
        if k == 1 and n:
            return reg(rng.randrange(n + (rng.random() < 0.05)))
        if k < 2:
            return constant(rng.randrange(-9, 9))
        return bytes([16 + k]) + arith(depth - 1, n) + arith(depth - 1, n)

    def condition(depth, n):
        k = rng.randrange(6) if depth > 1 else rng.randrange(2)
        if k < 2:
            return bytes([32 + k])
        if k == 2:
            return b"\x22" + condition(depth - 1, n)
        part = condition if k == 3 else arith
        return bytes([32 + k]) + part(depth - 1, n) + part(depth - 1, n)

    def name(n):
        return rng.randrange(max(n, 1)) if rng.random() < 0.98 else n

    for _ in range(rng.randrange(1, 5)):
        n = rng.randrange(1, 4)
        out += thread(n) + b"".join(register(rng.randrange(-3, 1), rng.randrange(0, 3)) for _ in range(n))
        size = rng.randrange(1, 6)
        for _ in range(size):
            times = {"least": rng.randrange(1, 4), "greatest": rng.randrange(3, 6)}
            out += rng.choice([
                lambda: SKIP, lambda: HALT,
                lambda: assign(name(n), arith(rng.randrange(1, 5), n), **times),
                lambda: branch(name(size + 1), condition(rng.randrange(1, 5), n), **times),
                lambda: pair(4, name(n), name(nvars), **times),
                lambda: pair(5, name(n), name(nvars), **times),
                lambda: lock(6, name(nlocks), **times),
                lambda: lock(7, name(nlocks), **times)])()
        out += HALT if rng.random() < 0.95 else b""
    return out


def mutated(rng, sheet):
    sheet = bytearray(sheet)
    for _ in range(rng.randrange(1, 3)):
        i = rng.randrange(len(sheet))
        kind = rng.randrange(4)
        if kind == 0:
            sheet[i] = rng.choice([0, 1, 2, 3, 4, 5, 6, 7, 8, 255, rng.randrange(256)])
        elif kind == 1:
            del sheet[i]
        elif kind == 2:
            sheet.insert(i, rng.randrange(256))
        else:
            del sheet[i:]
            break
    return bytes(sheet)


def random_cases(seed, count):
    rng = random.Random(seed)
    for k in range(count):
        sheet = random_sheet(rng)
        yield mutated(rng, sheet) if k % 2 else sheet


def index_line(sheet):
    """The line of a sheet that reads: its fields are walked by their lengths."""
    fields, at = [], 0
    while at < len(sheet):
        length = struct.unpack_from(">H", sheet, at + 1)[0]
        fields.append((at, sheet[at], sheet[at + 3:at + 3 + length]))
        at += 3 + length
    out = [0, 0, *struct.unpack(">IIII", fields[0][2]), fields[1][2][0]]
    out.append(sum(tag == 2 for _, tag, _ in fields))
    opened = []
    for at, tag, body in fields:
        if tag == 4:
            opened.append((at, body[0], []))
        elif tag == 6:
            opened[-1][2].append((at, body))
    out.append(len(opened))
    for at, registers, code in opened:
        out += [at, registers, len(code)]
        for place, body in code:
            least, greatest, c = struct.unpack(">HHB", body[:5])
            out += [place, least, greatest, c]
            if c in (2, 3):
                out += [body[5], place + 9, place + 3 + len(body)]
            else:
                out += body[5:]
    return out


def line(oracle, sheet):
    answer = subprocess.run([oracle, "check"], input=sheet, capture_output=True, check=True).stdout.split()
    refusal, place = int(answer[0]), int(answer[1])
    numbers = [refusal, place] + [0] * 7 if 1 <= refusal <= 9 else index_line(sheet)
    return "".join(f"{n} " for n in numbers) + "\n"


def main():
    oracle = sys.argv[1]
    folder = "."
    if len(sys.argv) == 4:
        cases = list(random_cases(int(sys.argv[2]), int(sys.argv[3])))
    else:
        folder = "crates/reader_main"
        cases = [s for part in (paper, headers, ranges, statements, expressions, closings, threads, long_sheets, every_cut) for s in part()]
    with open(f"{folder}/stdin", "wb") as sheets:
        sheets.write(b"".join(struct.pack(">H", len(s)) + s for s in cases))
    with open(f"{folder}/stdout", "w", encoding="ascii") as lines:
        lines.write("".join(line(oracle, s) for s in cases))
    print(len(cases), "sheets")


main()
