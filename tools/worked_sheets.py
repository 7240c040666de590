#!/usr/bin/env python3
"""Writes a corpus (its form: tools/corpus.rs) of the sheets that the paper's
section "Sheets to try" names, starred and unstarred.

    worked_sheets.py > FILE
    worked_sheets.py --join FILE FILE.. > FILE    one corpus of several, in order

The five numbers are written here from the paper's text and are not computed. Where
the paper states only some, the others are counted by hand: places from the fields'
lengths; low and high are 0 but for refusals 0 and 15; the steps of a sheet of one
thread are the states taken on each branch, told beside the sheet. For G and H the
paper gives a fact about an interval, and the sheet here is one that shows it.
"""

import struct
import sys

sys.dont_write_bytecode = True

import any_sheet

ROOM = 12000  # numbers lent, unless the paper says otherwise
NOT_PLANTED = 0


def text(body, limit=10, budget=100, label=(0, 10), locks=0):
    """The bytes of a sheet: the body's lines are divided by semicolons."""
    lines = [f"limit {limit}", f"budget {budget}", f"label {label[0]}..{label[1]}", f"locks {locks}"]
    return any_sheet.assemble(lines + body.split(";"))


B_BYTES = bytes.fromhex(
    "010010 0000000A 00000064 00000002 00000003 030001 00 040001 00 060005 0002 0003 01 060005 0000 0000 00"
)
B = "thread; 2..3 skip; halt"
C = text("thread; 1..4 skip; halt; thread; 2..3 skip; halt")
D = "thread; 1..1 lock l0; 1..1 unlock l0; halt"
E = "thread; 1..1 lock l0; 1..1 lock l1; halt; thread; 1..1 lock l1; 1..1 lock l0; halt"


def depth(levels):
    """One thread that assigns a sum nested to the levels given, then halts."""
    return text("thread; reg 0..0; 1..1 r0 := " + "(" * (levels - 1) + "0" + " + 0)" * (levels - 1) + "; halt")


def statements(count):
    """One thread of skips of one tick and a last halt, as many as the count."""
    return text("thread;" + "1..1 skip;" * (count - 1) + "halt", limit=100, label=(0, 100))


# what it is, its bytes, numbers lent, the five numbers
#
# Fields before the first statement of a single thread: 19 bytes of tag 1, 4 of tag 3, 4 of tag 4, 11 for each register. The
# first statement so stands at 27, with one register at 38; a skip or halt has 8 bytes.
SHEETS = [
    ("A", text("thread; halt"), ROOM, (0, 0, 1, 0, 0)),
    ("B by its bytes", B_BYTES, ROOM, (0, 0, 2, 2, 3)),
    ("B", text(B, label=(2, 3)), ROOM, (0, 0, 2, 2, 3)),
    ("B, label 3..3", text(B, label=(3, 3)), ROOM, (15, 0, 2, 2, 3)),
    ("B, limit 2, label 0..2", text(B, limit=2, label=(0, 2)), ROOM, (12, 0, 1, 0, 0)),
    ("B, limit 3, label 0..3", text(B, limit=3, label=(0, 3)), ROOM, (0, 0, 2, 2, 3)),
    ("B, budget 1", text(B, budget=1, label=(2, 3)), ROOM, (13, 0, 1, 0, 0)),
    ("B's first 42 bytes", B_BYTES[:42], ROOM, (1, 35, 0, 0, 0)),
    ("B's first 35 bytes", B_BYTES[:35], ROOM, (7, 27, 0, 0, 0)),
    ("B's first 27 bytes", B_BYTES[:27], ROOM, (1, 27, 0, 0, 0)),
    ("no bytes", b"", ROOM, (1, 0, 0, 0, 0)),
    ("C", C, ROOM, (0, 0, 5, 2, 4)),
    ("C with 199 numbers", C, 199, (14, 0, 1, 0, 0)),
    ("C with 200 numbers", C, 200, (0, 0, 5, 2, 4)),
    ("D", text(D + ";" + D, locks=1), ROOM, (0, 0, 19, 3, 4)),
    ("E", text(E, locks=2), ROOM, (11, 0, 3, 0, 0)),
    (
        "F",
        text("thread; reg 0..9; 1..1 if r0 < 5 goto 2; 10..10 skip; halt", limit=11, label=(0, 11)),
        ROOM,
        (0, 0, 4, 1, 11),
    ),
    ("G: 10 by -1..1", text("thread; reg -1..1; 1..1 r0 := 10 / r0; halt"), ROOM, (10, 38, 1, 0, 0)),
    # Within 2..10, and not narrower: no yes state of the two tests for less and more, both states of the two at the ends. Taken:
    # one state before each of the five statements, halt at tick 4 (r0 less 3) and tick 5 (not 9 less r0), the last skip and its
    # halt at tick 6.
    (
        "G: 10 by 1..5",
        text(
            "thread; reg 1..5; 1..1 r0 := 10 / r0; 1..1 if r0 < 2 goto 6; 1..1 if 10 < r0 goto 6;"
            "1..1 if r0 < 3 goto 5; 1..1 if 9 < r0 goto 7; halt; 5..5 skip; 1..1 skip; halt"
        ),
        ROOM,
        (0, 0, 9, 4, 6),
    ),
    # -3 in 01; 02, ticket 5: "−7 by 2 is −4", "Case G changes its third result". The division, the test whose no state is empty,
    # and halt at tick 2.
    (
        "G: -7 by 2",
        text("thread; reg -7..-7; 1..1 r0 := r0 / 2; 1..1 if r0 == -4 goto 3; 5..5 skip; halt"),
        ROOM,
        (0, 0, 3, 2, 2),
    ),
    # 10 in 01; 02, ticket 1: "Case G's lowest value by −1 changes its number", to 16.
    ("G: lowest by -1", text("thread; reg -1..-1; 1..1 r0 := -2147483648 / r0; halt"), ROOM, (16, 38, 1, 0, 0)),
    # Both branches: the test, halt at tick 1, the skip, halt at tick 3.
    (
        "H: equal",
        text("thread; reg 3..4; 1..1 if r0 == r0 goto 2; 2..2 skip; halt"),
        ROOM,
        (0, 0, 4, 1, 3),
    ),
    # No yes state: the test, the skip, halt at tick 3.
    (
        "H: less",
        text("thread; reg 3..4; 1..1 if r0 < r0 goto 2; 2..2 skip; halt"),
        ROOM,
        (0, 0, 3, 3, 3),
    ),
    ("nesting twelve", depth(12), ROOM, (0, 0, 2, 1, 1)),
    ("nesting thirteen", depth(13), ROOM, (6, 38, 0, 0, 0)),
    # A state before each of the 63 skips, and the one at halt.
    ("64 statements", statements(64), ROOM, (0, 0, 64, 63, 63)),
    ("65 statements", statements(65), ROOM, (8, 27 + 64 * 8, 0, 0, 0)),
    ("skip with least time 0", text("thread; 0..3 skip; halt"), ROOM, (4, 27, 0, 0, 0)),
    (
        "skip with greatest time 65,535",
        text("thread; 1..65535 skip; halt", limit=65535, label=(0, 65535)),
        ROOM,
        (0, 0, 2, 1, 65535),
    ),
    ("limit 1,000,001", text("thread; halt", limit=1000001), ROOM, (4, 0, 0, 0, 0)),
]


def entry(data, lent, five):
    return struct.pack(">HHBHIIIB", len(data), lent, *five, NOT_PLANTED) + data


def corpus(entries):
    return struct.pack(">I", len(entries)) + b"".join(entries)


def joined(parts):
    """One corpus of several: the count is the sum, the entries follow one another."""
    count = sum(struct.unpack(">I", part[:4])[0] for part in parts)
    return struct.pack(">I", count) + b"".join(part[4:] for part in parts)


def main(arguments):
    if arguments[:1] == ["--join"] and len(arguments) > 1:
        parts = []
        for name in arguments[1:]:
            with open(name, "rb") as file:
                parts.append(file.read())
        out = joined(parts)
    elif not arguments:
        out = corpus([entry(data, lent, five) for _, data, lent, five in SHEETS])
    else:
        sys.exit("usage: worked_sheets.py [--join FILE FILE..] > FILE")
    sys.stdout.buffer.write(out)


if __name__ == "__main__":
    main(sys.argv[1:])
