"""Sheets and new times with what ./zumbeiry preview gives for them, a module of try_preview.py. The numbers are worked out by hand
from the papers."""

from any_sheet import assemble
from calls import B


def sheet_of(body, limit=10, budget=100, label="0..10"):
    """The bytes of a sheet whose lines are divided by semicolons."""
    return assemble([f"limit {limit}", f"budget {budget}", f"label {label}", "locks 2", *body.split(";")])


def b_with(**header):
    return sheet_of("thread; 2..3 skip; halt", **header)


SLOWER = B[:32] + b"\x00\x05" + B[34:]  # B with times 2..5
C = sheet_of("thread; 1..4 skip; halt; thread; 2..3 skip; halt")
E = sheet_of("thread; 1..1 lock l0; 1..1 lock l1; halt; thread; 1..1 lock l1; 1..1 lock l0; halt")
F = sheet_of("thread; reg 0..9; 1..1 if r0 < 5 goto 2; 10..10 skip; halt", limit=11, label="0..11")
G = sheet_of("thread; reg -1..1; 1..1 r0 := 10 / r0; halt")
LOWEST = sheet_of("thread; reg -1..-1; 1..1 r0 := -2147483648 / r0; halt")
HALTS = sheet_of("thread; 1..1 if true goto 2; halt; 2..2 skip; halt")
LONG = sheet_of("thread; 1..1 skip; halt", limit=100_000, label="1..65535")
FULL = sheet_of("thread;" + "1..1 skip;" * 63 + "halt", limit=100, label="63..63")

NO_MORE = "there is no window any more, it was 2..3; the label 2..3 may no longer stay\n"
AS_BEFORE = "there is no window, as before; the label 0..10 may not stay, as before\n"


def becomes(window):
    return f"what changes: the window 2..3 becomes {window}; the label 2..3 "


# sheet, thread and statement, times; the five numbers now and then; what is said
CHANGED = (
    (B, "0 0", "2..5", "0 0 2 2 3", "15 0 2 2 5", becomes("2..5") + "may no longer stay\n", "times 2..5 instead of 2..3:\n"),
    (B, "0 0", "3..3", "0 0 2 2 3", "0 0 2 3 3", becomes("3..3") + "may still stay\n", "then, accepted: "),
    (B, "0 0", "2..3", "0 0 2 2 3", "0 0 2 2 3", "the window stays 2..3; the label 2..3 may still stay\n"),
    (B, "0 0", "1..1", "0 0 2 2 3", "15 0 2 1 1", becomes("1..1"), "at byte 27: statement 0 of thread 0, skip "),
    (B, "0 0", "10..10", "0 0 2 2 3", "15 0 2 10 10", becomes("10..10")),
    (B, "0 0", "2..11", "0 0 2 2 3", "12 0 1 0 0", NO_MORE),
    (B, "0 0", "1..65535", "0 0 2 2 3", "12 0 1 0 0", "then, refused, 12 past the limit", "the limit is 10 ticks"),
    (B, "0 1", "0..0", "0 0 2 2 3", "0 0 2 2 3", "times 0..0 instead of 0..0:\n", "statement 1 of thread 0, halt "),
    (B, "000 00", "02..05", "0 0 2 2 3", "15 0 2 2 5", "times 2..5 instead of 2..3:\n"),
    (b_with(label="3..3"), "0 0", "3..3", "15 0 2 2 3", "0 0 2 3 3", "2..3 becomes 3..3; the label 3..3 may then stay\n"),
    (b_with(limit=2, label="0..2"), "0 0", "1..2", "12 0 1 0 0", "0 0 2 1 2", "there is a window, 1..2; the label 0..2 may"),
    (b_with(limit=3, label="0..3"), "0 0", "1..4", "0 0 2 2 3", "12 0 1 0 0", "the limit is 3 ticks"),
    (b_with(budget=1), "0 0", "2..2", "13 0 1 0 0", "13 0 1 0 0", AS_BEFORE),
    (C, "1 0", "2..4", "0 0 5 2 4", "0 0 5 2 4", "the window stays 2..4", "at byte 47: statement 0 of thread 1, skip "),
    (C, "1 0", "1..1", "0 0 5 2 4", "0 0 5 1 4", "the window 2..4 becomes 1..4"),
    (C, "0 0", "5..6", "0 0 5 2 4", "0 0 3 5 6", "the window 2..4 becomes 5..6; the label 0..10 may still stay\n"),
    (E, "1 1", "1..1", "11 0 3 0 0", "11 0 3 0 0", "now, refused, 11 stuck", "then, refused, 11", "statement 1 of thread 1, lock "),
    (F, "0 1", "9..9", "0 0 4 1 11", "0 0 4 1 10", "the window 1..11 becomes 1..10", "statement 1 of thread 0, skip "),
    (F, "0 1", "10..11", "0 0 4 1 11", "12 0 3 0 0", "may no longer stay\n", "took 3 states\n"),
    (G, "0 0", "5..6", "10 38 1 0 0", "10 38 1 0 0", "then, refused, 10 no reading", "statement 0 of thread 0, assign "),
    (LOWEST, "0 0", "5..6", "16 38 1 0 0", "16 38 1 0 0", "then, refused, 16 off the scale", "there is no window, as before"),
    (HALTS, "0 1", "0..0", "0 0 3 3 3", "0 0 3 3 3", "times 0..0 instead of 0..0:\n", "statement 1 of thread 0, halt "),
    (HALTS, "0 2", "1..9", "0 0 3 3 3", "0 0 3 2 10", "the window 3..3 becomes 2..10; the label 0..10 may still stay\n"),
    (LONG, "0 0", "65535..65535", "0 0 2 1 1", "0 0 2 65535 65535", "1..1 becomes 65535..65535; the label 1..65535 may"),
    (FULL, "0 62", "1..2", "0 0 64 63 63", "15 0 64 63 64", "statement 62 of thread 0, skip ", "63..63 becomes 63..64"),
)

ACCEPTED = "0 0 2 2 3"
HALT_FITS = "its times are 0..0; asked for: "

# sheet, thread and statement, times; the five numbers now; the refusal; what is said
REFUSED = (
    (B, "0 2", "2..3", ACCEPTED, 5, "then, refused, 5 no such name", "statement 2 of thread 0\n", "thread 0 has 2 statements, from"),
    (B, "1 0", "2..3", ACCEPTED, 5, "asked for: statement 0 of thread 1\n", "the sheet has 1 thread, from 0 on\n"),
    (C, "2 0", "2..3", "0 0 5 2 4", 5, "the sheet has 2 threads, from 0 on\n"),
    (B, "0 2", "3..2", ACCEPTED, 5, "refused, 5 no such name"),  # 5 comes before 4
    (B, "1 9", "0..0", ACCEPTED, 5, "the sheet has 1 thread, from 0 on\n"),
    (B, "4294967296 0", "2..3", ACCEPTED, 5, "statement 0 of thread 4294967296\n", "the sheet has 1 thread"),
    (B, "0 18446744073709551616", "2..3", ACCEPTED, 5, "statement 18446744073709551616 of thread 0\n", "has 2 statements"),
    (B, f"{'9' * 5000} {'1' * 5000}", "2..3", ACCEPTED, 5, f"statement {'1' * 20}... of thread {'9' * 20}...\n"),
    (FULL, "0 64", "1..1", "0 0 64 63 63", 5, "thread 0 has 64 statements, from 0 on\n"),
    (B, "0 0", "3..2", ACCEPTED, 4, "then, refused, 4 off range", "its times are 2..3; asked for: 3..2\n", "of thread 0, skip "),
    (B, "0 0", "0..3", ACCEPTED, 4, "its times are 2..3; asked for: 0..3\n"),
    (B, "0 0", "0..0", ACCEPTED, 4, "asked for: 0..0\n"),
    (B, "0 0", "1..65536", ACCEPTED, 4, "asked for: 1..65536\n"),
    (B, "0 0", "65536..65536", ACCEPTED, 4, "asked for: 65536..65536\n"),
    (B, "0 0", "65538..65539", ACCEPTED, 4, "asked for: 65538..65539\n"),
    (B, "0 0", "4294967298..4294967299", ACCEPTED, 4, "asked for: 4294967298..4294967299\n"),
    (B, "0 0", "18446744073709551618..18446744073709551619", ACCEPTED, 4, "18446744073709551618..18446744073709551619\n"),
    (B, "0 0", f"2..1{'0' * 5000}", ACCEPTED, 4, f"asked for: 2..1{'0' * 19}...\n"),
    (B, "0 1", "0..1", ACCEPTED, 4, HALT_FITS + "0..1\n", "statement 1 of thread 0, halt "),
    (B, "0 1", "1..1", ACCEPTED, 4, HALT_FITS + "1..1\n"),
    (B, "0 1", "65536..65536", ACCEPTED, 4, HALT_FITS + "65536..65536\n"),
    (G, "0 0", "3..2", "10 38 1 0 0", 4, "now, refused, 10 no reading", "then, refused, 4 off range"),
    (E, "0 3", "1..1", "11 0 3 0 0", 5, "now, refused, 11 stuck", "thread 0 has 3 statements, from 0 on\n"),
)

# sheets that do not read, with the five numbers
UNREAD = (
    (b"", "1 0 0 0 0"),
    (B[:42], "1 35 0 0 0"),
    (B[19:], "2 0 0 0 0"),
    (B[:2] + b"\x11" + B[3:], "3 0 0 0 0"),
    (B[:34] + b"\x08" + B[35:], "4 27 0 0 0"),
    (B[:5] + b"\x00\x00" + B[7:], "4 0 0 0 0"),
    (sheet_of("thread; 1..1 lock l2; halt"), "5 27 0 0 0"),
    (sheet_of("thread; reg 0..0; 1..1 r0 := " + "(" * 12 + "0" + " + 0)" * 12 + "; halt"), "6 38 0 0 0"),
    (B[:35], "7 27 0 0 0"),
    (sheet_of("thread; halt;" * 4 + "thread; halt"), "8 71 0 0 0"),
    (b"\x01" * 16_385, "9 0 0 0 0"),
    (bytes(20_000), "9 0 0 0 0"),
)
