"""Sheets with what ./zumbeiry mend gives for them, a module of try_mend.py. The answers are worked out by hand from the
papers."""

from calls import B
from mend import HALT
from preview_cases import C, FULL, SLOWER, b_with, sheet_of
from fields import field

GARBLED = B[:11] + B[15:19] + B[11:15] + B[19:30] + B[32:34] + B[30:32] + B[34:35]  # B, all that may be garbled is
DEEP = "(" * 12 + "0" + " + 0)" * 12
SKIPS = "1..1 skip;"


def doubled(leaves):
    """A sum of so many registers, nested as little as may be."""
    if leaves == 1:
        return bytes((17, 0))
    return bytes((18,)) + doubled(leaves // 2) + doubled(leaves - leaves // 2)


def long_sheet(length):
    """A sheet of that length, 15,449 bytes or more, that reads but for its halt: five large sums, then skips and one sum."""
    front = sheet_of("thread; reg 0..0")
    sums = [field(6, bytes((0, 1, 0, 1, 2, 0)) + doubled(leaves)) for leaves in [1024] * 5]
    rest = length - len(front) - sum(map(len, sums)) - 8  # a sum of n registers has 8 + 3 n bytes, a skip has 8
    skips = next(count for count in range(3) if (rest - 8 * count) % 3 == 0)
    last = field(6, bytes((0, 1, 0, 1, 2, 0)) + doubled((rest - 8 * skips) // 3))
    return front + b"".join(sums) + field(6, bytes((0, 1, 0, 1, 1))) * skips + last


def many(var, reg, skip, label, halt=""):
    """As many fields as there may be with ends, in four threads."""
    thread = "thread;" + f"reg {reg};" * 8 + f"{skip} skip;" * 63 + halt
    return sheet_of((f"var {var};" * 8 + thread * 4).rstrip(";"), label=label)


MOST = many("1..-1", "9..0", "2..1", "10..0")
ALL = [(1, 0), *((1, 23 + 11 * at) for at in range(8))]  # the changes of MOST
for start in (203, 799, 1395, 1991):  # the first statement of each thread
    ALL += [(1, start - 88 + 11 * at) for at in range(8)] + [(1, start + 8 * at) for at in range(63)] + [(2, start + 496)]

TO_HALT = sheet_of("thread; 1..1 if true goto 1")
LONGEST = long_sheet(16_376)

LABEL = "  exchanged the ends of the label (at byte 0): 3..2 is now 2..3\n"
TIMES = "  exchanged the times of statement 0 of thread 0, skip (at byte 27): 3..2 is now 2..3\n"
ADDED = "  added halt behind statement 0 of thread 0, skip (at byte 27): it is statement 1\n"
HOW = "nothing is written: name a new file behind SHEET, and the mended sheet goes there\n"

# sheet; kind and offset of each change; the mended sheet; what is said
MENDED = (
    (B, [], B, "nothing to mend: the sheet reads well as it is\nnothing is written\n"),
    (C, [], C, "nothing to mend: "),
    (FULL, [], FULL, "nothing to mend: "),
    (SLOWER, [], SLOWER, "nothing to mend: "),  # whether the label holds plays no part
    (GARBLED, [(1, 0), (1, 27), (2, 27)], B, f"mended, 3 changes:\n{LABEL}{TIMES}{ADDED}{HOW}"),
    (GARBLED + HALT, [(1, 0), (1, 27)], B, f"mended, 2 changes:\n{LABEL}{TIMES}{HOW}"),
    (B[:35], [(2, 27)], B, f"mended, 1 change:\n{ADDED}{HOW}"),
    (b_with(label="10..0"), [(1, 0)], b_with(label="0..10"), "the label (at byte 0): 10..0 is now 0..10\n"),
    (b_with(label="5..5"), [], b_with(label="5..5"), "nothing to mend: "),
    (sheet_of("var -1..1; thread; halt"), [], sheet_of("var -1..1; thread; halt"), "nothing to mend: "),  # signed
    (
        sheet_of("var 0..0; var 2147483647..-2147483648; thread; halt"),
        [(1, 34)],
        sheet_of("var 0..0; var -2147483648..2147483647; thread; halt"),
        "the ends of variable x1 (at byte 34): 2147483647..-2147483648 is now -2147483648..2147483647\n",
    ),
    (
        sheet_of("thread; halt; thread; reg 0..0; reg -1..-2; halt"),
        [(1, 50)],
        sheet_of("thread; halt; thread; reg 0..0; reg -2..-1; halt"),
        "the ends of register r1 of thread 1 (at byte 50): -1..-2 is now -2..-1\n",
    ),
    (
        sheet_of("thread; 1..65535 skip; 65535..1 lock l0; halt"),  # unsigned
        [(1, 35)],
        sheet_of("thread; 1..65535 skip; 1..65535 lock l0; halt"),
        "the times of statement 1 of thread 0, lock (at byte 35): 65535..1 is now 1..65535\n",
    ),
    (
        sheet_of("thread; 1..4 skip; thread; 2..3 skip"),
        [(2, 27), (2, 39)],
        C,
        "behind statement 0 of thread 0, skip (at byte 27): it is statement 1\n",
        "behind statement 0 of thread 1, skip (at byte 39): it is statement 1\n",
    ),
    (sheet_of("thread; 1..4 skip; thread; 2..3 skip; halt"), [(2, 27)], C, "mended, 1 change:\n"),
    (sheet_of("thread; 1..4 skip; halt; thread; 3..2 skip"), [(1, 47), (2, 47)], C, "mended, 2 changes:\n"),
    (TO_HALT, [(2, 27)], TO_HALT + HALT, "behind statement 0 of thread 0, if (at byte 27): it is statement 1\n"),
    (sheet_of("thread; halt; 1..1 skip"), [(2, 35)], sheet_of("thread; halt; 1..1 skip; halt"), "it is statement 2\n"),
    (sheet_of(f"thread; {SKIPS * 62} 1..1 skip"), [(2, 523)], sheet_of(f"thread; {SKIPS * 63} halt"), "it is statement 63\n"),
    (LONGEST, [(2, 15_438)], LONGEST + HALT, "behind statement 5 of thread 0, assign (at byte 15438): it is statement 6\n"),
    (MOST, ALL, many("-1..1", "0..9", "1..2", "0..10", "halt;"), "mended, 297 changes:\n", "statement 62 of thread 3, skip"),
)

HEALS_NOT = ": exchanging them does not heal it\n"
OFF = "refused, 4 off range: a number or code outside its range, also with the ends exchanged where low is above high\n"
THE_65TH = "its thread has 64 statements, and the halt that it lacks would be the 65th\n"

# sheet; refusal and place; what is said
REFUSED = (
    (b"", "1 0", "refused, 1 short", "here the sheet ends\n"),
    (B[:42], "1 35", "of which 7 of 8 bytes are there"),
    (GARBLED[:34], "1 27", "of which 7 of 8 bytes are there"),
    (B[:27], "1 27", "due there: a statement of thread 0 (tag 6)\n"),
    (sheet_of("thread; 2..1 skip; thread"), "1 39", "at byte 39: here the sheet ends\n"),  # behind a halt that would be added
    (B[19:], "2 0", "refused, 2 out of turn"),
    (sheet_of("thread; 1..1 skip; thread; 1..1 skip") + field(9, b""), "2 47", "at byte 47: a field of no known kind"),
    (B[:2] + b"\x11" + B[3:], "3 0", "refused, 3 bad length"),
    (sheet_of("thread; 1..1 skip; thread") + field(6, b"\x00"), "3 39", "at byte 39: statement 0 of thread 1 (tag 6"),
    (b_with(label="30..2"), "4 0", OFF, "the label's ends are 30..2" + HEALS_NOT),
    (b_with(limit=0, label="1..0"), "4 0", "what fits: limit 1..1,000,000", "the label's ends are 1..0" + HEALS_NOT),
    (b_with(label="0..4294967295"), "4 0", "what fits: limit 1..1,000,000"),
    (sheet_of("thread; 3..0 skip; halt"), "4 27", "statement 0 of thread 0, skip ", "its times are 3..0" + HEALS_NOT),
    (sheet_of("thread; 0..3 skip; halt"), "4 27", "statement 0 of thread 0, skip ", "what fits: codes 0..7; halt has "),
    (B[:38] + b"\x00\x05\x00\x00\x00", "4 35", "statement 1 of thread 0, halt ", "its times are 5..0" + HEALS_NOT),
    (GARBLED[:34] + b"\x08" + HALT, "4 27", "its times are 3..2" + HEALS_NOT),  # the code is what is wrong
    (sheet_of("thread; 1..1 lock l2"), "5 27", "refused, 5 no such name", "statement 0 of thread 0, lock "),
    (sheet_of("thread; 1..1 if true goto 2"), "5 27", "statement 0 of thread 0, if "),  # the added halt is statement 1
    (sheet_of("thread; 1..1 skip; thread; 1..1 if true goto 2"), "5 39", "at byte 39: statement 0 of thread 1, if "),
    (sheet_of(f"thread; reg 1..0; 2..1 r0 := {DEEP}; halt"), "6 38", "refused, 6 bad expression"),
    (sheet_of("thread; 1..1 skip;" * 4 + "thread; 1..1 skip"), "8 71", "the start of thread 4 (tag 4, length 1)\n"),
    (sheet_of("var 1..0;" * 9 + "thread; halt"), "8 111", "refused, 8 too many: a ninth variable, ", "variable x8 "),
    (sheet_of(f"thread; {SKIPS * 63} 1..1 skip"), "8 531", "statement 63 of thread 0, skip ", THE_65TH),
    (sheet_of(f"thread; {SKIPS * 64} thread; halt"), "8 531", "statement 63 of thread 0, skip ", THE_65TH),
    (sheet_of(f"thread; {SKIPS * 65} halt"), "8 539", "at byte 539: statement 64 of thread 0, skip "),
    (bytes(16_385), "9 0", "refused, 9 too long: more than 16,384 bytes, as it is or "),
    (b"\x01" * 20_000, "9 0", "refused, 9 too long"),
    (long_sheet(16_377), "9 0", "it has 16,377 bytes, and with 1 halt added 16,385\n"),
    (long_sheet(16_384), "9 0", "it has 16,384 bytes, and with 1 halt added 16,392\n"),
    (LONGEST + HALT + sheet_of("thread; 1..1 skip")[23:], "9 0", "refused, 9 too long"),
)
