"""Sheets and changes with what ./zumbeiry take-back gives for them, a module of try_take_back.py. The numbers are worked out by
hand from the papers."""

from calls import B
from preview_cases import C, E, FULL, G, LONG, SLOWER


def timed(sheet, offset, least, greatest):
    """The sheet with these times on the statement at the offset."""
    return sheet[: offset + 3] + least.to_bytes(2, "big") + greatest.to_bytes(2, "big") + sheet[offset + 7 :]


ELSEWHERE = B[:18] + b"\x05" + B[19:]  # B with the label 2..5
AGAIN = "taken back: the times were 2..5 and are 2..3 again\n  at byte 27: statement 0 of thread 0, skip (tag 6, length 5)\n"

# sheet, the words behind it; the sheet afterwards; what is said
TAKEN = (
    (SLOWER, "0 0 2..3 2..5", B, AGAIN, "written: sheet has the old times\n"),
    (SLOWER, "000 00 02..003 0002..05", B, AGAIN),
    (B, "0 0 2..5 2..3", SLOWER, "the times were 2..3 and are 2..5 again\n"),
    (B, "0 0 1..65535 2..3", timed(B, 27, 1, 65_535), "and are 1..65535 again\n"),
    (timed(B, 27, 515, 1026), "0 0 65535..65535 515..1026", timed(B, 27, 65_535, 65_535), "were 515..1026 and "),
    (timed(B, 27, 65_535, 65_535), "0 0 256..513 65535..65535", timed(B, 27, 256, 513), "and are 256..513 again\n"),
    (timed(ELSEWHERE, 27, 2, 5), "0 0 2..3 2..5", ELSEWHERE, AGAIN),  # what was written elsewhere stays
    (timed(C, 47, 1, 9), "1 0 2..3 1..9", C, "at byte 47: statement 0 of thread 1, skip "),
    (timed(E, 36, 7, 7), "0 1 1..1 7..7", E, "at byte 36: statement 1 of thread 0, lock "),  # stuck before and afterwards
    (timed(G, 38, 2, 2), "0 0 1..1 2..2", G, "statement 0 of thread 0, assign "),
    (timed(LONG, 27, 5, 5), "0 0 1..1 5..5", LONG, "statement 0 of thread 0, skip "),
    (timed(FULL, 523, 1, 2), "0 62 1..1 1..2", FULL, "at byte 523: statement 62 of thread 0, skip "),
)

NOTHING = "sheet has the old times already: nothing is written\n"

# the same, where old and new times are the same ones
SAME = (
    (B, "0 0 2..3 2..3", "taken back: the change left the times as they were, 2..3\n  at byte 27: ", NOTHING),
    (B, "0 1 0..0 0..0", "left the times as they were, 0..0\n  at byte 35: statement 1 of thread 0, halt ", NOTHING),
)

OLD_FIT = "its times are 2..5; old times asked for: "
WROTE = "its times are 2..3; the change wrote "

# sheet, the words behind it; the refusal; what is said
REFUSED = (
    (SLOWER, "0 2 2..3 2..5", 5, "refused, 5 no such name", "statement 2 of thread 0\n", "thread 0 has 2 statements, "),
    (SLOWER, "1 0 2..3 2..5", 5, "asked for: statement 0 of thread 1\n", "the sheet has 1 thread, from 0 on\n"),
    (C, "4 0 2..3 2..5", 5, "the sheet has 2 threads, from 0 on\n"),
    (SLOWER, "0 2 3..2 2..5", 5, "refused, 5 no such name"),  # 5 comes before 4
    (SLOWER, "0 2 2..3 9..9", 5, "refused, 5 no such name"),  # and before 18
    (SLOWER, "0 18446744073709551616 2..3 2..5", 5, "statement 18446744073709551616 of thread 0\n"),
    (SLOWER, f"{'9' * 5000} {'1' * 5000} 2..3 2..5", 5, f"statement {'1' * 20}... of thread {'9' * 20}...\n"),
    (SLOWER, "0 0 3..2 2..5", 4, "refused, 4 off range", OLD_FIT + "3..2\n", "at byte 27: statement 0 of thread 0, skip "),
    (SLOWER, "0 0 0..3 2..5", 4, OLD_FIT + "0..3\n"),
    (SLOWER, "0 0 0..0 2..5", 4, OLD_FIT + "0..0\n"),
    (SLOWER, "0 0 2..65536 2..5", 4, OLD_FIT + "2..65536\n"),
    (SLOWER, "0 0 65538..65539 2..5", 4, OLD_FIT + "65538..65539\n"),
    (SLOWER, f"0 0 2..1{'0' * 5000} 2..5", 4, OLD_FIT + f"2..1{'0' * 19}...\n"),
    (SLOWER, "0 0 3..2 9..9", 4, "refused, 4 off range"),  # 4 comes before 18
    (SLOWER, "0 1 0..1 0..0", 4, "its times are 0..0; old times asked for: 0..1\n", "statement 1 of thread 0, halt "),
    (SLOWER, "0 1 1..1 0..0", 4, "old times asked for: 1..1\n"),
    (B, "0 0 2..3 2..5", 18, "refused, 18 changed since", WROTE + "2..5 instead of 2..3\n", "at byte 27: statement 0 of "),
    (B, "0 0 2..4 1..3", 18, WROTE + "1..3 instead of 2..4\n"),
    (B, "0 0 2..4 2..2", 18, WROTE + "2..2 instead of 2..4\n"),
    (B, "0 0 2..4 3..2", 18, WROTE + "3..2 instead of 2..4\n"),  # new times are only compared
    (B, "0 0 2..4 0..0", 18, WROTE + "0..0 instead of 2..4\n"),
    (B, "0 0 2..4 258..259", 18, WROTE + "258..259 instead of 2..4\n"),
    (B, "0 0 2..4 65538..65539", 18, WROTE + "65538..65539 instead of 2..4\n"),
    (B, "0 0 2..4 18446744073709551618..18446744073709551619", 18, "18446744073709551618..18446744073709551619 instead "),
    (B, f"0 0 2..4 2..3{'0' * 5000}", 18, WROTE + f"2..3{'0' * 19}... instead of 2..4\n"),
    (B, "0 1 0..0 0..1", 18, "its times are 0..0; the change wrote 0..1 instead of 0..0\n", "statement 1 of thread 0, halt "),
    (C, "1 0 1..4 1..4", 18, "at byte 47: statement 0 of thread 1, skip "),  # the other thread has these
)
