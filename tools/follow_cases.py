"""Sheets and records with what ./zumbeiry follow gives for them, a module of try_follow.py. The numbers are worked out by hand from
the papers."""

import struct

from any_sheet import assemble
from calls import B
from fields import field


def sheet_of(body, label="0..10", locks=0):
    """The bytes of a sheet whose lines are divided by semicolons."""
    return assemble(["limit 200000", "budget 100", f"label {label}", f"locks {locks}", *body.split(";")])


def value(number):
    return field(32, struct.pack(">i", number))


def event(thread, tick):
    return field(33, struct.pack(">BH", thread, tick % 65_536))


def events(*pairs):
    return b"".join(event(*pair) for pair in pairs)


A = sheet_of("thread; halt")
C = sheet_of("thread; 1..4 skip; halt; thread; 2..3 skip; halt")
D = sheet_of("thread; 1..1 lock l0; 1..1 unlock l0; halt;" * 2, locks=1)
E = sheet_of("thread; 1..1 lock l0; 1..1 lock l1; halt; thread; 1..1 lock l1; 1..1 lock l0; halt", locks=2)
F = sheet_of("thread; reg 0..9; 1..1 if r0 < 5 goto 2; 10..10 skip; halt", label="0..11")
G = sheet_of("thread; reg -1..1; 1..1 r0 := -2147483648 / r0; halt")
LONG = sheet_of("thread;" + "1..65535 skip;" * 3 + "halt", label="3..196605")
ROUND = sheet_of("thread; 1..1 if true goto 0; halt")
VALUES = sheet_of("var -1..1; var 5..5; thread; reg -9..-7; halt; thread; reg 0..0; reg -2147483648..2147483647; halt")

STARTS = b"".join(map(value, (0, 5, -8, 0, -2_147_483_648)))
TRIES = [(thread, tick) for tick in range(2, 13) for thread in (0, 1)]
LONGEST = events(*((0, tick) for tick in range(1, 10_923)))  # 65,532 bytes
HOLDS = "the label 2..3 holds\n"

# sheet, record, whether finished and the last tick, the exit status, what is said
RUNS = (
    (B, b"", "0 0", 0, "a run of 0 events, not finished: its last tick is 0, the label 2..3\n"),
    (B, event(0, 2), "1 2", 0, "a run of 1 event, finished at tick 2: " + HOLDS),
    (B, event(0, 3), "1 3", 0, "a run of 1 event, finished at tick 3: " + HOLDS),
    (B[:14] + b"\x03" + B[15:], event(0, 2), "1 2", 1, "at tick 2: the label 3..3 does not hold\n  a label that "),
    (B[:18] + b"\x02" + B[19:], event(0, 3), "1 3", 1, "at tick 3: the label 2..2 does not hold\n"),
    (A, b"", "1 0", 0, "a run of 0 events, finished at tick 0: the label 0..10 holds\n"),
    (C, event(1, 2), "0 2", 0, "a run of 1 event, not finished: its last tick is 2, the label 0..10\n"),
    (C, events((1, 2), (0, 4)), "1 4", 0, "a run of 2 events, finished at tick 4: "),
    (C, events((0, 3), (1, 3)), "1 3", 0, "a run of 2 events, finished at tick 3: "),
    (D, events((0, 1), (1, 1), (1, 2), (0, 2), (1, 3), (1, 4)), "1 4", 0, "a run of 6 events, finished at tick 4: "),
    (E, events((0, 1), (1, 1), *TRIES[:18]), "0 10", 0, "a run of 20 events, not finished: its last tick is 10, the label"),
    (E, events((0, 1), (1, 1), *TRIES), "0 12", 1, "its last tick is 12, past the label 0..10\n  a label that"),
    (F, value(4) + event(0, 1), "1 1", 0, "a run of 1 event, finished at tick 1: the label 0..11 holds\n"),
    (F, value(5) + event(0, 1), "0 1", 0, "a run of 1 event, not finished: its last tick is 1"),
    (F, value(9) + events((0, 1), (0, 11)), "1 11", 0, "finished at tick 11: the label 0..11 holds\n"),
    (G, value(1) + event(0, 1), "1 1", 0, "finished at tick 1"),
    (LONG, events((0, 65_535), (0, 131_070), (0, 196_605)), "1 196605", 0, "at tick 196,605: the label 3..196605 holds\n"),
    (LONG, events((0, 65_535), (0, 65_536), (0, 131_071)), "1 131071", 0, "finished at tick 131,071: "),
    (LONG, events((0, 1), (0, 65_536)), "0 65536", 0, "a run of 2 events, not finished: its last tick is 65,536, "),
    (VALUES, STARTS, "1 0", 0, "a run of 0 events, finished at tick 0"),
    (ROUND, LONGEST, "0 10922", 1, "a run of 10,922 events, not finished: its last tick is 10,922, past the label 0..10\n"),
)

R0, EVENT_DUE = "the starting value of register r0 of thread 0", "due there: an event (tag 33)\n"
R0_DUE = f"due there: {R0} (tag 32)\n"

# sheet, record, the refusal and its place, what is said
REFUSED = (
    (F, b"", "1 1 0", "refused, 1 short", "at byte 0: here the record ends\n", R0_DUE),
    (F, b"\x20\x00", "1 1 0", "a header of which 2 of 3 bytes", R0_DUE),
    (F, value(3)[:6], "1 1 0", f"at byte 0: {R0} (tag 32, length 4), of which 6 of 7 bytes are there"),
    (B, b"\x21", "1 1 0", "a header of which 1 of 3 bytes", EVENT_DUE),
    (B, event(0, 2)[:5], "1 1 0", "at byte 0: event 0 (tag 33, length 3), of which 5 of 6 bytes are there"),
    (VALUES, STARTS[:7], "1 1 7", "here the record ends\n", "due there: the starting value of variable x1 (tag 32)\n"),
    (VALUES, STARTS[:28], "1 1 28", "due there: the starting value of register r1 of thread 1 (tag 32)\n"),
    (F, event(0, 1), "2 1 0", "refused, 2 out of turn", "at byte 0: event 0, thread 0 at tick 1 (tag 33, length 3)\n", R0_DUE),
    (F, value(3) + value(3), "2 1 7", "at byte 7: a starting value, 3 (tag 32, length 4)\n", EVENT_DUE),
    (B, b"\x01\xff\xff", "2 1 0", "a field of no known kind (tag 1, length 65535)", EVENT_DUE),
    (B, event(0, 2) + b"\x00\x00\x00", "2 1 6", "at byte 6: a field of no known kind (tag 0, length 0)\n", EVENT_DUE),
    (F, field(32, b"\0\0\3"), "3 1 0", "refused, 3 bad length", f"at byte 0: {R0} (tag 32, length 3)\n"),
    (B, field(33, b"\0\0\2\0"), "3 1 0", "refused, 3 bad length", "at byte 0: event 0 (tag 33, length 4)\n"),
    (F, value(10), "4 1 0", "refused, 4 off range", f"at byte 0: {R0}, 10 (tag 32, length 4)\n  what fits: 0..9\n"),
    (F, value(-1) + b"\x00", "4 1 0", f"{R0}, -1 (tag 32, length 4)\n  what fits: 0..9\n"),
    (VALUES, STARTS[:7] + value(4), "4 1 7", "at byte 7: the starting value of variable x1, 4 ", "what fits: 5..5\n"),
    (VALUES, STARTS[:14] + value(-6), "4 1 14", f"at byte 14: {R0}, -6 ", "what fits: -9..-7\n"),
    (C, event(2, 3), "5 1 0", "refused, 5 no such name", "thread 2 at tick 3 ", "the sheet has 2 threads, from 0 on\n"),
    (B, events((0, 2), (255, 2)), "5 1 6", "at byte 6: event 1, thread 255 at tick 2 ", "the sheet has 1 thread, from 0 on\n"),
    (B, b"\x01" * 65_537, "9 1 0", "refused, 9 too long: more than 65,536 bytes\n  in record, the record\n  what to do: "),
    (B, b"\x01" * 65_536, "2 1 0", "a field of no known kind (tag 1, length 257)\n"),
    (ROUND, LONGEST + b"\x21\0\3\0", "1 1 65532", "at byte 65532: event 10922 ", "of which 4 of 6 bytes are there"),
    (ROUND, LONGEST + b"\x21\0\3\0\0", "9 1 0", "refused, 9 too long"),
    (G, value(0) + event(0, 1), "10 1 7", "refused, 10 no reading", "at byte 7: event 0, thread 0 at tick 1 "),
    (G, value(-1) + event(0, 1), "16 1 7", "refused, 16 off the scale", "at byte 7: event 0, thread 0 at tick 1 "),
    (B, event(0, 1), "21 1 0", "refused, 21 not a run", "in record, the record\n", "event 0, thread 0 at tick 1 "),
    (B, event(0, 4), "21 1 0", "at byte 0: event 0, thread 0 at tick 4 "),
    (B, events((0, 2), (0, 4)), "21 1 6", "at byte 6: event 1, thread 0 at tick 4 "),
    (A, event(0, 0), "21 1 0", "at byte 0: event 0, thread 0 at tick 0 "),
    (C, event(0, 4), "21 1 0", "at byte 0: event 0, thread 0 at tick 4 "),
    (C, events((0, 1), (1, 4)), "21 1 6", "at byte 6: event 1, thread 1 at tick 4 "),
    (LONG, events((0, 65_535), (0, 65_535)), "21 1 6", "at byte 6: event 1, thread 0 at tick 65,535 "),
    (F, value(5) + events((0, 1), (0, 12)), "21 1 13", "at byte 13: event 1, thread 0 at tick 12 "),
    (b"", b"", "1 0 0", "refused, 1 short: the sheet ends", "in sheet, the sheet\n", "at byte 0: here the sheet ends\n"),
    (B[:35], b"\x21", "7 0 27", "refused, 7 no halt", "in sheet, the sheet\n", "statement 0 of thread 0, skip "),
    (B[19:], event(0, 2), "2 0 0", "the number of locks (tag 3, length 1)", "(it was taken as bytes, since it holds"),
    (B[:34] + b"\x08" + B[35:], b"\x01" * 65_537, "4 0 27", "refused, 4 off range: a number or code outside its range"),
    (b"\x01" * 16_385, event(0, 2), "9 0 0", "refused, 9 too long: more than 16,384 bytes\n  in sheet, the sheet\n  what"),
)
