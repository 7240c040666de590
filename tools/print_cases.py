"""Sheets with what ./zumbeiry print gives for them, a module of try_print.py and try_diff.py: texts worked out by hand from the papers, and
sheets that do not read, of which try_command.py takes the numbers too."""

from any_sheet import assemble
from calls import B
from convert_cases import B_TEXT
from preview_cases import C, sheet_of

HEAD = "limit 10\nbudget 100\nlabel 0..10\nlocks 2\n"
C_TEXT = HEAD + "thread\n1..4 skip\nhalt\nthread\n2..3 skip\nhalt\n"

# an expression as it is typed, and as it is printed
ARITHMETIC = (
    *((plain, plain) for plain in ("0", "7", "-1", "-2147483648", "2147483647", "r0", "r7", "r0 + 1", "r0 - -1", "-1 - 1", "-5 * -6")),
    *((spaced, "r0 + 2 * 3") for spaced in ("r0+2*3", "  r0  +  2  *  3  ", "r0 + (2 * 3)", "((r0) + ((2) * 3))", "r00 + 02 * 0003")),
    *((kept, kept) for kept in ("(r0 + 2) * 3", "2 * (r0 + 3)", "(1 - r0) / (2 - r0)", "r0 - (2 - 3)", "r0 + (2 + 3)", "r0 - (2 + 3)")),
    *((kept, kept) for kept in ("r0 * (2 * 3)", "r0 / (2 * 3)", "r0 / (2 / 3)", "r0 - (1 - (2 - 3))", "1 * (2 * (3 + 4))")),
    ("(r0 + 2) + 3", "r0 + 2 + 3"),
    ("((r0 - 2) - 3) + 4", "r0 - 2 - 3 + 4"),
    ("((r0 * 2) / 3) * 4", "r0 * 2 / 3 * 4"),
    ("(r0 * 2) + (3 / 4)", "r0 * 2 + 3 / 4"),
    ("((((1))))", "1"),
    ("-0", "0"),
    ("- 1", "-1"),
    ("r0 - (-1)", "r0 - -1"),
)
CONDITIONS = (
    *((plain, plain) for plain in ("true", "false", "!true", "!!false", "r0 < 5", "!r0 < 5", "!!r0 == -5", "true && false")),
    *((kept, kept) for kept in ("true && (false && true)", "!(true && false)", "!(!true && r0 < 1)", "(r0 + 1) * 2 == 3")),
    ("(true)", "true"),
    ("!(r0 < 5)", "!r0 < 5"),
    ("!(!(!(r0 == 1)))", "!!!r0 == 1"),
    ("(true && false) && true", "true && false && true"),
    ("((r0 < 1) && (!(r1 == 2))) && (r2 < 3)", "r0 < 1 && !r1 == 2 && r2 < 3"),
    ("((r0 + (1 * 2)) < ((3 - 4)))", "r0 + 1 * 2 < 3 - 4"),
    ("!true&&!(false)", "!true && !false"),
    ("true && (true && (true && (!(true && false))))", "true && (true && (true && !(true && false)))"),
)
STATEMENTS = ("skip", "store r7 to x1", "load r0 from x0", "lock l1", "unlock l0", "if true goto 0", "if false goto 1")

FRONT = HEAD + "var -3..-2\nvar 0..0\nthread\n" + "reg -1..2147483647\n" * 8


def with_statement(words):
    """A text of one statement and halt."""
    return f"{FRONT}1..65535 {words}\nhalt\n"


def printed_as(form, pairs):
    """The sheets of statements with these expressions, and their texts."""
    for typed, printed in pairs:
        yield assemble(with_statement(form.format(typed)).splitlines()), with_statement(form.format(printed)).encode()


FALSES = "1..1 if " + "false && (" * 10 + "false && false" + ")" * 10 + " goto 0\n"
LARGE = HEAD + ("thread\n" + FALSES * 63 + "halt\n") * 4  # a sheet of 8,135 bytes, and a text of 35,368

# sheet, text
PRINTED = (
    (B, B_TEXT.encode()),
    (C, C_TEXT.encode()),
    *printed_as("r3 := {}", ARITHMETIC),
    *printed_as("if {} goto 1", CONDITIONS),
    *printed_as("{}", zip(STATEMENTS, STATEMENTS)),
    (assemble(LARGE.splitlines()), LARGE.encode()),
)

# sheets that do not read: refusal and place, what is said
UNREAD = (
    (b"", "1 0", "at byte 0: here the sheet ends"),
    (B[:2], "1 0", "a header of which 2 of 3 bytes are there"),
    (B[:27], "1 27", "due there: a statement of thread 0 (tag 6)"),
    (B[:35], "7 27", "statement 0 of thread 0, skip (tag 6, length 5)"),
    (B[:42], "1 35", "of which 7 of 8 bytes are there"),
    (B[19:], "2 0", "the number of locks (tag 3, length 1)"),
    (B[:1] + b"\xff" + B[2:], "1 0", "of which 43 of 65299 bytes are there"),
    (B[:2] + b"\x11" + B[3:], "3 0", "limit, budget and label (tag 1, length 17)"),
    (B[:23] + B[27:], "2 23", "statement 0 of no thread"),
    (B[:34] + b"\x08" + B[35:], "4 27", "statement 0 of thread 0 (tag 6, length 5)"),
    (sheet_of("thread; 1..1 lock l2; halt"), "5 27", "statement 0 of thread 0, lock (tag 6, length 6)"),
    (sheet_of("thread; 1..1 if true goto 0; halt")[:-9] + b"\x26" + B[35:], "6 27", "statement 0 of thread 0, if"),
    (sheet_of("thread; halt;" * 4 + "thread; halt"), "8 71", "the start of thread 4 (tag 4, length 1)"),
    (b"\x07\x00\x00", "2 0", "it was taken as bytes"),
    (b"\x00" * 20_000_000, "9 0", "refused, 9 too long"),
    (bytes(range(256)) * 60, "2 0", "a field of no known kind (tag 0, length 258)"),
)
