"""Texts with what ./zumbeiry convert gives for them, a module of try_convert.py. Numbers, places, lines and columns are worked out by
hand from the papers."""

from calls import B

HEAD = "limit 10\nbudget 100\nlabel 0..10\nlocks 1\nvar 0..0\n"  # 49 bytes, lines 1 to 5
THREAD = HEAD + "thread\n"  # 56
REG = THREAD + "reg 0..9\n"  # 65
B_TEXT = "limit 10\nbudget 100\nlabel 2..3\nlocks 0\nthread\n2..3 skip\nhalt\n"
HALTS = "thread\nhalt\n"
SKIPS = "1..1 skip\n"
REGS = "reg 0..0\n"
DEEP = "(" * 12 + "0" + " + 0)" * 12

TWELVE = B_TEXT.replace("thread\n2..3 skip", "thread\nreg 0..0\n2..3 r0 := 0" + " + 0" * 11)  # terms
SUM = B[:26] + bytes.fromhex("01 050008 0000000000000000 06004D 0002 0003 02 00" + "12" * 11 + "1000000000" * 12) + B[35:]

# text, sheet
CONVERTED = (
    (B_TEXT, B),
    (B_TEXT[:-1], B),  # the last newline may be missing
    ("  limit 010 \nbudget 100\nlabel 2 .. 3\nlocks 0\n thread  \n2..  3   skip\nhalt", B),
    (B_TEXT.replace("10\n", "1" + "0" * 4 + "\n", 1), B[:3] + b"\x00\x00\x27\x10" + B[7:]),
    (TWELVE, SUM),
    ("limit 10\nbudget 100\nlabel 0..10\nlocks 0\nthread\nhalt\n", B[:11] + bytes(4) + b"\x00\x00\x00\x0a" + B[19:27] + B[35:]),
)

ENDS, LINE_ENDS, BLANK = "at the mark: the text ends\n", "at the mark: the line ends\n", "the line ends; no line may be blank\n"
BLANK_END = "at the mark: the text ends; no line may be blank\n"
PLAIN = "only plain letters, digits and signs are read (a pasted minus may be another sign)\n"
OPERATORS, CONDITIONS = "+, -, * and / are the operators\n", "< and == compare, ! and && join\n"
LIMIT, BUDGET, LABEL, LOCKS = (f"  due there: {word}\n  what to do: " for word in ("limit", "budget", "label", "locks"))
VAR_OR_THREAD = "  due there: var or thread\n"
REG_OR_STATEMENT = "  due there: reg, or a statement (its times first, or halt)\n"
BEHIND_STATEMENT = "  due there: a statement (its times first, or halt), thread, or the text's end\n"
TIMES = "what fits: times 1..65,535, least at most greatest; values in -2,147,483,648..2,147,483,647; names and"
RANGE = "what fits: low at most high, both in -2,147,483,648..2,147,483,647\n"

# text, refusal and place, line and column, the character over the mark, what is said
REFUSED = (
    ("", "20 0", (1, 1), "", ENDS + LIMIT, "    1 |\n      | ^\n"),
    ("label 0..10\n", "20 1", (1, 2), "a", "at the mark: 'a'\n" + LIMIT),
    ("limit10", "20 5", (1, 6), "1", "at the mark: '1'\n"),
    ("limit 10", "20 8", (1, 9), "", ENDS, "    1 | limit 10\n      |         ^\n"),
    ("limit 10\n", "20 9", (2, 1), "", ENDS + BUDGET, "    1 | limit 10\n    2 |\n      | ^\n"),
    ("limit 10\n\n", "20 9", (2, 1), "", BLANK, "    1 | limit 10\n    2 |\n      | ^\n"),
    ("limit 10\n  \nbudget 1\n", "20 11", (2, 3), "", BLANK, "    1 | limit 10\n    2 |\n      |   ^\n"),
    ("limit 10\n  ", "20 11", (2, 3), "", BLANK_END + BUDGET, "    1 | limit 10\n    2 |\n      |   ^\n"),
    ("\n", "20 0", (1, 1), "", BLANK),
    ("limit -1", "20 6", (1, 7), "-", "at the mark: '-'\n"),
    ("limit ten\n", "20 6", (1, 7), "t"),
    ("limit 99999999999\nbudget 0\n\n", "20 27", (3, 1), "", BLANK),
    ("limit\t10\n", "20 5", (1, 6), "?", "at the mark: a tab; only spaces stand between words\n", "    1 | limit?10\n"),
    ("limit 10\r\nbudget", "20 8", (1, 9), "?", "at the mark: a carriage return; a line ends with a newline alone\n"),
    ("# a comment\n", "20 0", (1, 1), "#", "at the mark: '#'; there are no comments\n" + LIMIT),
    ("Limit 10\n", "20 0", (1, 1), "L", "at the mark: 'L'; words are in lower case\n" + LIMIT),
    ("\xef\xbb\xbflimit 10\n", "20 0", (1, 1), "?", f"at the mark: a byte of value 239; {PLAIN}" + LIMIT, "    1 | ???limit 10\n"),
    ("limit 10 \x1b[31mred\x07\x7f\x00\n", "20 9", (1, 10), "?", "a byte of value 27\n", "    1 | limit 10 ?[31mred???\n"),
    ("limit 1 0\n", "20 8", (1, 9), "0", "at the mark: '0'\n"),
    ("\x01\x00\x10", "20 0", (1, 1), "?", "a byte of value 1\n" + LIMIT, "  (it begins with byte 1, as the bytes of a sheet do: "),
    (HEAD, "20 49", (6, 1), "", ENDS + VAR_OR_THREAD, "    5 | var 0..0\n    6 |\n      | ^\n"),
    (HEAD + "thread", "20 55", (6, 7), "", ENDS, "    6 | thread\n      |       ^\n"),
    (THREAD + "thread\nhalt", "20 56", (7, 1), "t", "at the mark: 't'\n" + REG_OR_STATEMENT),
    ("limi 10\n", "20 4", (1, 5), "", "at the mark: a space\n" + LIMIT),
    ("limits 10\n", "20 5", (1, 6), "s", LIMIT),
    ("limit 10\nbud", "20 12", (2, 4), "", ENDS + BUDGET),
    ("limit 10\nlabel 0..10\n", "20 9", (2, 1), "l", BUDGET),
    ("limit 10\nbudget 100\n  locks 1\n", "20 23", (3, 4), "o", LABEL),
    ("limit 10\nbudget 100\nlabel 0..10\nlock 1\n", "20 36", (4, 5), "", LOCKS),
    ("limit 10\nbudget 100\nlabel 0..10\nthread\n", "20 32", (4, 1), "t", LOCKS),
    (HEAD[:40] + "1..1 skip\n", "20 40", (5, 1), "1", VAR_OR_THREAD),
    (HEAD + "reg 0..0\n", "20 49", (6, 1), "r", VAR_OR_THREAD),
    (HEAD + "threads\n", "20 55", (6, 7), "s", VAR_OR_THREAD),
    (THREAD, "20 56", (7, 1), "", ENDS + REG_OR_STATEMENT),
    (THREAD + "var 0..0\n", "20 56", (7, 1), "v", REG_OR_STATEMENT),
    (THREAD + "skip\nhalt\n", "20 56", (7, 1), "s", REG_OR_STATEMENT),
    (REG + "r0 := 1\nhalt\n", "20 66", (8, 2), "0", REG_OR_STATEMENT),
    (REG, "20 65", (8, 1), "", ENDS + REG_OR_STATEMENT),
    (THREAD + "1..1 skip\n" + REGS, "20 66", (8, 1), "r", BEHIND_STATEMENT),
    (THREAD + "halt\nend\n", "20 61", (8, 1), "e", BEHIND_STATEMENT),
    (THREAD + "halt\n  ", "20 63", (8, 3), "", BLANK_END + BEHIND_STATEMENT.replace(", thread, or the text's end", ", or thread")),
    (THREAD + "1..1 skip now\nhalt\n", "20 66", (7, 11), "n"),
    (THREAD + "1..1 r0 := 1 +\nhalt\n", "20 70", (7, 15), "", LINE_ENDS, "    7 | 1..1 r0 := 1 +\n      |               ^\n"),
    (THREAD + "halt # far\n", "20 61", (7, 6), "#", "there are no comments\n"),
    (THREAD + "halt\n" * 3 + "\n", "20 71", (10, 1), "", BLANK, "     9 | halt\n    10 |\n       | ^\n"),
    (REG + "1..1 r0 := r0 % 2\nhalt\n", "20 79", (8, 15), "%", f"at the mark: '%'; {OPERATORS}"),
    (REG + "1..1 r0 := r0 ^ 2\nhalt\n", "20 79", (8, 15), "^", f"at the mark: '^'; {OPERATORS}"),
    (REG + "1..1 if r0 > 2 goto 1\nhalt\n", "20 76", (8, 12), ">", f"at the mark: '>'; {CONDITIONS}"),
    (REG + "1..1 if true || false goto 1\nhalt\n", "20 78", (8, 14), "|", f"at the mark: '|'; {CONDITIONS}"),
    (THREAD + "1..1 skip; halt\n", "20 65", (7, 10), ";", "';'; one statement stands on a line, with nothing behind it\n"),
    (REG + "1..1 r0 := r0 \xe2\x88\x92 1\nhalt\n", "20 79", (8, 15), "?", f"at the mark: a byte of value 226; {PLAIN}"),
    (REG + "1..1 r0 := r0 \x80 1\nhalt\n", "20 79", (8, 15), "?", f"at the mark: a byte of value 128; {PLAIN}"),
    (REG + "1..1 r0 := r0 \x7f 1\nhalt\n", "20 79", (8, 15), "?", "at the mark: a byte of value 127\n"),
    (THREAD + "0..0 halt\n", "20 61", (7, 6), "h", "at the mark: 'h'; halt has no times\n"),
    (THREAD + " 10 .. 20halt", "20 65", (7, 10), "h", "at the mark: 'h'; halt has no times\n"),
    (THREAD + "0..0 hold\n", "20 61", (7, 6), "h", "at the mark: 'h'\n"),
    (THREAD + "1..1 skip halt\n", "20 66", (7, 11), "h", "at the mark: 'h'\n"),
    (THREAD + "1..1 r0 := " + "(" * 9000 + "\nhalt\n", "20 99", (7, 44), "(", "at the mark: '('; parentheses nest at most 32 deep\n"),
    (THREAD + "1..1 if (1 < 2) && " + "! (" * 32 + "(true", "20 171", (7, 116), "(", "'('; parentheses nest at most 32 deep\n"),
    (THREAD + "1..1 r0 := " + "(" * 31 + "1 (", "20 100", (7, 45), "(", "at the mark: '('\n"),
    (THREAD + "1..1 r0 := 1" + "0" * 9000 + "x\nhalt\n", "20 9068", (7, 9013), "x", "    7 | ...0000000000", "0x\n"),
    (THREAD + " " * 5000 + "x" + "y" * 5000, "20 5056", (7, 5001), "x", REG_OR_STATEMENT, "    7 | ...    ", "yyyy...\n"),
    (THREAD + "x" + "y" * 5000, "20 56", (7, 1), "x", REG_OR_STATEMENT, "    7 | xy", "y...\n      | ^\n"),
    ("limit " + "1" * 5000, "20 5006", (1, 5007), "", ENDS, "    1 | ...1111"),
    ("limit " + "1" * 94 + "\n", "20 101", (2, 1), "", BUDGET, "    1 | limit 1" + "1" * 93 + "\n    2 |\n"),
    ("limit " + "1" * 94 + "x", "20 100", (1, 101), "x", "    1 | ...imit 11"),
    ("limit " + "1" * 93 + "x", "20 99", (1, 100), "x", "    1 | limit 11"),
    (B_TEXT.replace("10\n", "0\n", 1), "4 0", (1, 1), "l", "what fits: limit 1..1,000,000\n"),
    (B_TEXT.replace("100", "0"), "4 9", (2, 1), "b", "what fits: budget 1..10,000,000\n"),
    (B_TEXT.replace("label 2..3", "label 3..2"), "4 20", (3, 1), "l", "what fits: low at most high, high at most the limit\n"),
    (B_TEXT.replace("locks 0", "locks 256"), "4 31", (4, 1), "l", "what fits: 0..8 locks\n"),
    (HEAD + "var 1..0\n" + HALTS, "4 49", (6, 1), "v", RANGE),
    (THREAD + "reg 0..2147483648\nhalt", "4 56", (7, 1), "r", RANGE),
    (THREAD + REGS * 9 + "halt", "4 49", (6, 1), "t", "what fits: at most eight reg lines behind it\n", "    6 | thread\n"),
    (THREAD + "3..2 skip\nhalt", "4 56", (7, 1), "3", TIMES),
    (THREAD + "   0..2 skip\nhalt", "4 56", (7, 1), " ", TIMES, "    7 |    0..2 skip\n      | ^\n"),
    (THREAD + "1..1 if true goto 256\nhalt", "4 56", (7, 1), "1", TIMES),
    (THREAD + SKIPS * 64 + "1..65536 skip\nhalt", "4 696", (71, 1), "1", TIMES, "    71 | 1..65536 skip\n       | ^\n"),
    (THREAD + "1..1 r3 := 1\nhalt", "5 56", (7, 1), "1", "refused, 5 no such name: the line names a register, "),
    (THREAD + "1..1 if true goto 9\nhalt", "5 56", (7, 1), "1"),
    (THREAD + "halt\nthread\n1..1 lock l1\nhalt", "5 68", (9, 1), "1", "    9 | 1..1 lock l1\n"),
    (REG + f"1..1 r0 := {DEEP}\nhalt", "6 65", (8, 1), "1", "refused, 6 bad expression: the line's expression is nested "),
    (REG + "1..1 r0 := 0" + " + 0" * 12 + "\nhalt", "6 65", (8, 1), "1", "so a sum without parentheses has at most twelve terms\n"),
    (THREAD + "1..1 skip", "7 56", (7, 1), "1", "refused, 7 no halt: the line is the last of its thread, and not halt\n"),
    (HEAD + "var 0..0\n" * 8 + HALTS, "8 112", (13, 1), "v", "refused, 8 too many: the line is a ninth var, "),
    (HEAD + HALTS * 5, "8 97", (14, 1), "t", "    14 | thread\n"),
    (THREAD + SKIPS * 64 + "halt", "8 696", (71, 1), "h"),
)

TOO_LONG = THREAD + REGS * 1500 + "halt\n"  # its sheet would have 16,549 bytes
