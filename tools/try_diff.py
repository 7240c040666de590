"""Tries ./zumbeiry diff, as a part of try_command.py: on sheets and texts that are equal, different or refused, with stand-ins for the
programs, in a copy of the command, and on the sheets of sheets/ with the programs themselves, if they are built."""

import os
import re

import compare
import convert
import printer
from any_sheet import assemble
from calls import B, Call, ROOT, StandIn, cannot, expect, in_folder, stand_in, tells_words, text_of, texts_that_read
from convert_cases import B_TEXT
from preview_cases import C
from print_cases import C_TEXT, FALSES, HEAD
from try_converted import AT, WRONG
from try_print import BUILT, LOOSE, PROGRAM, TEXT

B_LINES = "line 6, statement 0 of thread 0: "
ENDS_TRUE, BEGINS_TRUE = FALSES.replace("false)", "true)"), FALSES.replace("false", "true", 1)
VARIABLES = HEAD + "var 0..0\nvar 1..1\nthread\nreg 0..5\n1..1 load r0 from x0\nhalt\n"

# two texts, the counts of lines that differ, and the lines that are shown
DIFFERENT = (
    (B_TEXT, B_TEXT.replace("2..3 skip", "2..5 skip"), "1 line", "1 line", f"  - {B_LINES}2..3 skip", f"  + {B_LINES}2..5 skip"),
    (B_TEXT, B_TEXT.replace("label 2..3", "label 2..4"), "1 line", "1 line", "  - line 3: label 2..3", "  + line 3: label 2..4"),
    (B_TEXT, B_TEXT.replace("10\n", "11\n", 1), "1 line", "1 line", "  - line 1: limit 10", "  + line 1: limit 11"),
    (B_TEXT, B_TEXT.replace("locks 0", "locks 1"), "1 line", "1 line", "  - line 4: locks 0", "  + line 4: locks 1"),
    (B_TEXT, B_TEXT.replace("halt\n", "1..1 skip\nhalt\n"), "0 lines", "1 line", "  + line 7, statement 1 of thread 0: 1..1 skip"),
    (B_TEXT, B_TEXT.replace("2..3 skip\n", ""), "1 line", "0 lines", f"  - {B_LINES}2..3 skip"),
    (
        *(C_TEXT, C_TEXT + "thread\nhalt\n", "0 lines", "2 lines"),
        *("  + line 11, the start of thread 2: thread", "  + line 12, statement 0 of thread 2: halt"),
    ),
    (
        *(C_TEXT, C_TEXT.replace("1..4", "1..5").replace("2..3", "2..2"), "2 lines", "2 lines"),
        *("  - line 6, statement 0 of thread 0: 1..4 skip", "  + line 6, statement 0 of thread 0: 1..5 skip"),
        *("  - line 9, statement 0 of thread 1: 2..3 skip", "  + line 9, statement 0 of thread 1: 2..2 skip"),
    ),
    (
        *(VARIABLES, VARIABLES.replace("1..1\nthread\nreg 0..5", "2..2\nthread\nreg -1..5"), "2 lines", "2 lines"),
        *("  - line 6, variable x1: var 1..1", "  + line 6, variable x1: var 2..2"),
        *("  - line 8, register r0 of thread 0: reg 0..5", "  + line 8, register r0 of thread 0: reg -1..5"),
    ),
    (
        *(VARIABLES, VARIABLES.replace("load r0 from", "skip\n1..1 store r0 to"), "1 line", "2 lines"),
        "  - line 9, statement 0 of thread 0: 1..1 load r0 from x0",
        "  + line 9, statement 0 of thread 0: 1..1 skip",
        "  + line 10, statement 1 of thread 0: 1..1 store r0 to x0",
    ),
    (
        *(f"{HEAD}thread\n{FALSES}halt\n", f"{HEAD}thread\n{ENDS_TRUE}halt\n", "1 line", "1 line"),
        *(f"  - {B_LINES}...{FALSES[-101:-1]}", f"  + {B_LINES}...{ENDS_TRUE[-101:-1]}"),
    ),
    (
        *(f"{HEAD}thread\n{FALSES}halt\n", f"{HEAD}thread\n{BEGINS_TRUE}halt\n", "1 line", "1 line"),
        *(f"  - {B_LINES}{FALSES[:100]}...", f"  + {B_LINES}{BEGINS_TRUE[:100]}..."),
    ),
)


class Both:
    """A copy of the command in which the program prints two sheets as two texts."""

    def __init__(self, folder, copy):
        self.folder, self.copy = os.path.join(folder, "to compare"), copy
        os.makedirs(self.folder)

    def hold(self, one, two, texts):
        for name, held in zip(("one", "two", "one text", "two text"), (one, two, *texts)):
            in_folder(self.folder, name, held)
        where = f"cd '{self.folder}'\ncat > seen\n"
        stand_in(os.path.join(self.copy, PROGRAM), where + "cmp -s seen one && cat 'one text' || cat 'two text'\n")

    def call(self, *arguments, **other):
        return Call("diff", *(arguments or ("one", "two")), folder=self.folder, root=self.copy, **other)


def shows(call, many, others, *rows):
    """The sheets are different, in these lines and no other."""
    call.gives(1, f"different: {many} of one (-) and {others} of two (+), counted in the printed forms\n")
    shown = call.out.splitlines()[1:]
    right = len(shown) == len(rows) and all(map(str.startswith, shown, rows)) and call.err == ""
    expect(f"{rows} are shown", right, call.out + call.err)
    expect("no line is wide", max(map(len, shown)) < 160 and call.out.isascii(), call.out)


def try_different(folder, copy):
    both = Both(folder, copy)
    for one, two, *shown in DIFFERENT:
        both.hold(*(assemble(text.splitlines()) for text in (one, two)), [text.encode() for text in (one, two)])
        shows(both.call(), *shown)
        if os.path.exists(BUILT):
            shows(Call("diff", "one", "two", folder=both.folder), *shown)
    return both


def says_equal(call, size, lines):
    call.gives(0)
    said = f"equal: both sheets have the same {size} bytes, and print alike, in {lines} lines\n"
    expect(f"{call.what}: equal", call.out == said and call.err == "", call.out + call.err)


def try_equal(folder, both):
    """Equal sheets, given as bytes or as text, and from standard input."""
    both.hold(B, B, [TEXT, TEXT])
    text = StandIn(folder, both.copy, convert.PROGRAM)
    text.answers(B, "")
    in_folder(both.folder, "loose", LOOSE)
    for arguments, standard in (([], b""), (["one", "one"], b""), (["--bytes", "-", "two"], B), (["one", "loose"], b""), (["-", "two"], TEXT)):
        says_equal(both.call(*arguments, given=standard), 43, 7)
    text.was_given(TEXT)
    says_equal(both.call("--text", "loose", "one text"), 43, 7)


def try_refused(folder, both):
    """Which file is refused is told, with its numbers; two that are refused are both told."""
    text, program = StandIn(folder, both.copy, convert.PROGRAM), StandIn(folder, both.copy, printer.PROGRAM)
    both.hold(B, C, [TEXT, C_TEXT.encode()])
    in_folder(both.folder, "short", B[:35])
    in_folder(both.folder, "wrong", WRONG)
    where = f"cd '{both.folder}'\ncat > seen\n"
    stand_in(program.path, where + "cmp -s seen short && echo 7 27 >&2 || cat 'one text'\n")
    text.answers(b"", "20 53\n")
    short = "short:\n7 27 0\nrefused, 7 no halt: a thread's last statement is not halt\n  at byte 27: statement 0 of thread 0, skip "
    wrong = f"wrong:\n20 53 0\nrefused, 20 unreadable: no readable text goes on with the byte at the mark, or ends there\n{AT}"
    end = f"\n\n{compare.UNCOMPARED}\n"
    for arguments, *said in (
        (["short", "one"], short),
        (["one", "short"], short),
        (["wrong", "one"], wrong),
        (["short", "wrong"], short, f"\n\n{wrong}"),
        (["wrong", "short"], wrong, f"\n\n{short}"),
    ):
        call = both.call(*arguments).gives(1, *said)
        right = call.out.endswith(end) and call.out.count("refused, ") == len(said) and call.err == ""
        expect(f"{arguments}: these are refused, and no other", right, call.out)


def try_answers(folder, both):
    """What is no answer is told as a fault: one that does not fit its sheet, and two that do not fit each other."""
    both.hold(B, C, [TEXT, TEXT])
    cannot(both.call(), "zumbeiry: target/bin/print_main gave no answer\n")
    other = TEXT.replace(b"2..3 skip", b"2..5 skip")
    apart = "zumbeiry: target/bin/print_main printed equal sheets apart, or different ones alike\n"
    both.hold(B, assemble(other.decode().splitlines()), [TEXT, TEXT])
    cannot(both.call(), apart)
    both.hold(B, B, [TEXT, TEXT])
    where = f"cd '{both.folder}'\n"
    stand_in(os.path.join(both.copy, PROGRAM), where + "[ -e met ] && sed s/3/5/ 'one text' || cat 'one text'\ntouch met\n")
    cannot(both.call(), apart)
    stand_in(os.path.join(both.copy, PROGRAM), "exit 3\n")
    cannot(both.call(), "target/bin/print_main ended with status 3")
    os.unlink(os.path.join(both.copy, PROGRAM))
    cannot(both.call(PATH=folder), "print_main has to be built, and there is no rt")


def try_listed():
    """What sheets/README.md says of two sheets."""
    rows = re.findall(r"^\| `(\S+)` \| `(\S+)` \| [^|]* \| (equal|different) \|$", text_of("sheets", "README.md"), re.MULTILINE)
    expect("sheets/README.md has sheets to compare", len(rows) > 2, rows)
    for one, two, said in rows:
        Call("diff", f"sheets/{one}", f"sheets/{two}").gives(0 if said == "equal" else 1, f"{said}: ")


def try_sheets():
    """Each sheet of sheets/ is equal to its printed text, and to the next one exactly if the bytes are the same."""
    names = texts_that_read()
    made = [assemble(text_of("sheets", name).splitlines()) for name in names]
    for at, (name, sheet) in enumerate(zip(names, made)):
        text = Call("print", f"sheets/{name}").gives(0).bytes
        says_equal(Call("diff", f"sheets/{name}", "-", given=text), len(sheet), text.count(b"\n"))
        same = made[at - 1] == sheet
        Call("diff", f"sheets/{names[at - 1]}", f"sheets/{name}").gives(0 if same else 1, "equal: " if same else "different: ")


def try_usage(folder):
    others = ([], ["a"], ["a", "b", "c"])
    tells_words("diff", "A B", "the sheets are equal", "diff which sheets, A and B?", others, ("--numbers", "--check", "-u"))
    cannot(Call("diff", "--text", "--bytes", "a", "b"), "do not go together")
    cannot(Call("diff", "-", "-"), "can be read once")
    cannot(Call("diff", "sheets/B.txt", "absent"), "zumbeiry: absent: No such file")
    cannot(Call("diff", folder, "sheets/B.txt"), "Is a directory")


def try_all(folder, copy):
    both = try_different(folder, copy)
    for tried in (try_equal, try_refused, try_answers):
        tried(folder, both)
    try_usage(folder)
    if os.path.exists(BUILT):
        try_listed()
        try_sheets()
