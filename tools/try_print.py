"""Tries ./zumbeiry print, as a part of try_command.py: on the sheets of print_cases.py with their texts, once by a stand-in for the
program, in a copy of the command, and once by the program itself, if it is built; with answers that are none; the files that it writes
and leaves; and texts that it brings into the printed form."""

import os
import re
import subprocess

import convert
import printer
from any_sheet import assemble
from calls import B, Call, ROOT, StandIn, as_in_readme, cannot, expect, in_folder, stand_in, tells_words, text_of, texts_that_read
from convert_cases import B_TEXT
from print_cases import PRINTED, UNREAD
from try_convert import alone, tells
from try_converted import AT, WRONG, unwritten
from try_mended import has
from try_written import Sheet

PROGRAM = os.path.join("target", "bin", printer.PROGRAM)
BUILT = os.path.join(ROOT, PROGRAM)
TEXT = B_TEXT.encode()
LOOSE = b" limit 010\nbudget 100\nlabel 2 .. 3\nlocks 0\nthread\n2..3  skip \nhalt"
SAID = "printed: 7 lines, a text of 61 bytes\n"
ALREADY = "the text that was given has this form already\n"


def ask(folder, *arguments, **other):
    return Call("print", *(arguments or ["sheet"]), folder=folder, **other)


def puts_out(call, text, err, status=0):
    """The text alone on standard output, and what is said on standard error."""
    call.gives(status)
    expect(f"{call.what}: the text alone, and {err[:40]!r}", call.bytes == text and call.err == err, call.out + call.err)


def prints(folder, root, sheet, text):
    """What one sheet gives that is printed: beside the text, and in numbers."""
    in_folder(folder, "sheet", sheet)
    lines, numbers = text.count(b"\n"), f"0 0 {len(text)}\n"
    puts_out(ask(folder, "--bytes", "sheet", root=root), text, f"{numbers}printed: {lines} lines, a text of {len(text):,} bytes\n")
    puts_out(ask(folder, "--numbers", "--bytes", "sheet", root=root), text, numbers)


def refuses(folder, root, sheet, numbers, said):
    """What one sheet gives that is refused: nothing on standard output, unless a file is named."""
    in_folder(folder, "sheet", sheet)
    call = ask(folder, root=root).gives(1, err=[f"{numbers} 0\nrefused, ", said, "  what to do: ", "\nnothing is written\n"])
    expect(f"{numbers}: no text", call.bytes == b"", call.out)
    puts_out(ask(folder, "--numbers", "sheet", root=root), b"", f"{numbers} 0\n", 1)
    tells(ask(folder, "sheet", "not to be", root=root), f"{numbers} 0", said, "\nnothing is written\n")
    expect(f"{numbers}: no file", not os.path.exists(os.path.join(folder, "not to be")))


def try_sheets(folder, copy):
    given = {int(numbers.split()[0]) for _, numbers, _ in UNREAD}
    expect("every refusal but 19, which the program's buffer rules out", given == set(range(1, 10)), given)
    program = StandIn(folder, copy, printer.PROGRAM)
    for sheet, text in PRINTED:
        program.answers(text, "")
        prints(folder, copy, sheet, text)
        program.was_given(sheet)
    for sheet, numbers, said in UNREAD:
        program.answers(b"", f"{numbers}\n")
        refuses(folder, copy, sheet, numbers, said)
    program.answers(b"", "19 0\n")
    refuses(folder, copy, B, "19 0", "refused, 19 output full: the printed text does not fit its buffer (the program's is large enough)\n")


def try_program(folder):
    """The program itself, as the command calls it: the same answers, texts that are converted back, and a sheet that is too long."""
    for sheet, text in PRINTED:
        prints(folder, ROOT, sheet, text)
        call = Call("convert", "-", "-", given=text).gives(0)
        expect(f"{text[-60:]}: converted back", call.bytes == sheet, call.err)
    for sheet, numbers, said in UNREAD:
        refuses(folder, ROOT, sheet, numbers, said)
    for given, line in ((bytes(16_384), b"2 0\n"), (bytes(16_385), b"9 0\n")):
        ended = subprocess.run([BUILT], input=given, capture_output=True)
        expect(f"{len(given)} zeros", (ended.stdout, ended.stderr, ended.returncode) == (b"", line, 0), ended.stderr[:99])


def try_examples():
    """What stands in README.md and in sheets/README.md is given; every sheet of sheets/ that reads prints as a text of its bytes, which
    prints as itself."""
    as_in_readme("print|diff", 5, "printed.txt")
    rows = re.findall(r"^\| `(\S+)` \| [^|]* \| (\d+ \d+ \d+) \|$", text_of("sheets", "README.md"), re.MULTILINE)
    expect("sheets/README.md has sheets to print", len(rows) > 3, rows)
    for name, numbers in rows:
        call = Call("print", "--numbers", f"sheets/{name}").gives(0 if numbers.startswith("0 ") else 1)
        expect(f"{name}: {numbers}", call.err == f"{numbers}\n", call.err)
    for name in texts_that_read():
        text = Call("print", f"sheets/{name}").gives(0, err=["0 0 ", "\nprinted: ", "\nthe text that was given has "]).bytes
        call = Call("convert", "-", "-", given=text).gives(0)
        expect(f"{name}: its bytes again", call.bytes == assemble(text_of("sheets", name).splitlines()))
        puts_out(Call("print", "--numbers", "-", given=call.bytes), text, f"0 0 {len(text)}\n")
        again = Call("print", "-", given=text).gives(0, err=[ALREADY])
        expect(f"{name}: the same text again", again.bytes == text, again.out)


# what a program answers to B's sheet that is no answer; the files are B's sheet, its text, and the text in other forms
NO_ANSWERS = (
    *("exit 0\n", "cat sheet\n", "echo hello\n", "echo 0 0 >&2\n", "cat text; echo 7 27 >&2\n", "cat text; echo hello >&2\n"),
    *(f"echo '{line}' >&2\n" for line in ("hello", "7", "7 27 0", "07 27", "7 027", "7  27", "-7 27", "7 -1", "7 44", "7 27 ")),
    *(f"echo {number} 0 >&2\n" for number in (9, 10, 15, 16, 17, 18, 20, 21, 22, 255)),
    *("echo 19 1 >&2\n", "printf '7 27' >&2\n", "printf '7 27\\n\\n' >&2\n", "cat text text\n", "cat loose\n", "cat text; echo\n"),
    *("head -c 60 text\n", "head -c 56 text\n", "cat text; echo halt\n", "cat text; printf halt\n", "sed 's/$/ /' text\n"),
    *(f"sed '{edit}' text\n" for edit in ("s/^/ /", "s/ /  /", "s/ /\\t/", "s/$/\\r/", "6s/^/\\n/", "4d", "5s/.*/var 0..0/", "1s/ 10/\\o200/")),
    "sed \"s/10/$(printf '%0250d' 10)/\" text\n",
)


def try_answers(folder, copy):
    """In the copy: what is no answer is told as a fault, and nothing is written."""
    for name, held in (("sheet", B), ("text", TEXT), ("loose", LOOSE)):
        in_folder(folder, name, held)

    def call(script, *arguments, **other):
        stand_in(os.path.join(copy, PROGRAM), script)
        return ask(folder, *arguments, root=copy, **other)

    for script in NO_ANSWERS:
        cannot(call(script), "zumbeiry: target/bin/print_main gave no answer")
    cannot(call("cat text\n", "--bytes", "-", given=bytes(16_385)), "target/bin/print_main gave no answer\n")
    cannot(call("cat loose\n", "sheet", "not to be"), "target/bin/print_main gave no answer\n")
    cannot(call("echo standard input: not read >&2\n"), "gave no answer: standard input: not read\n")
    cannot(call("cat text\nexit 3\n"), "target/bin/print_main ended with status 3")
    cannot(call("cat text\nkill -9 $$\n"), "target/bin/print_main was ended by signal 9")
    expect("no file", not os.path.exists(os.path.join(folder, "not to be")))
    puts_out(call("[ $# = 0 ] && cmp - sheet && cat text\n"), TEXT, f"0 0 61\n{SAID}")
    os.unlink(os.path.join(copy, PROGRAM))
    cannot(ask(folder, root=copy, PATH=folder), "print_main has to be built, and there is no rt")


def try_new_files(folder, copy):
    sheet, written = Sheet(folder, "sheets to print"), "written: {} has the text, 61 bytes\n"
    for arguments in (["sheet", "new"], ["./sheet", "./new"], ["--", "sheet", "new"], ["sheet", os.path.join(sheet.folder, "new")]):
        tells(ask(sheet.folder, *arguments, root=copy), "0 0 61", SAID + written.format(arguments[-1]), status=0)
        has(sheet, "new", TEXT)
    alone(ask(sheet.folder, "--numbers", "sheet", "new", root=copy), "0 0 61", 0)
    has(sheet, "new", TEXT)
    tells(ask(sheet.folder, "-", "new", root=copy, given=B), "0 0 61", written.format("new"), status=0)
    has(sheet, "new", TEXT)
    for arguments, standard in ((["sheet", "-"], b""), (["-", "-"], B), (["-"], B), (["--", "sheet"], b"")):
        puts_out(ask(sheet.folder, *arguments, root=copy, given=standard), TEXT, f"0 0 61\n{SAID}")
    sheet.holds("the sheet is left as it is", B)
    unwritten("print", "SHEET", sheet, copy, "SHEET [FILE]")


def try_texts(folder, copy):
    """A text is converted first; one that is refused is not printed."""
    sheet, text, program = Sheet(folder, "texts to print", TEXT), StandIn(folder, copy, convert.PROGRAM), StandIn(folder, copy, printer.PROGRAM)
    text.answers(B, "")
    for typed, form in (
        (TEXT, ALREADY),
        (TEXT[:-1], "the text that was given has this form, but for the last newline\n"),
        (LOOSE, "the text that was given has another form in 3 lines\n"),
        (TEXT.replace(b"10\n", b"10 \n"), "the text that was given has another form in 1 line\n"),
    ):
        in_folder(sheet.folder, "sheet", typed)
        for arguments, standard in ((["sheet"], b""), (["--text", "sheet"], b""), (["-"], typed)):
            puts_out(ask(sheet.folder, *arguments, root=copy, given=standard), TEXT, f"0 0 61\n{SAID}{form}")
            text.was_given(typed)
            program.was_given(B)
    program.answers(b"", "7 27\n")
    ask(sheet.folder, root=copy).gives(1, err=["7 27 0\nrefused, 7 no halt", "  line 6: 2..3 skip\n  at byte 27: statement 0 of thread 0"])
    program.answers(b"", "2 0\n")
    hint = "(it was taken as bytes, since it holds control characters; --text takes it as text)\n"
    ask(folder, "-", root=copy, given=b"\x07\x00\x00").gives(1, err=["2 0 0\nrefused, 2 out of turn", hint])
    ask(sheet.folder, "--bytes", "sheet", root=copy).gives(1, err=["2 0 0\nrefused, 2 out of turn"])
    text.answers(b"", "20 53\n")
    stand_in(program.path, "exit 3\n")
    in_folder(sheet.folder, "sheet", WRONG)
    call = ask(sheet.folder, root=copy).gives(1, err=["20 53 0\nrefused, 20 unreadable: ", AT, "\nnothing is written\n"])
    expect("refused: no text", call.bytes == b"", call.out)
    puts_out(ask(sheet.folder, "--numbers", "sheet", root=copy), b"", "20 53 0\n", 1)
    tells(ask(sheet.folder, "sheet", "new", root=copy), "20 53 0", AT, "\nnothing is written\n")
    sheet.holds("refused", WRONG)


def try_usage(folder):
    asked, options = "print which SHEET, into which new file? SHEET [FILE]", ("--check", "--write", "-n")
    tells_words("print", "SHEET [FILE]", "the sheet is printed", asked, ([], ["a", "b", "c"]), options)
    cannot(Call("print", "--text", "--bytes", "sheet"), "do not go together")
    cannot(Call("print", "absent"), "zumbeiry: absent: No such file")
    cannot(Call("print", folder), "Is a directory")


def try_all(folder, copy):
    try_sheets(folder, copy)
    try_answers(folder, copy)
    for tried in (try_new_files, try_texts):
        StandIn(folder, copy, printer.PROGRAM).answers(TEXT, "")
        tried(folder, copy)
    try_usage(folder)
    if os.path.exists(BUILT):
        try_program(folder)
        try_examples()
    else:
        print(f"{PROGRAM} is not built: a stand-in alone was tried")
