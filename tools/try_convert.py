"""Tries ./zumbeiry convert, as a part of try_command.py: on the texts of convert_cases.py with their answers, once by a stand-in for
the program, in a copy of the command, and once by the program itself, if it is built; with answers that are none; and what the other
verbs say of a text that is refused."""

import os
import re
import subprocess

import convert
from any_sheet import assemble
from calls import B, Call, ROOT, StandIn, as_in_readme, cannot, expect, in_folder, stand_in, text_of, texts_that_read
from convert_cases import B_TEXT, CONVERTED, REFUSED, TOO_LONG

PROGRAM = os.path.join("target", "bin", convert.PROGRAM)
BUILT = os.path.join(ROOT, PROGRAM)
HOW = "nothing is written: name a new file behind TEXT, and the sheet goes there\n"


def ask(folder, *arguments, **other):
    return Call("convert", *(arguments or ["text"]), folder=folder, **other)


def tells(call, numbers, *said, status=1):
    """The three numbers and what is said of them, and nothing on standard error."""
    call.gives(status, *said)
    right = call.out.startswith(f"{numbers}\n") and call.out.count("\n") > 1 and call.err == ""
    expect(f"{call.what}: {numbers}", right, call.out + call.err)


def alone(call, line, status):
    call.gives(status)
    expect(f"{call.what}: the numbers alone", call.out == f"{line}\n" and call.err == "", call.out + call.err)


def marks(call, character):
    """The mark stands under the character, or behind the line's last one; no line is wide, and all that is shown prints."""
    lines = call.out.splitlines()
    below = next((at for at, line in enumerate(lines) if re.fullmatch(r" +\| +\^", line)), 0)
    column = lines[below].find("^")
    over = lines[below - 1][column : column + 1]
    expect(f"the mark is under {character!r}", column > 0 and over.strip() == character.strip(), call.out)
    expect("what is shown prints", call.out.replace("\n", "").isprintable() and call.out.isascii(), call.out)
    expect("no line is wide", max(map(len, lines)) < 200, call.out)


def converts(folder, root, text, sheet):
    """What one text gives that is converted: in words, in numbers, and its bytes."""
    in_folder(folder, "text", text)
    lines, numbers = len(text.splitlines()), f"0 0 {len(sheet)}"
    said = f"converted: {lines} lines, a sheet of {len(sheet)} bytes\n{HOW}"
    tells(ask(folder, root=root), numbers, said, status=0)
    alone(ask(folder, "--numbers", "text", root=root), numbers, 0)
    call = ask(folder, "--numbers", "text", "-", root=root).gives(0)
    expect(f"{text[:60]}: the sheet", call.bytes == sheet and call.err == f"{numbers}\n", call.err)


def refuses(folder, root, text, numbers, at, character, said):
    in_folder(folder, "text", text)
    where = "  line {}, column {} (byte {} of the text):\n".format(*at, numbers.split()[1])
    call = ask(folder, root=root)
    tells(call, f"{numbers} 0", where, *said, "  what to do: ", "\nnothing is written\n")
    marks(call, character)
    expect("what stands at the mark is told of 20 alone", ("at the mark: " in call.out) == numbers.startswith("20 "), call.out)
    start = call.out.count("\n  the mark is at the start of the line at fault\n")
    expect("the line's start is told of 4 to 8 alone, once", start == (not numbers.startswith("20 ")), call.out)
    expect("what is due is told where a line is missing", call.out.count("due there: ") == "".join(said).count("due there: "), call.out)
    alone(ask(folder, "--numbers", "text", root=root), f"{numbers} 0", 1)


def try_texts(folder, copy):
    given = {int(numbers.split()[0]) for _, numbers, *_ in REFUSED}
    expect("every refusal but 9, which has no line, and 19", given == {20, *convert.OF_LINE}, given)
    program = StandIn(folder, copy, convert.PROGRAM)
    for text, sheet in CONVERTED:
        program.answers(sheet, "")
        converts(folder, copy, text.encode(), sheet)
        program.was_given(text.encode())
    for text, numbers, at, character, *said in REFUSED:
        program.answers(b"", f"{numbers}\n")
        refuses(folder, copy, text.encode("latin-1"), numbers, at, character, said)
        program.was_given(text.encode("latin-1"))
    in_folder(folder, "text", TOO_LONG.encode())
    for numbers, said in (("9 0", "refused, 9 too long: the sheet of the text would"), ("19 0", "refused, 19 output full: ")):
        program.answers(b"", f"{numbers}\n")
        call = ask(folder, root=copy)
        tells(call, f"{numbers} 0", said, "  what to do: ", "\nnothing is written\n")
        expect("no line is shown", "line" not in call.out, call.out)


def try_program(folder):
    """The program itself, as the command calls it: the same answers; a text that is too long for it."""
    for text, sheet in CONVERTED:
        converts(folder, ROOT, text.encode(), sheet)
    for text, numbers, at, character, *said in REFUSED:
        refuses(folder, ROOT, text.encode("latin-1"), numbers, at, character, said)
    in_folder(folder, "text", TOO_LONG.encode())
    tells(ask(folder), "9 0 0", "refused, 9 too long")
    for given, out, err in (
        (b" " * 1_048_576, b"", b"20 1048576\n"),
        (B_TEXT[:-1].encode().ljust(1_048_576), B, b""),
        (B_TEXT.encode().ljust(1_048_576), b"", b"20 1048576\n"),  # a line of spaces is a blank line
        (B_TEXT.encode().ljust(1_048_577), b"", b"text: more than 1048576 bytes\n"),
    ):
        ended = subprocess.run([BUILT], input=given, capture_output=True)
        expect(f"{len(given)} bytes", (ended.stdout, ended.stderr, ended.returncode) == (out, err, 0), ended.stderr[:99])


def try_examples():
    """What stands in README.md is given, and every text of sheets/ but the mistyped ones makes the bytes that its lines say."""
    as_in_readme("convert", 3, "typed.sheet")
    for name in texts_that_read():
        call = Call("convert", os.path.join("sheets", name), "-").gives(0, err=["0 0 "])
        expect(f"{name}: its bytes", call.bytes == assemble(text_of("sheets", name).splitlines()))


# what a program answers to B's text that is no answer; the files are B's sheet, and others of the same length
NO_ANSWERS = (
    *("exit 0\n", "cat text\n", "echo hello\n", "echo 0 0 >&2\n", "echo 20 0; cat sheet\n"),
    *(f"echo '{line}' >&2\n" for line in ("hello", "20", "20 0 0", "020 0", "20 00", "20  0", "-20 0", "20 -1", "20 99", "20 63 ")),
    *(f"echo {number} 0 >&2\n" for number in (1, 2, 3, 10, 15, 16, 17, 18, 21, 22, 255)),
    *(f"echo {line} >&2\n" for line in ("4 1", "4 62", "7 99", "8 8", "9 9", "19 9", "20 64", "20 99999999999")),
    "printf '20 0' >&2\n",
    "printf '20 0\\n\\n' >&2\n",
    "printf '20 0\\n20 0\\n' >&2\n",
    *("cat sheet; echo 20 0 >&2\n", "cat sheet; echo 0 0 >&2\n", "cat sheet; echo hello >&2\n", "cat sheet; printf '\\377' >&2\n"),
    *("cat sheet sheet\n", "head -c 42 sheet\n", "cat sheet; printf 1\n", "head -c 35 sheet\n", "cat other\n"),
    *("head -c 70000 /dev/zero\n", "tail -c +2 sheet\n", "cat sheet; head -c 8 /dev/zero\n"),
)


def try_answers(folder, copy):
    """In the copy: what is no answer is told as a fault, by convert and by check."""
    in_folder(folder, "text", B_TEXT.encode())
    in_folder(folder, "sheet", B)
    in_folder(folder, "other", B[:23] + b"\x02" + B[24:])  # a field that no line tells

    def call(script, *arguments, **other):
        stand_in(os.path.join(copy, PROGRAM), script)
        return ask(folder, *arguments, root=copy, **other)

    for script in NO_ANSWERS:
        cannot(call(script), "zumbeiry: target/bin/text_main gave no answer")
    cannot(Call("check", "text", folder=folder, root=copy), "zumbeiry: text: target/bin/text_main gave no answer")
    cannot(call("echo standard input: not read >&2\n"), "gave no answer: standard input: not read\n")
    cannot(call("cat sheet\nexit 3\n"), "target/bin/text_main ended with status 3")
    cannot(call("cat sheet\nkill -9 $$\n"), "target/bin/text_main was ended by signal 9")
    tells(call("[ $# = 0 ] && cmp - text && cat sheet\n"), "0 0 43", "converted: 7 lines, a sheet of 43 bytes\n", status=0)
    for given in (b" " * 1_048_577, B_TEXT.encode() * 40_000):
        cannot(call("exit 3\n", "-", given=given), "zumbeiry: -: a text of more than 1,048,576 bytes is not read\n")
    spaces = call("echo 20 1048576 >&2\n", "-", given=b" " * 1_048_576)
    tells(spaces, "20 1048576 0", "line 1, column 1048577 ", "the text ends; no line may be blank\n  due there: limit\n")
    os.unlink(os.path.join(copy, PROGRAM))
    cannot(ask(folder, root=copy, PATH=folder), "text_main has to be built, and there is no rt")


def try_all(folder, copy):
    try_texts(folder, copy)
    try_answers(folder, copy)
    if os.path.exists(BUILT):
        try_program(folder)
        try_examples()
    else:
        print(f"{PROGRAM} is not built: a stand-in alone was tried")
