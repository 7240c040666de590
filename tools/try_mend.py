"""Tries ./zumbeiry mend, as a part of try_command.py: on the sheets of mend_cases.py with their answers, once by a stand-in for
the program, in a copy of the command, and once by the program itself, if it is built; and with answers that are none."""

import os
import re
import subprocess

import mend
import words
from calls import B, Call, ROOT, StandIn, as_in_readme, cannot, expect, in_folder, stand_in, text_of
from mend import HALT
from mend_cases import GARBLED, HEALS_NOT, MENDED, REFUSED, THE_65TH

PROGRAM = os.path.join("target", "bin", mend.PROGRAM)
BUILT = os.path.join(ROOT, PROGRAM)


def answer_of(changes, new):
    """What the program says of a sheet that it mends."""
    return f"0 0 {len(new)} {2 * len(changes)}\n" + "".join(f"{kind} {offset}\n" for kind, offset in changes)


def ask(folder, *arguments, **other):
    return Call("mend", *(arguments or ["sheet"]), folder=folder, **other)


def tells(call, numbers, *said, status=1):
    """The four numbers and what is said of them, and nothing on standard error."""
    call.gives(status, *said)
    right = call.out.startswith(f"{numbers}\n") and call.out.count("\n") > 2 and call.err == ""
    expect(f"{call.what}: {numbers}", right, call.out + call.err)


def alone(call, lines, status):
    call.gives(status)
    expect(f"{call.what}: the numbers alone", call.out == lines and call.err == "", call.out + call.err)


def mends(folder, root, sheet, changes, new, said):
    """What one sheet gives that is mended: in words, in numbers, and its bytes."""
    lines = answer_of(changes, new)
    in_folder(folder, "sheet", sheet)
    tells(ask(folder, root=root), lines.splitlines()[0], *said, status=0)
    alone(ask(folder, "--numbers", "sheet", root=root), lines, 0)
    call = ask(folder, "--numbers", "sheet", "-", root=root).gives(0)
    expect(f"{lines[:20]!r}: the mended sheet", call.bytes == new and call.err == lines, call.err)


def refuses(folder, root, sheet, numbers, said):
    """What one sheet gives that is refused. A note on the changes stands where it is expected, and nowhere else."""
    in_folder(folder, "sheet", sheet)
    call = ask(folder, root=root)
    tells(call, f"{numbers} 0 0", *said, "  what to do: ", "\nnothing is written\n")
    for note in (HEALS_NOT, THE_65TH, " added "):
        expect(f"{numbers}: {note!r}", (note in call.out) == any(note in text for text in said), call.out)
    alone(ask(folder, "--numbers", "sheet", root=root), f"{numbers} 0 0\n", 1)


def try_sheets(folder, copy):
    given = {int(numbers.split()[0]) for _, numbers, *_ in REFUSED}
    expect("every refusal but 19, which the program's buffers rule out", given == {*mend.WITH_PLACE, 9}, given)
    program = StandIn(folder, copy, mend.PROGRAM)
    for sheet, changes, new, *said in MENDED:
        program.answers(new, answer_of(changes, new))
        mends(folder, copy, sheet, changes, new, said)
        program.was_given(sheet)
    for sheet, numbers, *said in REFUSED:
        program.answers(b"", f"{numbers} 0 0\n")
        refuses(folder, copy, sheet, numbers, said)
        program.was_given(sheet)


def try_program(folder):
    """The program itself, as the command calls it: the same answers, and nothing to mend in what it mended."""
    for sheet, changes, new, *said in MENDED:
        mends(folder, ROOT, sheet, changes, new, said)
        ended = subprocess.run([BUILT], input=new, capture_output=True)
        expect("what is mended reads well", (ended.stdout, ended.stderr) == (new, answer_of([], new).encode()), ended.stderr)
    for sheet, numbers, *said in REFUSED:
        refuses(folder, ROOT, sheet, numbers, said)
    for given, numbers in ((bytes(2_000_000), b"9 0 0 0\n"), (bytes(16_384), b"2 0 0 0\n")):
        ended = subprocess.run([BUILT], input=given, capture_output=True)
        expect(f"{len(given)} zeros", (ended.stdout, ended.stderr, ended.returncode) == (b"", numbers, 0), ended.stderr)


def try_examples():
    """What stands in README.md and in sheets/README.md is given."""
    as_in_readme("mend", 2, "mended.sheet")
    rows = re.findall(r"^\| `(\S+)` \| [^|]* \| (\d+ \d+ \d+ \d+) \| ([\d ]*) \|$", text_of("sheets", "README.md"), re.MULTILINE)
    expect("sheets/README.md has sheets to mend", len(rows) > 3, rows)
    for name, numbers, five in rows:
        call = Call("mend", "--check", "--numbers", os.path.join("sheets", name))
        call.gives(0 if five.startswith("0 ") else 1)
        lines = call.out.splitlines()
        right = lines[0] == numbers and (lines[-1] == five if five.strip() else len(lines) == 1)
        expect(f"{name}: {numbers}, {five}", right, call.out)


def says(lines, out="cat mended"):
    """A program that writes these lines, divided by semicolons, to standard error, and something to standard output."""
    return f"printf '{''.join(line.strip() + chr(92) + 'n' for line in lines.split(';'))}' >&2; {out}\n"


RIGHT = says("0 0 43 6; 1 0; 1 27; 2 27")

# what a program answers to GARBLED that is no answer
NO_ANSWERS = (
    *("exit 0\n", "cat mended\n", "echo hello >&2\n", "echo 0 0 43 6 >&2\n", "cat\n"),
    *(says(lines) for lines in ("0 0 43 6", "0 0 43 4; 1 0; 1 27", "0 0 43 6; 1 0; 1 27", "0 0 43 4; 1 0; 1 27; 2 27")),
    *(says(f"{four}; 1 0; 1 27; 2 27") for four in ("0 0 42 6", "0 0 44 6", "0 0 43 3", "0 1 43 6", "4 0 43 6", "0 0 043 6")),
    *(says(f"{four}; 1 0; 1 27; 2 27") for four in ("0 0 43", "0 0 43 6 0", "0  0 43 6", "-0 0 43 6", "0 0 43 6;", "00 0 43 6")),
    *(says(f"0 0 43 6; {changes}") for changes in ("1 27; 1 0; 2 27", "1 0; 2 27; 1 27", "1 0; 1 27; 1 27", "2 0; 1 27; 2 27")),
    *(says(f"0 0 43 6; {changes}") for changes in ("1 0; 1 27; 3 27", "1 0; 0 27; 2 27", "1 0; 1 27; 2 35", "1 1; 1 27; 2 27")),
    *(says(f"0 0 43 6; {changes}") for changes in ("1 0; 1 27; 2 27 0", "1 0; 1 27; 2", "1 0; 1 23; 2 27", "1 0; 1 27; 2 999")),
    *(says("0 0 43 6; 1 0; 1 27; 2 27", out) for out in ("exit 0", "cat other", "head -c 42 mended", "cat mended mended")),
    says("0 0 43 6; 1 0; 1 27; 2 27", "head -c 43 sheet"),
    says("0 0 44 6; 1 0; 1 27; 2 27", "cat mended; printf 1"),
    says("0 0 70000 6; 1 0; 1 27; 2 27", "head -c 70000 /dev/zero"),
    says("0 0 35 0", "cat sheet"),  # as if there were nothing to mend
    says("0 0 43 8; 1 0; 1 23; 1 27; 2 27"),
    says("0 0 43 6; 1 0; 1 27; 2 27; more"),
    f"{RIGHT.strip()}; printf 1 >&2\n",
    *(says(f"{number} 0 0 0", "exit 0") for number in (7, 10, 11, 15, 16, 17, 18, 20, 21, 22, 255)),
    *(says(four, "exit 0") for four in ("9 0 0 0", "9 27 0 0", "19 27 0 0", "4 36 0 0", "1 99999 0 0", "0 0 0 0")),
    *(says(four, "exit 0") for four in ("4 27 43 0", "4 27 0 2", "4 27 0 2; 1 0", "4 27 0 0; 1 0", "4 27", "4 27 0 0 0")),
    *(says(four) for four in ("4 27 0 0", "4 27 43 0", "19 0 0 0")),  # refused, and yet bytes
)


def try_answers(folder, copy):
    """In the copy: whatever the program answers is told, and what is no answer is told as a fault."""
    for name, held in (("sheet", GARBLED), ("mended", B), ("other", B[:14] + b"\x01" + B[15:])):
        in_folder(folder, name, held)

    def call(script, *arguments, **other):
        stand_in(os.path.join(copy, PROGRAM), script)
        return ask(folder, *(arguments or ["sheet"]), root=copy, **other)

    for script in NO_ANSWERS:
        cannot(call(script), "zumbeiry: target/bin/mend_main gave no answer")
        expect(f"{script}: nothing is written", not os.path.exists(os.path.join(folder, "new")))
    cannot(call(says("standard input: not read", "exit 0")), "gave no answer: standard input: not read\n")
    cannot(call(f"{RIGHT}exit 3\n"), "target/bin/mend_main ended with status 3")
    cannot(call(f"{RIGHT}kill -9 $$\n"), "target/bin/mend_main was ended by signal 9")
    tells(call(f"[ $# = 0 ] && cmp - sheet && {RIGHT}"), "0 0 43 6", "mended, 3 changes:\n", status=0)
    tells(call(says("19 0 0 0", "exit 0")), "19 0 0 0", "refused, 19 output full: the mended sheet, or the list of changes, ")
    tells(call(says("4 35 0 0", "exit 0")), "4 35 0 0", "at byte 35: here the sheet ends\n")
    for number in mend.WITH_PLACE:
        word = (mend.REFUSALS.get(number) or words.REFUSALS[number])[0]
        tells(call(says(f"{number} 27 0 0", "exit 0")), f"{number} 27 0 0", f"refused, {number} {word}: ", "at byte 27: ")
    in_folder(folder, "sheet", bytes(16_385))
    cannot(call(says("2 0 0 0", "exit 0")), "gave no answer: 2 0 0 0\n")  # it is too long
    cannot(call(says("19 0 0 0", "exit 0")), "gave no answer: 19 0 0 0\n")
    in_folder(folder, "sheet", B + HALT[:2])
    cannot(call(says("0 0 43 0")), "gave no answer: 0 0 43 0\n")  # bytes are lost
    os.unlink(os.path.join(copy, PROGRAM))
    cannot(ask(folder, root=copy, PATH=folder), "mend_main has to be built, and there is no rt")


def try_all(folder, copy):
    try_sheets(folder, copy)
    try_answers(folder, copy)
    if os.path.exists(BUILT):
        try_program(folder)
        try_examples()
    else:
        print(f"{PROGRAM} is not built: a stand-in alone was tried")
