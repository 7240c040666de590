"""Tries ./zumbeiry preview, as a part of try_command.py: on sheets that are made here, on those of sheets/, and on a copy of
the command whose program is a stand-in, so that a wrong answer is told all the same."""

import os
import re
import subprocess

import preview
from calls import B, Call, ROOT, as_in_readme, cannot, expect, in_folder, stand_in, text_of
from preview_cases import ACCEPTED, CHANGED, REFUSED, SLOWER, UNREAD
from times import OF_SHEET

TEXT = b"limit 10\nbudget 100\nlabel 2..3\nlocks 0\nthread\n2..3 skip\nhalt\n"
ASKED = ("0", "0", "2..5")

# of the program, which takes changes back too
USAGE = (
    b"usage: retime_main SHEET THREAD STATEMENT LEAST GREATEST [write], "
    b"or SHEET THREAD STATEMENT OLD_LEAST OLD_GREATEST NEW_LEAST NEW_GREATEST, numbers in decimal\n"
)


def ask(folder, *arguments, **other):
    return Call("preview", *(arguments or ("sheet", *ASKED)), folder=folder, **other)


def answers(call, now, then, *said, status=1):
    """The five numbers, now and then, and what is said of them, and nothing on standard error."""
    call.gives(status, *said)
    right = call.out.startswith(f"{now}\n{then}\n") and call.out.count("\n") > 2 and call.err == ""
    expect(f"{call.what[:200]}: {now}, {then}", right, call.out + call.err)


def alone(folder, asked, now, then, status):
    call = ask(folder, "--numbers", "sheet", *asked).gives(status)
    expect(f"{call.what[:200]}: the numbers alone", call.out == f"{now}\n{then}\n" and call.err == "", call.out)


def try_sheets(folder):
    expect("every refusal of new times but 19", {row[4] for row in REFUSED} == set(preview.REFUSALS) - {19})
    expect("every refusal of a sheet", {int(five.split()[0]) for _, five in UNREAD} == set(OF_SHEET))
    for sheet, statement, times, now, then, *said in CHANGED:
        in_folder(folder, "sheet", sheet)
        asked, status = (*statement.split(), times), 0 if then.startswith("0 ") else 1
        answers(ask(folder, "sheet", *asked), now, then, "now, ", "then, ", "what changes: ", *said, status=status)
        alone(folder, asked, now, then, status)
    for sheet, statement, times, now, refusal, *said in REFUSED:
        in_folder(folder, "sheet", sheet)
        asked, then = (*statement.split(), times), f"{refusal} 0 0 0 0"
        answers(ask(folder, "sheet", *asked), now, then, "now, ", *said, "what to do: ")
        alone(folder, asked, now, then, 1)
    for sheet, five in UNREAD:
        in_folder(folder, "sheet", sheet)
        for asked in (ASKED, ("9", "9", "3..2")):
            answers(ask(folder, "sheet", *asked), five, five, "refused, ", "of a sheet that does not read")
        alone(folder, ASKED, five, five, 1)


def try_forms(folder):
    """A sheet may be text, and may come from standard input."""
    in_folder(folder, "sheet", TEXT)
    line = "times 2..5 instead of 2..3:\n  line 6: 2..3 skip\n  at byte 27: "
    for options in ([], ["--text"]):
        answers(ask(folder, *options, "sheet", *ASKED), ACCEPTED, "15 0 2 2 5", line)
    answers(ask(folder, "--bytes", "sheet", *ASKED), "2 0 0 0 0", "2 0 0 0 0", "refused, 2 out of turn")
    answers(ask(folder, "-", *ASKED, given=TEXT), ACCEPTED, "15 0 2 2 5", line)
    answers(ask(folder, "-", *ASKED, given=B), ACCEPTED, "15 0 2 2 5")
    answers(ask(folder, "sheet", "0", "0", "3..2"), ACCEPTED, "4 0 0 0 0", "line 6: 2..3 skip\n", "asked for: 3..2\n")
    answers(ask(folder, "-", *ASKED, given=bytes(2_000_000)), "9 0 0 0 0", "9 0 0 0 0")
    answers(ask(folder, "-", *ASKED, given=B[:2]), "1 0 0 0 0", "1 0 0 0 0", "(it was taken as bytes, since it holds")
    in_folder(folder, "sheet", TEXT.replace(b"10\n", b"ten\n", 1))
    answers(ask(folder), "20 6 0 0 0", "20 6 0 0 0", "  line 1, column 7 (byte 6 of the text):\n    1 | limit ten\n", preview.NO_SHEET)
    alone(folder, ASKED, "20 6 0 0 0", "20 6 0 0 0", 1)


def program_gives(folder, arguments, out, err):
    """What the program itself writes, called in the folder."""
    ended = subprocess.run([os.path.join(ROOT, "target", "bin", "retime_main"), *arguments], cwd=folder, capture_output=True)
    what = " ".join(arguments)[:80]
    expect(f"retime_main {what}", (ended.stdout, ended.stderr) == (out, err), ended)


def try_program(folder):
    """The program itself, which is given a path: what stands between it and an answer is told on standard error alone."""
    in_folder(folder, "sheet", B)
    not_numbers = ("x 0 2 5", "0 -1 2 5", "0 0 +2 5", "0 0 2 5.", "0 0 2 0x5", "0 0 2: 5", "/ 0 2 5")
    two = b"0 0 2 2 3\n15 0 2 2 5\n"
    for arguments, out, err in (
        ("sheet 0 0 2 5", two, b""),
        ("sheet 00 000 0002 05", two, b""),
        (f"sheet {'0' * 4096} 0 2 5", two, b""),
        (f"sheet 0 0 2 {'9' * 4096}", b"0 0 2 2 3\n4 0 0 0 0\n", b""),
        ("sheet 0 0 2 5 write", b"0 0 0 0 2 3 2 5\n" + SLOWER, b""),
        ("sheet 00 0 02 3 write", b"0 0 0 0 2 3 2 3\n" + B, b""),
        ("sheet 0 1 0 0 write", b"0 0 0 1 0 0 0 0\n" + B, b""),
        ("sheet 0 0 2 65536 write", b"4 0 0 0 0 0 0 0\n", b""),
        ("sheet 0 2 0 0 write", b"5 0 0 0 0 0 0 0\n", b""),
        ("/dev/null 0 0 2 5 write", b"1 0 0 0 0 0 0 0\n", b""),
        ("/dev/zero 0 0 2 5 write", b"9 0 0 0 0 0 0 0\n", b""),
        ("/dev/zero 0 0 2 5", b"9 0 0 0 0\n" * 2, b""),
        ("", b"", USAGE),
        ("sheet 0 0 2", b"", USAGE),
        ("sheet 0 0 2 5 write write", b"", USAGE),
        *((f"sheet 0 0 2 5 {word}", b"", USAGE) for word in ("wrote", "Write", "writ", "writes", "0")),
        *((f"sheet {words}", b"", USAGE) for words in not_numbers),
        (f"sheet 0 0 2 {'9' * 4097}", b"", USAGE),
        ("absent 0 0 2 5", b"", b"absent: No such file or directory\n"),
        (". 0 0 2 5", b"", b"SHEET: Is a directory\n"),
    ):
        program_gives(folder, arguments.split(), out, err)
    program_gives(folder, ["sheet", "0", "", "2", "5"], b"", USAGE)


def try_usage(folder):
    for arguments in (["--help"], ["x", "-h"]):
        Call("preview", *arguments).gives(0, "usage: ./zumbeiry preview ", "Ends with 0 if the label may stay with ")
    Call("--help").gives(0, "\n  preview SHEET THREAD STATEMENT LEAST..GREATEST\n")
    in_folder(folder, "sheet", B)
    for arguments in ([], ["sheet"], ["sheet", "0", "0"], ["sheet", "0", "0", "2", "5"], ["--write"]):
        cannot(Call("preview", *arguments), "preview what? SHEET THREAD STATEMENT LEAST..GREATEST")
    malformed = ("2", "2..", "..5", "2.5", "2...5", "2 .. 5", "2..5 ", "2..5\n", "+2..5", "2..-5", "2..x", "", "2..\u0665")
    for times in malformed:
        cannot(ask(folder, "sheet", "0", "0", times), "times are LEAST..GREATEST, two numbers as in 2..3, not ")
    for word in ("", "x", "0.", "+0", " 0", "0\n", "0x0", "\u0660", "1..2"):
        cannot(ask(folder, "sheet", word, "0", "2..5"), "THREAD is a number, 0 or more, not ")
        cannot(ask(folder, "sheet", "0", word, "2..5"), "STATEMENT is a number, 0 or more, not ")
    cannot(ask(folder, "sheet", "0", "-1", "2..5"), "there is no option -1")
    cannot(ask(folder, "--check", "sheet", *ASKED), "there is no option --check")
    cannot(ask(folder, "--text", "--bytes", "sheet", *ASKED), "do not go together")
    cannot(ask(folder, "absent", *ASKED), "zumbeiry: absent: No such file")
    cannot(ask(folder, ".", *ASKED), "Is a directory")


def try_examples():
    """What stands in sheets/README.md is given."""
    row = r"^\| `(\S+)` \| (\d+ \d+ \S+) \| .* \| ([\d ]+) \| ([\d ]+) \|$"
    rows = re.findall(row, text_of("sheets", "README.md"), re.MULTILINE)
    expect("sheets/README.md has previews", len(rows) > 5, rows)
    for name, asked, now, then in rows:
        answers(Call("preview", f"sheets/{name}", *asked.split()), now, then, status=0 if then.startswith("0 ") else 1)


# what a program writes that is no answer
NO_ANSWERS = (
    "exit 0\n",
    "echo hello\n",
    "echo 0 0 2 2 3\n",
    "echo 0 0 2 2 3; printf '0 0 2 2 3'\n",
    "echo 0 0 2 2 3; echo 0 0 2 2\n",
    "echo 0 0 2 2 3; echo 0 0 2 2 03\n",
    "echo 0 0 2 2 3; echo 0 0 2 2 -3\n",
    "echo 0 0 2 2 3; echo 0 0 2 2 3; echo 0 0 2 2 3\n",
    "echo 0 0 2 2 3; echo 17 0 0 0 0\n",
    "echo 0 0 2 2 3; echo 21 0 0 0 0\n",
    "echo 0 0 2 2 3; echo 1 27 0 0 0\n",  # the sheet's own number, though it reads
    "echo 0 0 2 2 3; echo 5 27 0 0 0\n",
    "echo 0 0 2 2 3; echo 4 0 1 0 0\n",
    "echo 0 0 2 2 3; echo 19 0 0 0 1\n",
    "echo 1 27 0 0 0; echo 1 28 0 0 0\n",
    "echo 1 27 0 0 0; echo 5 0 0 0 0\n",
    "echo 19 0 0 0 0; echo 19 0 0 0 0\n",
    "echo 0 0 2 2 3; echo 0 0 2 2 3; echo more >&2\n",
)


def try_answers(folder, copy):
    """In the copy: whatever the program answers is told, and what is no answer is told as a fault."""
    temporary = os.path.join(folder, "lent for previews")
    os.makedirs(temporary)
    in_folder(folder, "sheet", B)

    def call(script, *arguments):
        stand_in(os.path.join(copy, "target", "bin", "retime_main"), script)
        return ask(folder, *arguments, root=copy, TMPDIR=temporary)

    cannot(ask(folder, root=copy, PATH=folder), "retime_main has to be built, and there is no rt")
    answers(call("echo 13 0 7 0 0; echo 0 0 2 2 3\n"), "13 0 7 0 0", ACCEPTED, "there is a window, 2..3", status=0)
    given_to = '[ "$#" = 5 ] && cmp "$1" sheet && [ "$2 $3 $4 $5" = "0 0 2 5" ] && echo 0 0 2 2 3 && echo 0 0 2 2 3\n'
    answers(call(given_to, "sheet", "00", "0", "2..005"), ACCEPTED, ACCEPTED, "the window stays 2..3", status=0)
    full = "then, refused, 19 output full: the copy buffer is shorter than the sheet"
    answers(call("echo 0 0 2 2 3; echo 19 0 0 0 0\n"), ACCEPTED, "19 0 0 0 0", full)
    answers(call("echo 0 0 2 2 3; echo 5 0 0 0 0\n"), ACCEPTED, "5 0 0 0 0", "thread 0 has 2 statements, from 0 on\n")
    answers(call("echo 9 7 0 0 0; echo 9 7 0 0 0\n"), "9 7 0 0 0", "9 7 0 0 0", "refused, 9 too long")
    for script in NO_ANSWERS:
        cannot(call(script), "target/bin/retime_main gave no answer")
    absent = "answered for a statement that the sheet does not have"
    cannot(call("echo 0 0 2 2 3; echo 0 0 2 2 3\n", "sheet", "0", "2", "2..5"), absent)
    cannot(call("echo 0 0 2 2 3; echo 4 0 0 0 0\n", "sheet", "1", "0", "2..5"), absent)
    cannot(call("echo SHEET: not there >&2\n"), "gave no answer: SHEET: not there\n")
    cannot(call("echo 0 0 2 2 3; echo 0 0 2 2 3; exit 3\n"), "target/bin/retime_main ended with status 3")
    cannot(call("echo 0 0 2 2 3; echo 0 0 2 2 3; kill -9 $$\n"), "target/bin/retime_main was ended by signal 9")
    in_folder(folder, "sheet", b"\x04\x00\x01\x00\x06\x00\x02\x00\x02")
    cannot(call("echo 0 0 2 2 3; echo 0 0 2 2 3\n"), absent)
    expect("no temporary file is left over", os.listdir(temporary) == [], os.listdir(temporary))


def try_all(folder, copy):
    try_sheets(folder)
    try_forms(folder)
    try_program(folder)
    try_usage(folder)
    as_in_readme("preview sheets/B.txt", 2)
    try_examples()
    try_answers(folder, copy)
