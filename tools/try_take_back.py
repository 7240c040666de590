"""Tries ./zumbeiry take-back, as a part of try_command.py: on files that may be written or not, on what README.md shows, and in a
copy of the command with a program that answers wrongly."""

import os
import re

import take_back
import times
from any_sheet import assemble
from calls import B, Call, ROOT, as_in_readme, cannot, expect, in_folder, stand_in, text_of
from preview_cases import SLOWER, UNREAD
from take_back_cases import AGAIN, REFUSED, SAME, TAKEN
from try_preview import TEXT, USAGE, program_gives
from try_written import Sheet, as_anyone

CHANGE = ("0", "0", "2..3", "2..5")


def ask(folder, *arguments, **other):
    return Call("take-back", *(arguments or ("sheet", *CHANGE)), folder=folder, **other)


def answers(call, numbers, *said, status=1):
    """The two numbers and what is said of them, and nothing on standard error."""
    call.gives(status, *said)
    right = call.out.startswith(f"{numbers}\n") and call.out.count("\n") > 2 and call.err == ""
    expect(f"{call.what[:200]}: {numbers}", right, call.out + call.err)


def tried(sheet, held, behind, numbers, after, said):
    """The file with these bytes, and then the same with the numbers alone."""
    status = 0 if numbers == "0 0" else 1
    in_folder(sheet.folder, "sheet", held)
    answers(ask(sheet.folder, "sheet", *behind.split()), numbers, *said, status=status)
    sheet.holds(behind[:80], after)
    in_folder(sheet.folder, "sheet", held)
    call = ask(sheet.folder, "--numbers", "sheet", *behind.split()).gives(status)
    expect(f"{call.what[:200]}: the numbers alone", call.out == f"{numbers}\n" and call.err == "", call.out)
    sheet.holds(behind[:80], after)


def try_sheets(folder):
    sheet = Sheet(folder, "takes back")
    expect("every refusal of a sheet that reads", {row[2] for row in REFUSED} == set(take_back.REFUSALS))
    expect("every refusal of one that does not", {int(five.split()[0]) for _, five in UNREAD} == set(times.OF_SHEET))
    for held, behind, after, *said in TAKEN:
        tried(sheet, held, behind, "0 0", after, said)
    for held, behind, *said in SAME:
        tried(sheet, held, behind, "0 0", held, said)
    for held, behind, refusal, *said in REFUSED:
        tried(sheet, held, behind, f"{refusal} 0", held, [*said, "  what to do: ", "\nnothing is written\n"])
    unread = ["refused, ", "\nin a sheet that does not read nothing is taken back\nnothing is written\n"]
    for held, five in UNREAD:
        for behind in ("0 0 2..3 2..5", "9 9 3..2 1..1"):
            tried(sheet, held, behind, " ".join(five.split()[:2]), held, unread)


def try_unwritten(folder):
    """What cannot be written is told in one line."""
    sheet = Sheet(folder, "not taken back", TEXT, 0o600)
    cannot(ask(sheet.folder), "zumbeiry: sheet: a sheet that is text is not written; change its lines\n")
    sheet.holds("a text", TEXT)
    cannot(ask(sheet.folder, "-", *CHANGE, given=SLOWER), "standard input, -, cannot be written: name a file\n")
    cannot(ask(sheet.folder, "/dev/null", *CHANGE), "/dev/null: not a file that can be written")
    cannot(ask(sheet.folder, "absent", *CHANGE), "zumbeiry: absent: No such file")
    cannot(ask(sheet.folder, ".", *CHANGE), "Is a directory")
    kept = Sheet(folder, "a read-only file", SLOWER, 0o444)
    cannot(ask(kept.folder, before=as_anyone), "zumbeiry: sheet: Permission denied")
    kept.holds("a file that is read-only", SLOWER)
    shut = Sheet(folder, "a read-only folder", SLOWER)
    os.chmod(shut.folder, 0o555)
    cannot(ask(shut.folder, before=as_anyone), "zumbeiry: sheet: not written: Permission denied\n")
    shut.holds("a folder that is read-only", SLOWER)
    linked = Sheet(folder, "a link", SLOWER, 0o604)
    os.symlink("sheet", os.path.join(linked.folder, "near"))
    answers(ask(linked.folder, "near", *CHANGE), "0 0", "written: near has the old times\n", status=0)
    expect("the link is a link", os.path.islink(os.path.join(linked.folder, "near")))
    linked.holds("through a link", B, ("sheet", "near"))


def try_program(folder):
    """The program itself: what stands between it and an answer is told on standard error alone."""
    in_folder(folder, "sheet", SLOWER)
    for arguments, out, err in (
        ("sheet 0 0 2 3 2 5", b"0 0\n" + B, b""),
        ("sheet 00 0 02 3 2 05", b"0 0\n" + B, b""),
        ("sheet 0 0 2 5 2 5", b"0 0\n" + SLOWER, b""),
        ("sheet 0 0 2 3 2 6", b"18 0\n", b""),
        (f"sheet 0 0 2 3 2 {'9' * 4096}", b"18 0\n", b""),
        ("sheet 0 0 3 2 9 9", b"4 0\n", b""),
        ("sheet 0 0 65538 65539 2 5", b"4 0\n", b""),
        ("sheet 0 2 3 2 9 9", b"5 0\n", b""),
        ("/dev/null 0 0 2 3 2 5", b"1 0\n", b""),
        ("/dev/zero 0 0 2 3 2 5", b"9 0\n", b""),
        *((f"sheet {words}", b"", USAGE) for words in ("x 0 2 3 2 5", "0 -1 2 3 2 5", "0 0 2 3 +2 5", "0 0 2 3 2 5.")),
        *((f"sheet {words}", b"", USAGE) for words in ("0 0 2 3 2", "0 0 2 3 2 5 0", "0 0 2 3 2 5 write", "0 0 2 3 2 write")),
        (f"sheet 0 0 2 3 2 {'9' * 4097}", b"", USAGE),
        ("absent 0 0 2 3 2 5", b"", b"absent: No such file or directory\n"),
        (". 0 0 2 3 2 5", b"", b"SHEET: Is a directory\n"),
    ):
        program_gives(folder, arguments.split(), out, err)
    program_gives(folder, ["sheet", "0", "0", "2", "3", "", "5"], b"", USAGE)


def try_usage(folder):
    for arguments in (["--help"], ["x", "-h"]):
        Call("take-back", *arguments).gives(0, "usage: ./zumbeiry take-back ", "Ends with 0 if the change is taken back")
    Call("--help").gives(0, "\n  take-back SHEET THREAD STATEMENT OLD_LEAST..OLD_GREATEST NEW_LEAST..NEW_GREATEST\n")
    in_folder(folder, "sheet", SLOWER)
    for words in ([], ["sheet"], ["sheet", *CHANGE[:3]], ["sheet", *CHANGE, "0"], ["sheet", "0", "0", "2", "3", "2", "5"]):
        cannot(Call("take-back", *words), "take-back what? SHEET THREAD STATEMENT OLD_LEAST..OLD_GREATEST NEW_LEAST..")
    for word in ("2", "2..", "..5", "2.5", "2...5", "2..5 ", "2..5\n", "+2..5", "2..-5", "", "2..\u0665"):
        cannot(ask(folder, "sheet", "0", "0", word, "2..5"), "old times are LEAST..GREATEST, two numbers as in 2..3, not ")
        cannot(ask(folder, "sheet", "0", "0", "2..3", word), "new times are LEAST..GREATEST, two numbers as in 2..3, not ")
    for word in ("", "x", "0.", " 0", "0\n", "\u0660", "1..2"):
        cannot(ask(folder, "sheet", word, *CHANGE[1:]), "THREAD is a number, 0 or more, not ")
        cannot(ask(folder, "sheet", "0", word, *CHANGE[2:]), "STATEMENT is a number, 0 or more, not ")
    for option in ("-1", "--write", "--text", "--bytes"):
        cannot(ask(folder, option, "sheet", *CHANGE), f"there is no option {option}")


def try_examples(folder):
    """What stands in README.md and in sheets/README.md is given."""
    made = "    ./zumbeiry convert sheets/B.txt target/B.sheet\n    ./zumbeiry preview --write "
    expect("README.md makes its sheet", made in text_of("README.md"))
    in_folder(os.path.join(ROOT, "target"), "B.sheet", B)
    as_in_readme("preview --write|take-back", 3)
    row = r"^\| `(\S+)` \| (\d+ \d+ \S+ \S+) \| .* \| (\d+ \d+) \|$"
    rows = re.findall(row, text_of("sheets", "README.md"), re.MULTILINE)
    expect("sheets/README.md has changes to take back", len(rows) > 5, rows)
    for name, behind, numbers in rows:
        in_folder(folder, "sheet", assemble(text_of("sheets", name).splitlines()))
        answers(ask(folder, "sheet", *behind.split()), numbers, status=0 if numbers == "0 0" else 1)


# what a program writes that is no answer; $B is the sheet's path
NO_ANSWERS = (
    *("exit 0\n", "echo hello\n", "echo 0\n", "echo 0 0\n", "echo 0 0 0\n", "cat faster\n"),
    *(f"echo {line}; cat faster\n" for line in ("0 1", "0 27", "00 0", "0 0 0", "5 0", "4 0", "18 0", "1 27")),
    "printf '0 0'; cat faster\n",
    "echo 0 0; cat $B\n",  # the new times
    "echo 0 0; cat faster; echo\n",
    "echo 0 0; head -c 42 faster\n",
    "echo 0 0; cat longer\n",  # a byte that is not one of the four
    "echo 0 0; cat faster; echo more >&2\n",
    *(f"echo {line}\n" for line in ("18 0", "18 27", "10 0", "17 0", "19 0", "21 0")),  # 18: though the new times are there
)


def try_answers(folder, copy):
    """In the copy: the file is written with what the program gives if that is the sheet with the old times, else not."""
    sheet = Sheet(folder, "answers of taking back", SLOWER)
    in_folder(sheet.folder, "faster", B)
    in_folder(sheet.folder, "longer", B[:14] + b"\x01" + B[15:])
    files = ("sheet", "faster", "longer")
    own = "\nin a sheet that does not read nothing is taken back\n"

    def call(script, *arguments):
        stand_in(os.path.join(copy, "target", "bin", times.PROGRAM), "B=$1\n" + script)
        return ask(sheet.folder, *arguments, root=copy)

    for script in NO_ANSWERS:
        cannot(call(script), "target/bin/retime_main gave no answer")
    of_times = "[ $2 = 4 ] && echo 5 0 || echo 4 0\n"
    for script in ("echo 18 0\n", "echo 0 0; cat faster\n", of_times):
        cannot(call(script, "sheet", "0", "2", "2..3", "2..5"), "answered for a statement that the sheet does not have")
    cannot(call("echo 0 0; cat faster\n", "sheet", "0", "0", "2..3", "2..4"), "gave no answer")  # it shows others
    cannot(call("echo SHEET: not there >&2\n"), "gave no answer: SHEET: not there\n")
    cannot(call("echo 0 0; cat faster; exit 3\n"), "target/bin/retime_main ended with status 3")
    answers(call("echo 5 27\n"), "5 27", "refused, 5 no such name: a register, ", own)
    answers(call("echo 4 0\n"), "4 0", "refused, 4 off range: a number or code outside its range", own)
    answers(call(of_times), "4 0", "refused, 4 off range: old times that ")
    sheet.holds("no answer", SLOWER, files)
    cannot(call("echo 0 0; cat faster; printf 1 >> sheet\n"), "sheet: the file has changed meanwhile, and is not written")
    sheet.holds("changed meanwhile", SLOWER + b"1", files)
    in_folder(sheet.folder, "sheet", SLOWER)
    script = '[ $# = 7 ] && cmp "$1" sheet && [ "$2 $3 $4 $5 $6 $7" = "0 0 2 3 2 5" ] && echo 0 0 && cat faster\n'
    answers(call(script, "sheet", "00", "0", "2..03", "2..5"), "0 0", AGAIN, status=0)
    sheet.holds("the old times", B, files)


def try_all(folder, copy):
    try_sheets(folder)
    try_unwritten(folder)
    try_program(folder)
    try_usage(folder)
    try_examples(folder)
    try_answers(folder, copy)
