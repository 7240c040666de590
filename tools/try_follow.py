"""Tries ./zumbeiry follow, as a part of try_command.py: on sheets and records that are made here, on those of sheets/, and on a
copy of the command whose program is a stand-in, so that a wrong answer is told all the same."""

import os
import re
import subprocess

import follower
from calls import B, Call, ROOT, as_in_readme, cannot, expect, in_folder, stand_in, text_of
from follow_cases import HOLDS, REFUSED, RUNS, event
from fields import field

EXAMPLES = ("sheets/B.txt", "sheets/B-at-3.rec")


def put(folder, sheet, recorded):
    in_folder(folder, "sheet", sheet)
    in_folder(folder, "record", recorded)


def follow(folder, *arguments, **other):
    return Call("follow", *(arguments or ("sheet", "record")), folder=folder, **other)


def answers(call, numbers, *said, status=0):
    """The five numbers and what is said of them, and nothing on standard error."""
    call.gives(status, *said)
    right = call.out.startswith(numbers + "\n") and call.out.count("\n") > 1 and call.err == ""
    expect(f"{call.what}: {numbers}", right, call.out + call.err)


def try_files(folder):
    given = {int(numbers.split()[0]) for _, _, numbers, *_ in REFUSED if numbers.split()[1] == "1"}
    expect("there are runs, and every refusal of a record", len(RUNS) > 20 and given == set(follower.REFUSALS), given)
    for sheet, recorded, ends, status, said in RUNS:
        put(folder, sheet, recorded)
        answers(follow(folder), f"0 0 0 {ends}", said, status=status)
    for sheet, recorded, numbers, *said in REFUSED:
        put(folder, sheet, recorded)
        answers(follow(folder), numbers + " 0 0", *said, "what to do: ", status=1)
        alone = follow(folder, "--numbers", "sheet", "record").gives(1)
        expect(f"{numbers}: the numbers alone", alone.out == numbers + " 0 0\n" and alone.err == "", alone.out)


def try_forms(folder):
    """A sheet may be text, either file may come from standard input, and a file may be longer than is read."""
    put(folder, b"limit 10\nbudget 10\nlabel 2..3\nlocks 0\nthread\n2..3 skip\nhalt\n", event(0, 3))
    for options in ([], ["--text"]):
        answers(follow(folder, *options, "sheet", "record"), "0 0 0 1 3", HOLDS)
    answers(follow(folder, "--bytes", "sheet", "record"), "2 0 0 0 0", "in sheet, the sheet\n", status=1)
    answers(follow(folder, "-", "record", given=B), "0 0 0 1 3", HOLDS)
    answers(follow(folder, "sheet", "-", given=event(0, 4)), "21 1 0 0 0", "in -, the record\n", status=1)
    answers(follow(folder, "sheet", "-", given=bytes(2_000_000)), "9 1 0 0 0", "in -, the record\n", status=1)
    answers(follow(folder, "--bytes", "-", "record", given=bytes(2_000_000)), "9 0 0 0 0", "in -, the sheet\n", status=1)
    in_folder(folder, "sheet", b"limit 10\nbudget 10\nlabel 2..3\nlocks 0\nthread\n3..2 skip\nhalt\n")
    line = "  in sheet, the sheet\n  line 6, column 1 (byte 45 of the text):\n    6 | 3..2 skip\n      | ^\n"
    answers(follow(folder), "4 0 45 0 0", "refused, 4 off range: a number of the line is outside", line, status=1)
    in_folder(folder, "sheet", b"limit ten\n")
    answers(follow(folder), "20 0 6 0 0", "refused, 20 unreadable: ", "  in sheet, the sheet\n  line 1, column 7 ", status=1)
    call = follow(folder, "--numbers", "sheet", "record").gives(1)
    expect("a text: the numbers alone", call.out == "20 0 6 0 0\n" and call.err == "", call.out)


def try_program(folder):
    """The program itself, which is given paths: what stands between it and an answer is told on standard error alone."""
    put(folder, B, event(0, 3))
    usage = "usage: record_main SHEET RECORD\n"
    for arguments, out, err in (
        (["sheet", "record"], "0 0 0 1 3\n", ""),
        (["sheet", "/dev/null"], "0 0 0 0 0\n", ""),
        (["/dev/null", "record"], "1 0 0 0 0\n", ""),
        (["sheet", "/dev/zero"], "9 1 0 0 0\n", ""),
        (["/dev/zero", "record"], "9 0 0 0 0\n", ""),
        ([], "", usage),
        (["sheet"], "", usage),
        (["sheet", "record", "record"], "", usage),
        (["absent", "record"], "", "absent: No such file or directory\n"),
        (["sheet", "absent"], "", "absent: No such file or directory\n"),
        ([folder, "record"], "", "SHEET: Is a directory\n"),
        (["sheet", folder], "", "RECORD: Is a directory\n"),
    ):
        command = [os.path.join(ROOT, "target", "bin", "record_main"), *arguments]
        ended = subprocess.run(command, cwd=folder, capture_output=True, text=True)
        expect(f"record_main {arguments}", (ended.stdout, ended.stderr) == (out, err), ended)


def try_usage(folder):
    for arguments in (["--help"], ["x", "-h"]):
        Call("follow", *arguments).gives(0, "usage: ./zumbeiry follow ", "Ends with 0 if the record is a run")
    Call("--help").gives(0, "\n  follow SHEET RECORD  ")
    for arguments in ([], ["x"], ["x", "y", "z"], ["--numbers"]):
        cannot(Call("follow", *arguments), "follow which RECORD through which SHEET?")
    cannot(Call("follow", "--check", *EXAMPLES), "there is no option --check")
    cannot(Call("follow", "--text", "--bytes", *EXAMPLES), "do not go together")
    cannot(Call("follow", "-", "-"), "can be read once")
    cannot(Call("follow", "absent", EXAMPLES[1]), "zumbeiry: absent: No such file")
    cannot(Call("follow", EXAMPLES[0], "absent"), "zumbeiry: absent: No such file")
    cannot(Call("follow", folder, EXAMPLES[1]), "Is a directory")
    cannot(Call("follow", EXAMPLES[0], folder), "Is a directory")


def try_examples():
    """Each record of sheets/ has the bytes that stand in sheets/README.md, and gives the five numbers there."""
    rows = re.findall(
        r"^\| `(\S+\.rec)` \| `(\S+)` \| ([\dA-F ]+) \| (.*) \| ([\d ]+) \|$", text_of("sheets", "README.md"), re.MULTILINE
    )
    there = sorted(name for name in os.listdir(os.path.join(ROOT, "sheets")) if name.endswith(".rec"))
    expect("sheets/README.md lists the records", len(rows) > 9 and sorted(row[0] for row in rows) == there, there)
    for name, sheet, written, shows, numbers in rows:
        with open(os.path.join(ROOT, "sheets", name), "rb") as file:
            expect(f"{name} has the bytes of sheets/README.md", file.read() == bytes.fromhex(written))
        kept = numbers.startswith("0 ") and "outside the label" not in shows
        answers(Call("follow", f"sheets/{sheet}", f"sheets/{name}"), numbers, status=0 if kept else 1)


# what a program writes that is no answer
NO_ANSWERS = (
    "exit 0\n",
    "echo hello\n",
    "printf '0 0 0 1 3'\n",
    "echo 0 0 0 1\n",
    "echo 0 0 0 1 3 0\n",
    "echo 0 0 0 2 3\n",
    "echo 0 0 0 1 03\n",
    "echo 0 0 1 1 3\n",
    "echo 0 1 0 1 3\n",
    "echo 10 0 0 0 0\n",
    "echo 6 1 0 0 0\n",
    "echo 17 1 0 0 0\n",
    "echo 21 0 0 0 0\n",
    "echo 21 2 0 0 0\n",
    "echo 21 1 0 1 0\n",
    "echo 21 1 0 0 3\n",
    "echo 0 0 0 1 3; echo 0 0 0 1 3\n",
    "echo 0 0 0 1 3; echo 0 0 0 1 3 >&2\n",
)


def try_answers(folder, copy):
    """In the copy: whatever the program answers is told, and what is no answer is told as a fault."""
    temporary = os.path.join(folder, "lent")
    os.makedirs(temporary)
    put(folder, B, event(0, 3))

    def call(script, *arguments):
        stand_in(os.path.join(copy, "target", "bin", "record_main"), script)
        return follow(folder, *arguments, root=copy, TMPDIR=temporary)

    cannot(follow(folder, root=copy, PATH=folder), "record_main has to be built, and there is no rt")
    answers(call("echo 0 0 0 1 2\n"), "0 0 0 1 2", HOLDS)
    answers(call("echo 0 0 0 1 4\n"), "0 0 0 1 4", "the label 2..3 does not hold\n", status=1)
    answers(call("echo 0 0 0 0 4\n"), "0 0 0 0 4", "past the label 2..3\n", status=1)
    answers(call('[ $# = 2 ] && cmp "$1" sheet && cmp "$2" record && echo 0 0 0 1 3\n'), "0 0 0 1 3", HOLDS)
    answers(call("echo 21 1 0 0 0\n"), "21 1 0 0 0", "event 0, thread 0 at tick 3 ", status=1)
    answers(call("echo 3 1 99 0 0\n"), "3 1 99 0 0", "refused, 3 bad length", "at byte 99\n", status=1)
    answers(call("echo 4 1 99 0 0\n"), "4 1 99 0 0", "refused, 4 off range", "at byte 99\n", status=1)
    answers(call("echo 5 0 27 0 0\n"), "5 0 27 0 0", "statement 0 of thread 0, skip", status=1)
    for script in NO_ANSWERS:
        cannot(call(script), "target/bin/record_main gave no answer")
    cannot(call("echo SHEET: not there >&2\n"), "gave no answer: SHEET: not there\n")
    cannot(call("echo 0 0 0 1 3; exit 3\n"), "target/bin/record_main ended with status 3")
    cannot(call("echo 0 0 0 1 3; kill -9 $$\n"), "target/bin/record_main was ended by signal 9")
    put(folder, field(2, b"\0") + b"\x04\x00", event(0, 3))
    answers(call("echo 0 0 0 1 3\n"), "0 0 0 1 3", "finished at tick 3", status=1)
    answers(call("echo 4 1 0 0 0\n"), "4 1 0 0 0", "event 0, thread 0 at tick 3 ", status=1)
    expect("no temporary file is left over", os.listdir(temporary) == [], os.listdir(temporary))


def try_all(folder, copy):
    try_files(folder)
    try_forms(folder)
    try_program(folder)
    try_usage(folder)
    as_in_readme("follow", 2)
    try_examples()
    try_answers(folder, copy)
