"""Tries changes of times that ./zumbeiry preview --write makes and ./zumbeiry take-back takes back, as a part of try_command.py:
several on one file, and the lines that preview prints, pasted into a shell."""

import os
import subprocess

from calls import B, Call, ROOT, expect, in_folder
from preview_cases import C
from take_back_cases import AGAIN
from try_take_back import answers, ask
from try_written import Sheet


def changed(sheet, *asked):
    """Makes a change with preview --write; gives the words behind SHEET that take it back."""
    call = Call("preview", "--write", "--numbers", "sheet", *asked, folder=sheet.folder)
    return call.out.splitlines()[2].split()


# in the sheet C, thread, statement and times: two statements, each named more than once, one with the times that it has
CHAIN = (("0", "0", "2..9"), ("1", "0", "1..1"), ("0", "0", "3..7"), ("0", "0", "3..7"), ("1", "0", "2..3"), ("0", "0", "1..4"))


def try_chains(folder):
    """Several changes taken back last first give every sheet that was, to the first; another order may not pass over a later
    change of the same statement."""
    sheet = Sheet(folder, "chains", C)
    held, lines = [C], []
    for asked in CHAIN:
        lines.append(changed(sheet, *asked))
        with open(sheet.path, "rb") as file:
            held.append(file.read())
    expect("the changes differ", len(set(held)) == 5, held)
    for line in reversed(lines):
        answers(ask(sheet.folder, "sheet", *line), "0 0", "taken back: ", status=0)
        held.pop()
        sheet.holds(" ".join(line), held[-1])
    expect("the first sheet", held == [C])
    first, second = changed(sheet, "0", "0", "5..5"), changed(sheet, "0", "0", "6..6")
    other = changed(sheet, "1", "0", "1..9")
    answers(ask(sheet.folder, "sheet", *first), "18 0", "its times are 6..6; the change wrote 5..5 instead of 1..4\n")
    for line in (second, other, first):
        answers(ask(sheet.folder, "sheet", *line), "0 0", status=0)
    sheet.holds("out of order", C)
    answers(ask(sheet.folder, "sheet", *first), "18 0", "its times are 1..4; the change wrote 5..5 instead of 1..4\n")


NAMES = (
    *("a b", "it's", '"', "$HOME", "`x`", "\\", "*", "#x", "~", ";", "-x", "--", "--numbers", "./-", "t\u00fcr"),
    *("a\nb", "a\t1", "\udcff1"),  # not printed as they are
)


def try_pasted(folder):
    """The last line of preview --write takes the change back, pasted into a shell in the same folder."""
    named = os.path.join(folder, "named")
    os.makedirs(named)
    for name in NAMES:
        path = in_folder(named, name, B)
        call = Call("preview", "--write", "--", name, "0", "0", "2..5", folder=named)
        *_, last = call.out.splitlines()
        line = last.removeprefix("to take it back: ")
        ended = subprocess.run(["bash", "-c", line], cwd=named, capture_output=True)
        with open(path, "rb") as file:
            right = line != last and ended.stdout.startswith(b"0 0\n" + AGAIN.encode()) and file.read() == B
        expect(f"{name!r}: the line that takes back", right and ended.returncode == 0, (line, ended))
    in_folder(named, "sheet", B)
    path = os.path.join(named, "sheet")
    *_, last = Call("preview", "--write", path, "0", "0", "2..5").out.splitlines()
    expect("in the command's folder", last == f"to take it back: ./zumbeiry take-back {path} 0 0 2..3 2..5", last)
    script = f"./zumbeiry take-back {path} $(./zumbeiry preview --numbers --write {path} 0 0 9..9 | sed -n 3p)"
    ended = subprocess.run(["sh", "-c", script], cwd=ROOT, capture_output=True)
    expect("in a script", ended.stdout.startswith(b"0 0\ntaken back: the times were 9..9 and are 2..5 again\n"), ended)


def try_all(folder):
    try_chains(folder)
    try_pasted(folder)
