"""Tries ./zumbeiry preview --write, as a part of try_command.py: on files and folders that may be written or not, through links,
with failures in the middle, and in a copy of the command with a program that answers wrongly."""

import ctypes
import os
import shlex
import stat
from unittest import mock

import given
from calls import B, ROOT, cannot, expect, in_folder, stand_in
from preview_cases import ACCEPTED, SLOWER, UNREAD
from try_preview import ASKED, TEXT, answers, ask


def as_anyone():
    """Before the command starts: one who may do everything may no longer pass over the modes of files."""
    ctypes.CDLL(None).prctl(24, 1, 0, 0, 0)  # PR_CAPBSET_DROP, CAP_DAC_OVERRIDE


def back(times):
    """The last line where a change of statement 0 of thread 0 is made, in another folder than the command's."""
    return f"to take it back: {shlex.quote(os.path.join(ROOT, 'zumbeiry'))} take-back sheet 0 0 {times}\n"


class Sheet:
    """A file in a folder of its own that --write or take-back may change."""

    def __init__(self, folder, name, held=B, mode=0o640):
        self.folder = os.path.join(folder, name)
        os.makedirs(self.folder)
        self.path = in_folder(self.folder, "sheet", held)
        os.chmod(self.path, mode)
        self.mode = mode

    def write(self, *arguments, **other):
        return ask(self.folder, "--write", *(arguments or ("sheet", *ASKED)), **other)

    def holds(self, what, held, files=("sheet",)):
        """It has these bytes and its mode, and there is no other file but those named."""
        with open(self.path, "rb") as file:
            expect(f"{what}: the file's bytes", file.read() == held)
        expect(f"{what}: the file's mode", stat.S_IMODE(os.stat(self.path).st_mode) == self.mode)
        expect(f"{what}: no other file", sorted(os.listdir(self.folder)) == sorted(files), os.listdir(self.folder))


def try_writing(folder):
    sheet = Sheet(folder, "writes")
    end = "written: sheet has the new times; the check now refuses it, as shown\n"
    answers(sheet.write(), ACCEPTED, "15 0 2 2 5", end + back("2..3 2..5"))
    sheet.holds("a label that breaks", SLOWER)
    end = "written: sheet has the new times\n" + back("2..5 2..3")
    answers(sheet.write("sheet", "0", "0", "2..3"), "15 0 2 2 5", ACCEPTED, end, status=0)
    sheet.holds("and holds again", B)
    already = "sheet has these times already: nothing is written\n" + back("2..3 2..3")
    answers(sheet.write("sheet", "0", "0", "2..3"), ACCEPTED, ACCEPTED, already, status=0)
    for asked in (("0", "2", "2..5"), ("0", "0", "3..2"), ("0", "0", "2..65536"), ("0", "1", "1..1")):
        call = sheet.write("sheet", *asked).gives(1, "then, refused, ")
        expect(f"{call.what}: nothing to take back", call.out.endswith("\nnothing is written\n"), call.out)
        sheet.holds(call.what, B)
    for held, five in UNREAD:
        sheet.path = in_folder(sheet.folder, "sheet", held)
        answers(sheet.write(), five, five, "\nnothing is written\n")
        sheet.holds(f"{five}", held)


def try_numbers(folder):
    """The numbers alone, and behind them the words that take-back is given, if there is something to take back."""
    sheet = Sheet(folder, "numbers")
    for asked, then, words, held in (
        (("0", "0", "515..1026"), "12 0 1 0 0\n", "0 0 2..3 515..1026\n", B[:30] + b"\x02\x03\x04\x02" + B[34:]),
        (("00", "0", "002..03"), "0 0 2 2 3\n", "0 0 515..1026 2..3\n", B),
        (("0", "1", "0..0"), "0 0 2 2 3\n", "0 1 0..0 0..0\n", B),
        (("0", "0", "3..2"), "4 0 0 0 0\n", "", B),
        (("0", "2", "2..3"), "5 0 0 0 0\n", "", B),
    ):
        call = sheet.write("--numbers", "sheet", *asked).gives(0 if then.startswith("0 ") else 1)
        expect(f"{call.what}: the numbers alone", call.out.endswith(f"\n{then}{words}") and call.err == "", call.out)
        expect(f"{call.what}: no other line", call.out.count("\n") == (3 if words else 2), call.out)
        sheet.holds(call.what, held)


def try_unwritten(folder):
    """What cannot be written is told in one line, before anything is shown."""
    sheet = Sheet(folder, "unwritten", TEXT, 0o600)
    cannot(sheet.write(), "zumbeiry: sheet: a sheet that is text is not written; change its lines\n")
    cannot(sheet.write("-", *ASKED, given=B), "standard input, -, cannot be written")
    cannot(sheet.write("/dev/null", *ASKED), "/dev/null: not a file that can be written")
    cannot(sheet.write("absent", *ASKED), "absent: No such file")
    sheet.holds("a text", TEXT)
    kept = Sheet(folder, "read-only file", mode=0o444)
    cannot(kept.write(before=as_anyone), "zumbeiry: sheet: Permission denied")
    kept.holds("a file that is read-only", B)
    shut = Sheet(folder, "read-only folder")
    os.chmod(shut.folder, 0o555)
    said = "zumbeiry: sheet: not written: Permission denied\n"
    call = shut.write(before=as_anyone).gives(2, f"{ACCEPTED}\n15 0 2 2 5\n", err=[said])
    expect("a folder that is read-only: nothing is said to be written", "written: " not in call.out, call.out)
    call = shut.write("--numbers", "sheet", *ASKED, before=as_anyone).gives(2, err=[said])
    lines = f"{ACCEPTED}\n15 0 2 2 5\n0 0 2..3 2..5\n"
    expect("a folder that is read-only: what takes the change back is told before it is written", call.out == lines, call.out)
    shut.holds("a folder that is read-only", B)


def try_links(folder):
    sheet = Sheet(folder, "links")
    other = os.path.join(folder, "other links")
    os.makedirs(other)
    os.symlink("sheet", os.path.join(sheet.folder, "near"))
    os.symlink(os.path.join("..", "links", "near"), os.path.join(other, "far"))
    for link, times, held in ((("links", "near"), "2..5", SLOWER), (("other links", "far"), "2..3", B)):
        path = os.path.join(folder, *link)
        ask(folder, "--write", path, "0", "0", times).gives(1 if held == SLOWER else 0, f"written: {path} has the new times")
        expect(f"{link} is a link", os.path.islink(path))
        sheet.holds(f"through {link}", held, ("sheet", "near"))


def try_failures(folder):
    """A failure in the middle leaves the file as it was, and nothing beside it."""
    sheet = Sheet(folder, "fails")
    for broken in ("os.fsync", "os.chmod", "os.replace"):
        try:
            with mock.patch(broken, side_effect=OSError(28, "No space left on device")):
                given.put(sheet.path, SLOWER)
            expect(f"{broken} fails", False)
        except OSError as error:
            expect(f"{broken} fails", error.errno == 28)
        sheet.holds(f"{broken} fails", B)
    with mock.patch("os.chown", side_effect=PermissionError(1, "Operation not permitted")):
        given.put(sheet.path, SLOWER)
    sheet.holds("an owner that cannot be kept", SLOWER)


MADE = "echo 0 0 0 0 2 3 2 5"  # the line before the changed sheet

# what a program gives for the changed sheet that is none; $B is the sheet's path
NO_SHEETS = (
    "exit 0\n",
    f"{MADE}\n",
    f"{MADE}; cat $B\n",  # the old times
    "echo 0 0; cat slower\n",
    *(f"echo {line}; cat slower\n" for line in ("4 0 0 0 2 3 2 5", "0 1 0 0 2 3 2 5", "0 0 1 0 2 3 2 5", "0 0 0 1 2 3 2 5")),
    *(f"echo {line}; cat slower\n" for line in ("0 0 0 0 1 3 2 5", "0 0 0 0 2 4 2 5", "0 0 0 0 2 3 1 5", "0 0 0 0 2 3 2 6")),
    *(f"echo {line}; cat slower\n" for line in ("0 0 0 0 2 3 2 05", "0 0 0 0 2 3 2", "0 0 0 0 2 3 2 5 0", "0 0 0 0 2 5 2 3")),
    f"{MADE}; cat slower; echo\n",
    f"{MADE}; head -c 42 slower\n",
    f"{MADE}; cat longer\n",  # a byte that is not one of the four
    "printf '0 0 0 0 2 3 2 5'; cat slower\n",
    f"{MADE}; cat slower; echo more >&2\n",
)


def try_answers(folder, copy):
    """In the copy: the file is written with what the program gives if that is the sheet with the new times, else not."""
    sheet = Sheet(folder, "answers")
    in_folder(sheet.folder, "slower", SLOWER)
    in_folder(sheet.folder, "longer", SLOWER[:14] + b"\x01" + SLOWER[15:])
    files = ("sheet", "slower", "longer")

    def call(script, *arguments):
        shows = "[ $# = 5 ] && echo 0 0 2 2 3 && echo 15 0 2 2 5 && exit\nB=$1\n"
        stand_in(os.path.join(copy, "target", "bin", "retime_main"), shows + script)
        return sheet.write(*arguments, root=copy)

    for script in NO_SHEETS:
        call(script).gives(2, f"{ACCEPTED}\n15 0 2 2 5\n", err=["target/bin/retime_main gave no answer"])
        sheet.holds(script, B, files)
    call("echo 0 0 0 0 2 3 2 65541; cat slower\n", "sheet", "0", "0", "2..65541").gives(2, err=["gave no answer"])
    sheet.holds("times of more than two bytes", B, files)
    call(f"{MADE}; cat slower; printf 1 >> sheet\n").gives(2, err=["sheet: the file has changed meanwhile, and is not "])
    sheet.holds("changed meanwhile", B + b"1", files)
    in_folder(sheet.folder, "sheet", B)
    script = f'[ "$2 $3 $4 $5 $6" = "0 0 2 5 write" ] && {MADE} && cat slower\n'
    call(script).gives(1, "written: sheet has the new times; ", "/zumbeiry take-back sheet 0 0 2..3 2..5\n")
    sheet.holds("the changed sheet", SLOWER, files)


def try_all(folder, copy):
    try_writing(folder)
    try_numbers(folder)
    try_unwritten(folder)
    try_links(folder)
    try_failures(folder)
    try_answers(folder, copy)
