"""Tries where ./zumbeiry mend reads a sheet and writes the mended one, as a part of try_command.py: texts and bytes, files and
standard input and output, files that may not be written, and the check of the mended sheet. A stand-in takes the place of the
program, which is tried itself if it is built."""

import os
from unittest import mock

import convert
import given
import mend
from calls import B, Call, StandIn, cannot, expect, in_folder, stand_in, tells_words
from mend_cases import GARBLED
from programs import CannotRun
from try_mend import BUILT, PROGRAM, alone, ask, says, tells
from try_written import Sheet, as_anyone

FOUR = "0 0 43 6"  # of GARBLED
CHANGES = "1 0\n1 27\n2 27\n"
TEXT = b"limit 10\nbudget 100\nlabel 2..3\nlocks 0\nthread\n2..3 skip\nhalt\n"  # B as text
WRITTEN = "written: {} has the mended sheet, 43 bytes\n"

LINES = (
    "mended, 3 changes:\n"
    "  exchanged the ends of the label (at byte 0): 3..2 is now 2..3\n"
    "  exchanged the times of statement 0 of thread 0, skip (at byte 27): 3..2 is now 2..3\n"
    "  added halt behind statement 0 of thread 0, skip (at byte 27): it is statement 1\n"
)


def has(sheet, name, held):
    """A new file with these bytes, and with the mode that a new file gets; it is taken away again."""
    path, mask = os.path.join(sheet.folder, name), os.umask(0)
    os.umask(mask)
    with open(path, "rb") as file:
        expect(f"{name} has the bytes", file.read() == held)
    expect(f"{name} has the mode", os.stat(path).st_mode & 0o777 == 0o666 & ~mask)
    os.unlink(path)


def try_new_files(folder, copy):
    sheet = Sheet(folder, "new files", GARBLED)
    far = os.path.join(sheet.folder, "new")
    for arguments in (["sheet", "new"], ["./sheet", "./new"], ["--", "sheet", "new"], ["sheet", far]):
        tells(ask(sheet.folder, *arguments, root=copy), FOUR, WRITTEN.format(arguments[-1]), status=0)
        has(sheet, "new", B)
    alone(ask(sheet.folder, "--numbers", "sheet", "new", root=copy), f"{FOUR}\n{CHANGES}", 0)
    has(sheet, "new", B)
    tells(ask(sheet.folder, "-", "new", root=copy, given=GARBLED), FOUR, "mended, 3 changes:\n", WRITTEN.format("new"), status=0)
    has(sheet, "new", B)
    tells(ask(sheet.folder, "--", "sheet", "--new", root=copy), FOUR, WRITTEN.format("--new"), status=0)
    has(sheet, "--new", B)
    sheet.holds("the sheet is left as it is", GARBLED)


def try_output(folder, copy):
    """With - the bytes go to standard output, and what is said to standard error."""
    sheet = Sheet(folder, "put out", GARBLED)
    said = WRITTEN.format("standard output")
    for arguments, standard in ((["sheet", "-"], b""), (["-", "-"], GARBLED), (["--bytes", "-", "-"], GARBLED)):
        call = ask(sheet.folder, *arguments, root=copy, given=standard).gives(0, err=[f"{FOUR}\nmended, 3 changes:\n", said])
        expect(f"{call.what}: the bytes alone", call.bytes == B, call.out)
    call = ask(sheet.folder, "--numbers", "sheet", "-", root=copy).gives(0)
    expect("the numbers on standard error", call.bytes == B and call.err == f"{FOUR}\n{CHANGES}", call.err)
    stand_in(os.path.join(copy, PROGRAM), says("4 27 0 0", "exit 0"))
    call = ask(sheet.folder, "sheet", "-", root=copy).gives(1, err=["4 27 0 0\nrefused, 4 off range", "\nnothing is written\n"])
    expect("refused: no bytes", call.bytes == b"", call.out)
    sheet.holds("the sheet is left as it is", GARBLED)


def try_unwritten(folder, copy):
    """What may not be written is told in one line, and nothing that is there is overwritten."""
    sheet = Sheet(folder, "not mended", GARBLED)
    in_folder(sheet.folder, "other", b"kept")
    os.symlink("sheet", os.path.join(sheet.folder, "near"))
    os.symlink("nowhere", os.path.join(sheet.folder, "far"))
    os.link(sheet.path, os.path.join(sheet.folder, "twin"))
    files = ("sheet", "other", "near", "far", "twin")
    for name in ("sheet", "./sheet", "near", "twin", sheet.path):
        cannot(ask(sheet.folder, "sheet", name, root=copy), f"zumbeiry: {name}: this is SHEET itself, which is left as it is; ")
    cannot(ask(sheet.folder, "near", "sheet", root=copy), "zumbeiry: sheet: this is SHEET itself")
    for name in ("other", "far", ".", "/dev/null"):
        cannot(ask(sheet.folder, "sheet", name, root=copy), f"zumbeiry: {name}: there is such a file already; name a new one\n")
    cannot(ask(sheet.folder, "-", "sheet", root=copy, given=GARBLED), "zumbeiry: sheet: there is such a file already")
    cannot(ask(sheet.folder, "sheet", "absent/new", root=copy), "zumbeiry: absent/new: not written: No such file or directory\n")
    cannot(ask(sheet.folder, "sheet", "other/new", root=copy), "zumbeiry: other/new: not written: Not a directory\n")
    cannot(ask(sheet.folder, "sheet", "", root=copy), "SHEET [MENDED]")
    sheet.holds("nothing is overwritten", GARBLED, files)
    with open(os.path.join(sheet.folder, "other"), "rb") as file:
        expect("another file is kept", file.read() == b"kept")
    os.chmod(sheet.folder, 0o555)
    call = ask(sheet.folder, "sheet", "new", root=copy, before=as_anyone)
    os.chmod(sheet.folder, 0o755)
    cannot(call, "zumbeiry: new: not written: Permission denied\n")
    sheet.holds("a folder that is read-only", GARBLED, files)
    stand_in(os.path.join(copy, PROGRAM), says("4 27 0 0", "exit 0"))
    tells(ask(sheet.folder, "sheet", "new", root=copy), "4 27 0 0", "\nnothing is written\n")
    stand_in(os.path.join(copy, PROGRAM), "exit 0\n")
    cannot(ask(sheet.folder, "sheet", "new", root=copy), "gave no answer")
    sheet.holds("refused", GARBLED, files)


def try_failures(folder):
    """A failure in the middle leaves no file; a file that came meanwhile stays."""
    for broken, raised in (("os.fsync", OSError(28, "No space left on device")), ("os.fsync", KeyboardInterrupt())):
        path = os.path.join(folder, "not to be")
        try:
            with mock.patch(broken, side_effect=raised):
                given.create(path, B)
            expect(f"{broken} fails", False)
        except CannotRun as fault:
            expect(f"{broken} fails", str(fault) == f"{path}: not written: No space left on device", fault)
        except KeyboardInterrupt:
            expect("interrupted", isinstance(raised, KeyboardInterrupt))
        expect(f"{broken} fails: no file", not os.path.exists(path))
    path = in_folder(folder, "meanwhile", b"kept")
    try:
        given.create(path, B)
        expect("a file that came meanwhile", False)
    except CannotRun as fault:
        expect("a file that came meanwhile", str(fault) == f"{path}: not written: File exists", fault)
    with open(path, "rb") as file:
        expect("it stays", file.read() == b"kept")


def try_forms(folder, copy):
    """A sheet may be text: one that is converted reads well, and any other is not mended."""
    sheet, text = Sheet(folder, "a text to mend", TEXT), StandIn(folder, copy, convert.PROGRAM)
    program = StandIn(folder, copy, mend.PROGRAM)
    program.answers(B, "0 0 43 0\n")
    text.answers(B, "")
    for arguments, standard in ((["sheet"], b""), (["--text", "sheet"], b""), (["-"], TEXT)):
        tells(ask(sheet.folder, *arguments, root=copy, given=standard), "0 0 43 0", "nothing to mend: ", status=0)
        text.was_given(TEXT)
        program.was_given(B)
    tells(ask(sheet.folder, "sheet", "new", root=copy), "0 0 43 0", "written: new has the copy, 43 bytes\n", status=0)
    has(sheet, "new", B)
    text.answers(b"", "4 47\n")
    stand_in(program.path, "exit 3\n")
    said = "refused, 4 off range: a number of the line is outside its range", "  line 6, column 1 (byte 47 of the text):\n"
    no_text = "\na sheet is mended, a text is not: correct its line, or mend the sheet's bytes\nnothing is written\n"
    in_folder(sheet.folder, "sheet", TEXT.replace(b"10\n", b"100\n", 1))
    for more in ([], ["new"]):
        tells(ask(sheet.folder, "--check", "sheet", *more, root=copy), "4 47 0 0", *said, no_text)
    alone(ask(sheet.folder, "--numbers", "sheet", root=copy), "4 47 0 0\n", 1)
    call = ask(sheet.folder, "sheet", "-", root=copy).gives(1, err=["4 47 0 0\nrefused, 4 off range", no_text])
    expect("refused: no bytes", call.bytes == b"", call.out)
    program.answers(b"", "2 0 0 0\n")
    hint = "(it was taken as bytes, since it holds control characters; --text takes it as text)\n"
    tells(ask(sheet.folder, "-", root=copy, given=b"\x07\x00\x00"), "2 0 0 0", hint)
    tells(ask(sheet.folder, "--bytes", "sheet", root=copy), "2 0 0 0", "refused, 2 out of turn")


def try_checked(folder, copy):
    """With --check the mended sheet is checked too, and no other."""
    sheet, label = Sheet(folder, "checked", GARBLED), os.path.join(copy, "target", "bin", "label_main")
    mended = in_folder(folder, "what is checked", B)
    stand_in(label, f"cmp - '{mended}' && echo 0 0 2 2 3\n")
    five = "\nthe mended sheet:\n0 0 2 2 3\naccepted: every run finishes between tick 2 and tick 3, inside the label 2..3; "
    tells(ask(sheet.folder, "--check", "sheet", root=copy), FOUR, "goes there\n" + five, status=0)
    tells(ask(sheet.folder, "--check", "sheet", "new", root=copy), FOUR, WRITTEN.format("new") + five, status=0)
    has(sheet, "new", B)
    alone(ask(sheet.folder, "--check", "--numbers", "sheet", root=copy), f"{FOUR}\n{CHANGES}0 0 2 2 3\n", 0)
    call = ask(sheet.folder, "--check", "sheet", "-", root=copy).gives(0, err=[f"{FOUR}\n", five])
    expect("the bytes alone", call.bytes == B, call.out)
    stand_in(label, "echo 15 0 2 2 3\n")
    tells(ask(sheet.folder, "--check", "sheet", root=copy), FOUR, "\nthe mended sheet:\n15 0 2 2 3\nrefused, 15 label broken")
    stand_in(label, "echo hello\n")
    fault = "zumbeiry: the mended sheet: target/bin/label_main did not print five numbers\n"
    ask(sheet.folder, "--check", "sheet", root=copy).gives(2, FOUR, err=[fault])
    stand_in(os.path.join(copy, PROGRAM), says("4 27 0 0", "exit 0"))
    alone(ask(sheet.folder, "--check", "--numbers", "sheet", root=copy), "4 27 0 0\n", 1)


def try_built(folder):
    """With the programs themselves: a mended file is checked as any other."""
    sheet = Sheet(folder, "mended by the program", GARBLED)
    first = ask(sheet.folder, "--check", "sheet", "new").gives(0, f"{FOUR}\n{LINES}")
    second = Call("check", "new", folder=sheet.folder).gives(0, "0 0 2 2 3\n")
    expect("what check gives", first.out.endswith(f"\n\nthe mended sheet:\n{second.out}"), first.out + second.out)
    has(sheet, "new", B)


def try_usage(folder):
    asked, others = "mend which SHEET, into which new file? SHEET [MENDED]", ([], ["a", "b", "c"], ["--check"])
    tells_words("mend", "SHEET [MENDED]", "the sheet is mended or copied", asked, others, ("--write", "-n", "--loud"))
    cannot(Call("mend", "--text", "--bytes", "sheet"), "do not go together")
    cannot(Call("mend", "absent"), "zumbeiry: absent: No such file")
    cannot(Call("mend", folder), "Is a directory")


def try_all(folder, copy):
    program = StandIn(folder, copy, mend.PROGRAM)
    for tried in (try_new_files, try_output, try_unwritten, try_forms, try_checked):
        program.answers(B, f"{FOUR}\n{CHANGES}")
        tried(folder, copy)
    try_failures(folder)
    try_usage(folder)
    if os.path.exists(BUILT):
        try_built(folder)
