"""Tries where ./zumbeiry convert reads a text and writes its sheet, and what the other verbs do with a text, as a part of
try_command.py. Stand-ins take the place of the programs."""

import os

import convert
from calls import B, Call, StandIn, cannot, expect, in_folder, stand_in, tells_words
from convert_cases import B_TEXT
from try_convert import alone, ask, tells
from try_mended import has
from try_written import Sheet, as_anyone

TEXT = B_TEXT.encode()
WRITTEN = "written: {} has the sheet, 43 bytes\n"
WRONG = TEXT.replace(b"skip", b"skp")
AT = "  line 6, column 8 (byte 53 of the text):\n    6 | 2..3 skp\n      |        ^\n  at the mark: 'p'\n"
RECORD = b"\x21\x00\x03\x00\x00\x03"


def try_new_files(folder, copy):
    text = Sheet(folder, "texts", TEXT)
    for arguments in (["sheet", "new"], ["./sheet", "./new"], ["--", "sheet", "new"], ["sheet", os.path.join(text.folder, "new")]):
        tells(ask(text.folder, *arguments, root=copy), "0 0 43", WRITTEN.format(arguments[-1]), status=0)
        has(text, "new", B)
    alone(ask(text.folder, "--numbers", "sheet", "new", root=copy), "0 0 43", 0)
    has(text, "new", B)
    tells(ask(text.folder, "-", "new", root=copy, given=TEXT), "0 0 43", "converted: 7 lines", WRITTEN.format("new"), status=0)
    has(text, "new", B)
    text.holds("the text is left as it is", TEXT)


def try_output(folder, copy):
    """With - the bytes go to standard output, and what is said to standard error."""
    text = Sheet(folder, "texts put out", TEXT)
    for arguments, standard in ((["sheet", "-"], b""), (["-", "-"], TEXT)):
        said = ["0 0 43\nconverted: 7 lines, a sheet of 43 bytes\n" + WRITTEN.format("standard output")]
        call = ask(text.folder, *arguments, root=copy, given=standard).gives(0, err=said)
        expect(f"{call.what}: the bytes alone", call.bytes == B, call.out)
    program = StandIn(folder, copy, convert.PROGRAM)
    program.answers(b"", "20 53\n")
    in_folder(text.folder, "sheet", WRONG)
    call = ask(text.folder, "sheet", "-", root=copy).gives(1, err=["20 53 0\nrefused, 20 unreadable: ", AT, "\nnothing is written\n"])
    expect("refused: no bytes", call.bytes == b"", call.out)
    tells(ask(text.folder, "sheet", "new", root=copy), "20 53 0", AT, "\nnothing is written\n")
    text.holds("refused", WRONG)


def unwritten(verb, kind, text, root, usage):
    """A verb that writes a new file: what may not be written is told in one line, and nothing that is there is overwritten."""

    def into(name, **other):
        return Call(verb, "sheet", name, folder=text.folder, root=root, **other)

    with open(text.path, "rb") as file:
        held = file.read()
    in_folder(text.folder, "other", b"kept")
    os.symlink("sheet", os.path.join(text.folder, "near"))
    files = ("sheet", "other", "near")
    for name in ("sheet", "./sheet", "near"):
        cannot(into(name), f"zumbeiry: {name}: this is {kind} itself, which is left as it is; ")
    for name in ("other", ".", "/dev/null"):
        cannot(into(name), f"zumbeiry: {name}: there is such a file already; name a new one\n")
    cannot(into("absent/new"), "zumbeiry: absent/new: not written: No such file or directory\n")
    cannot(into(""), usage)
    os.chmod(text.folder, 0o555)
    call = into("new", before=as_anyone)
    os.chmod(text.folder, 0o755)
    cannot(call, "zumbeiry: new: not written: Permission denied\n")
    text.holds("nothing is overwritten", held, files)


def try_unwritten(folder, copy):
    unwritten("convert", "TEXT", Sheet(folder, "texts not converted", TEXT), copy, "TEXT [SHEET]")


def try_checked(folder, copy):
    """Check has each text converted, and no file that is bytes."""
    text, label = Sheet(folder, "texts checked", TEXT), StandIn(folder, copy, "label_main")
    program = StandIn(folder, copy, convert.PROGRAM)
    label.answers(b"10 27 1 0 0\n", "")
    call = Call("check", "sheet", folder=text.folder, root=copy)
    tells(call, "10 27 1 0 0", "  line 6: 2..3 skip\n  at byte 27: statement 0 of thread 0, skip ")
    program.was_given(TEXT)
    label.was_given(B)
    label.answers(b"4 0 0 0 0\n", "")
    lines = "  line 1: limit 10\n  line 2: budget 100\n  line 3: label 2..3\n  at byte 0: "
    tells(Call("check", "sheet", folder=text.folder, root=copy), "4 0 0 0 0", lines)
    label.answers(b"0 0 2 2 3\n", "")
    tells(Call("check", "--text", "-", given=TEXT, root=copy), "0 0 2 2 3", "accepted: ", status=0)
    program.answers(b"", "20 53\n")
    in_folder(text.folder, "wrong", WRONG)
    in_folder(text.folder, "bytes", B)
    stand_in(label.path, "exit 3\n")
    tells(Call("check", "wrong", folder=text.folder, root=copy), "20 53 0 0 0", "refused, 20 unreadable: ", AT)
    alone(Call("check", "--numbers", "wrong", folder=text.folder, root=copy), "20 53 0 0 0", 1)
    label.answers(b"0 0 2 2 3\n", "")
    call = Call("check", "bytes", "wrong", "absent", "bytes", folder=text.folder, root=copy)
    call.gives(2, "bytes:\n0 0 2 2 3\naccepted: ", "\n\nwrong:\n20 53 0 0 0\nrefused, 20 unreadable", err=["zumbeiry: absent: No such"])
    alone(Call("check", "--numbers", "bytes", "wrong", folder=text.folder, root=copy), "0 0 2 2 3\n20 53 0 0 0", 1)
    program.answers(b"", "hello\n")
    call = Call("check", "bytes", "wrong", "bytes", folder=text.folder, root=copy)
    call.gives(2, "\n\nbytes:\n0 0 2 2 3\n", err=["zumbeiry: wrong: target/bin/text_main gave no answer: hello\n"])
    program.answers(b"", "20 0\n")
    tells(Call("check", "--text", "bytes", folder=text.folder, root=copy), "20 0 0 0 0", "it may be a sheet already)\n")
    tells(Call("check", "--text", "/dev/null", root=copy), "20 0 0 0 0", "at the mark: the text ends\n  due there: limit\n")


def try_verbs(folder, copy):
    """A text that is refused gives its number and place in the form of each verb. One that is to be written is not converted."""
    text, program = Sheet(folder, "texts refused", WRONG), StandIn(folder, copy, convert.PROGRAM)
    in_folder(text.folder, "record", RECORD)
    program.answers(b"", "20 53\n")
    twice = "20 53 0 0 0\n20 53 0 0 0"
    no_times = "no statement of a text that is not converted is given new times\n"
    for verb, behind, numbers, *said in (
        ("follow", ["record"], "20 0 53 0 0", "  in sheet, the sheet\n" + AT),
        ("preview", ["0", "0", "2..5"], twice, AT, no_times),
        ("mend", [], "20 53 0 0", AT, "a sheet is mended, a text is not: ", "nothing is written\n"),
    ):
        tells(Call(verb, "sheet", *behind, folder=text.folder, root=copy), numbers, "refused, 20 unreadable: ", *said)
        alone(Call(verb, "--numbers", "sheet", *behind, folder=text.folder, root=copy), numbers, 1)
    stand_in(program.path, "exit 3\n")
    for verb, *behind in (("take-back", "0", "0", "2..3", "2..5"), ("preview", "--write", "0", "0", "2..5")):
        call = Call(verb, "sheet", *behind, folder=text.folder, root=copy)
        cannot(call, "zumbeiry: sheet: a sheet that is text is not written; change its lines\n")
    cannot(Call("follow", "sheet", "absent", folder=text.folder, root=copy), "zumbeiry: absent: No such file")
    text.holds("refused", WRONG, ("sheet", "record"))


def try_usage(folder):
    asked, options = "convert which TEXT, into which new file? TEXT [SHEET]", ("--check", "--text", "--bytes", "-n")
    tells_words("convert", "TEXT [SHEET]", "the text is converted", asked, ([], ["a", "b", "c"]), options)
    cannot(Call("convert", "absent"), "zumbeiry: absent: No such file")
    cannot(Call("convert", folder), "Is a directory")


def try_all(folder, copy):
    program = StandIn(folder, copy, convert.PROGRAM)
    for tried in (try_new_files, try_output, try_unwritten, try_checked, try_verbs):
        program.answers(B, "")
        tried(folder, copy)
    try_usage(folder)
