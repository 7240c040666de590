"""Tries ./zumbeiry find, as a part of try_command.py: on files that are made here, on those of sheets/, and on a copy of
the command whose programs are stand-ins, so that an answer which the files do not give is told all the same."""

import os
import re
import subprocess
import sys

from calls import B, Call, ROOT, as_in_readme, cannot, expect, in_folder, stand_in, text_of
from fields import field
from shelf_file import pair

EXAMPLES = ("sheets/shelf-his.bin", "sheets/shelf-ours.bin")
ANY = b"any bytes, \x00 and \xff too"

# name, the customer's file, ours, the sheet
FOUND = (
    (7, pair(7, B), b"", B),
    (7, b"", pair(7, B), B),
    (7, pair(7, ANY), pair(7, B), ANY),
    (7, pair(8, B) + pair(7, ANY) + pair(7, B), b"", ANY),
    (7, pair(8, B), pair(9, B) + pair(7, ANY) + pair(7, B), ANY),
    (7, pair(7, b""), pair(7, B), b""),
    (7, pair(8, b"") + pair(7, ANY), b"", ANY),
    (7, pair(8, pair(7, B)) + pair(7, ANY), b"", ANY),
    (0, pair(255, B) + pair(0, ANY), b"", ANY),
    (255, pair(0, B), pair(255, ANY), ANY),
    (48, pair(49, B), pair(48, ANY), ANY),
    (7, pair(8, B) + pair(7, b"\xfe" * 65_535), b"", b"\xfe" * 65_535),
    (7, pair(7, ANY) + b"0", b"\x01", ANY),  # what stands behind it is not looked at
    (7, pair(8, B), pair(7, ANY) + field(49, B), ANY),
)

SEVEN = field(48, b"\x07")
MANY = b"".join(pair(name, b"") for name in range(40, 15, -1))  # 7 bytes each
TWENTY = ", ".join(map(str, range(40, 20, -1)))
NAME_DUE, SHEET_DUE = "due there: a name (tag 48)\n", "due there: the sheet of name 7 (tag 49)\n"
HIS, OURS = "in his, the customer's file\n", "in ours, our file\n"

# name, the customer's file, ours, the three numbers, what is said
REFUSED = (
    (7, b"", b"", "5 1 0", "refused, 5 no such name", "name 7, in his and then in ours\n", "names in his: none\n"),
    (7, pair(8, B), pair(9, pair(7, B)), "5 1 0", "refused, 5 no such name", "names in his: 8\n  names in ours: 9\n"),
    (7, pair(9, B) + pair(8, b"") + pair(9, B), MANY[:140], "5 1 0", f"his: 9, 8\n  names in ours: {TWENTY}\n"),
    (7, MANY, MANY + MANY[:147], "5 1 0", f"his: {TWENTY} and 5 more\n  names in ours: {TWENTY} and 5 more\n"),
    (7, b"0", pair(7, B), "1 0 0", "refused, 1 short", HIS, "a header of which 1 of 3 bytes", NAME_DUE),
    (7, b"", b"0\x00", "1 1 0", OURS, "a header of which 2 of 3 bytes", NAME_DUE),
    (7, SEVEN[:3], b"", "1 0 0", "at byte 0: a name (tag 48, length 1), of which 3 of 4 bytes are there"),
    (7, SEVEN, pair(7, B), "1 0 4", "at byte 4: here the file ends", SHEET_DUE),
    (8, SEVEN, pair(8, B), "1 0 4", "at byte 4: here the file ends", SHEET_DUE),
    (7, b"", pair(8, B) + SEVEN, "1 1 54", OURS, "at byte 54: here the file ends", SHEET_DUE),
    (7, SEVEN + b"1\x00", b"", "1 0 4", "a header of which 2 of 3 bytes", SHEET_DUE),
    (7, pair(7, B)[:-1], pair(7, B), "1 0 4", HIS, "the sheet of name 7 (tag 49, length 43), of which 45 of 46 bytes"),
    (7, pair(8, B), pair(8, B) + pair(9, B)[:-1], "1 1 54", "the sheet of name 9 (tag 49, length 43), of which 45"),
    (7, b"0\xff\xff\x07", b"", "1 0 0", "at byte 0: a name (tag 48, length 65535)"),  # the body before its length
    (7, B, b"", "2 0 0", "refused, 2 out of turn", "a field of no known kind (tag 1, length 16)\n", NAME_DUE),
    (7, b"\x02\xff\xff", b"", "2 0 0", "a field of no known kind (tag 2, length 65535)"),  # the tag before the body
    (7, field(49, B), pair(7, B), "2 0 0", HIS, "at byte 0: a sheet (tag 49, length 43)\n", NAME_DUE),
    (7, SEVEN + pair(7, B), b"", "2 0 4", "at byte 4: a name (tag 48, length 1)\n", SHEET_DUE),
    (9, SEVEN + b"\x06\x00\x00" + pair(9, B), b"", "2 0 4", "(tag 6, length 0)\n", SHEET_DUE),
    (7, pair(8, B), pair(9, b"") + field(49, B) + pair(7, B), "2 1 7", OURS, NAME_DUE),
    (7, field(48, b"") + field(49, B), b"", "3 0 0", "refused, 3 bad length", HIS, "a name (tag 48, length 0)\n"),
    (7, b"", pair(8, B) + field(48, b"\x07\x07"), "3 1 50", OURS, "a name (tag 48, length 2)\n"),
)


def refused(call, numbers, *said):
    """The lookup was refused: 1, no sheet, and on standard error the three numbers and what they say."""
    call.gives(1, err=said)
    expect(f"{call.what}: {numbers}", call.out == "" and call.err.startswith(numbers + "\nrefused, "), call.err)


def found(call, sheet):
    """The bytes of the sheet were written, and nothing else."""
    call.gives(0)
    expect(f"{call.what}: the sheet", call.bytes == sheet and call.err == "", call.out + call.err)


def put(folder, his, ours):
    in_folder(folder, "his", his)
    in_folder(folder, "ours", ours)


def try_files(folder):
    for name, his, ours, sheet in FOUND:
        put(folder, his, ours)
        found(Call("find", str(name), "his", "ours", folder=folder), sheet)
    for name, his, ours, numbers, *said in REFUSED:
        put(folder, his, ours)
        refused(Call("find", str(name), "his", "ours", folder=folder), numbers, *said)
    put(folder, pair(7, B), pair(8, ANY))
    for name in ("007", "0007", "0" * 5000 + "7"):
        found(Call("find", name, "his", "ours", folder=folder), B)
    found(Call("find", "--", "8", "ours", "ours", folder=folder), ANY)
    found(Call("find", "7", "-", "ours", given=pair(7, ANY), folder=folder), ANY)
    found(Call("find", "9", "his", "-", given=pair(9, ANY), folder=folder), ANY)
    refused(Call("find", "9", "his", "-", given=b"1", folder=folder), "1 1 0", "in -, our file\n")


def try_longest(folder):
    put(folder, pair(8, B), pair(8, ANY))
    front = pair(1, bytes(65_535)) * 15
    last = bytes(1_000_000 - len(front) - 7)
    longest = front + pair(7, last)
    found(Call("find", "7", "-", "ours", given=longest, folder=folder), last)
    found(Call("find", "7", "his", "-", given=longest, folder=folder), last)
    refused(Call("find", "7", "his", "-", given=longest[:-1], folder=folder), f"1 1 {len(front) + 4}", "the sheet of name 7")
    for files in (("-", "ours"), ("his", "-")):
        call = Call("find", "8", *files, given=longest + b"0", folder=folder)
        cannot(call, "zumbeiry: -: a file of more than 1,000,000 bytes is not read")


def try_usage(folder):
    for arguments in (["--help"], ["7", "-h"]):
        Call("find", *arguments).gives(0, "usage: ./zumbeiry find ", "Both files are read before the look")
    for arguments in ([], ["7"], ["7", "x"], ["7", "x", "y", "z"], ["--check"]):
        cannot(Call("find", *arguments), "find which NAME in which files, HIS and OURS?")
    for name in ("256", "0256", "1000", "9" * 5000, "", "x", "7.", " 7", "7\n", "+7", "0x7", "\u0667", "-"):
        cannot(Call("find", name, *EXAMPLES), "a name is a number from 0 to 255, not ")
    cannot(Call("find", "-7", *EXAMPLES), "there is no option -7")
    cannot(Call("find", "--bytes", "7", *EXAMPLES), "there is no option --bytes")
    cannot(Call("find", "--numbers", "7", *EXAMPLES), "--numbers is for --check")
    cannot(Call("find", "7", "-", "-"), "can be read once")
    cannot(Call("find", "7", "absent", EXAMPLES[1]), "zumbeiry: absent: No such file")
    cannot(Call("find", "7", EXAMPLES[0], "absent"), "zumbeiry: absent: No such file")
    cannot(Call("find", "7", EXAMPLES[0], folder), "Is a directory")


def try_checks(folder, name, numbers):
    """With --check a name of the examples gives five numbers, of its sheet, or the three of a refused lookup."""
    alone = Call("find", "--check", "--numbers", name, *EXAMPLES)
    if numbers.count(" ") == 2:
        refused(Call("find", "--check", name, *EXAMPLES), numbers)
        alone.gives(1)
        expect(f"{alone.what}: the numbers alone", alone.out == "" and alone.err == numbers + "\n", alone.err)
        return
    sheet = in_folder(folder, "sheet", Call("find", name, *EXAMPLES).gives(0).bytes)
    check = Call("check", "--bytes", sheet)
    call = Call("find", "--check", name, *EXAMPLES).gives(check.status, numbers + "\n")
    expect(f"{call.what}: what check gives", call.out == check.out and call.err == "", call.out + call.err)
    alone.gives(check.status)
    expect(f"{alone.what}: the numbers alone", alone.out == numbers + "\n" and alone.err == "", alone.out)


def try_examples(folder):
    """The two files are made by the commands of sheets/README.md, and each name gives what stands there."""
    text = text_of("sheets", "README.md")
    made = re.findall(r"^    python3 (tools/shelf_file.py .*) > (.*)$", text, re.MULTILINE)
    expect("sheets/README.md makes both files", [file for _, file in made] == list(EXAMPLES), made)
    for command, file in made:
        ended = subprocess.run([sys.executable, *command.split()], cwd=ROOT, capture_output=True)
        with open(os.path.join(ROOT, file), "rb") as kept:
            expect(f"{command} makes {file}", ended.stdout == kept.read(), ended.stderr)
    rows = re.findall(r"^\| (\d+) \| .* \| ([\d ]+) \|$", text, re.MULTILINE)
    expect("sheets/README.md has five names", len(rows) == 5, rows)
    for name, numbers in rows:
        try_checks(folder, name, numbers)


# what a program writes that is no answer
NO_ANSWERS = (
    "echo hello\n",
    "exit 0\n",  # as for an empty sheet, which neither file has
    "head -c 70000 /dev/zero\n",
    "printf sheet; echo 5 1 0 >&2\n",
    "echo 0 0 7 >&2\n",
    "echo 4 0 0 >&2\n",
    "echo 5 0 0 >&2\n",
    "echo 5 1 1 >&2\n",
    "echo 1 2 0 >&2\n",
    "echo 1 0 >&2\n",
    "echo 1 0 00 >&2\n",
    "echo 1 0 0 0 >&2\n",
    "echo 1 0 0 >&2; echo 1 0 0 >&2\n",
    "printf '1 0 0' >&2\n",
)


def try_answers(folder, copy):
    """In the copy: whatever the program answers is told, and what is no answer is told as a fault."""
    programs, temporary = os.path.join(copy, "target", "bin"), os.path.join(folder, "temporary")
    os.makedirs(temporary)
    put(folder, pair(7, B) + pair(8, b"sheet"), pair(7, b"1 0 0\n"))

    def call(script, *arguments):
        stand_in(os.path.join(programs, "shelf_main"), script)
        return Call("find", *(arguments or ["7"]), "his", "ours", root=copy, folder=folder, TMPDIR=temporary)

    cannot(Call("find", "7", *EXAMPLES, root=copy, PATH=folder), "shelf_main has to be built, and there is no rt")
    found(call("printf sheet\n"), b"sheet")
    found(call("echo 1 0 0\n"), b"1 0 0\n")
    found(call('[ "$1 $#" = "7 3" ] && cmp "$2" his && cmp "$3" ours && printf sheet\n', "007"), b"sheet")
    refused(call("echo 5 1 0 >&2\n"), "5 1 0", "refused, 5 no such name", "names in his: 7, 8\n  names in ours: 7\n")
    refused(call("echo 1 0 4 >&2\n"), "1 0 4", HIS, "at byte 4: the sheet of name 7 (tag 49, length 43)\n")
    refused(call("echo 2 1 4 >&2\n"), "2 1 4", OURS, "at byte 4: the sheet of name 7 (tag 49, length 6)\n", SHEET_DUE)
    refused(call("echo 3 0 99 >&2\n"), "3 0 99", "refused, 3 bad length", HIS, "at byte 99\n")
    for script in NO_ANSWERS:
        cannot(call(script), "target/bin/shelf_main gave neither a sheet of the files nor a refusal")
    cannot(call("echo his: not there >&2\n"), "nor a refusal: his: not there\n")
    cannot(call("printf sheet; exit 3\n"), "target/bin/shelf_main ended with status 3")
    cannot(call("echo 5 1 0 >&2; kill -9 $$\n"), "target/bin/shelf_main was ended by signal 9")
    stand_in(os.path.join(programs, "label_main"), '[ "$(cat)" = sheet ] && echo 11 0 3 0 0\n')
    expect("the sheet is checked", call("printf sheet\n", "--check", "--numbers", "7").gives(1).out == "11 0 3 0 0\n")
    refused(call("echo 5 1 0 >&2\n", "--check", "7"), "5 1 0")
    stand_in(os.path.join(programs, "label_main"), "echo hello\n")
    cannot(call("printf sheet\n", "--check", "7"), "the sheet of name 7: target/bin/label_main did not print five numbers")
    expect("no temporary file is left over", os.listdir(temporary) == [], os.listdir(temporary))


def try_all(folder, copy):
    try_files(folder)
    try_longest(folder)
    try_usage(folder)
    as_in_readme("find", 2)
    try_examples(folder)
    try_answers(folder, copy)
