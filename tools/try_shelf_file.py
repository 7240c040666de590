"""Tries tools/shelf_file.py, as a part of try_command.py: the files that it makes, and what it says where it makes none."""

import os
import subprocess
import sys

from calls import B, ROOT, expect, in_folder
from convert_cases import TOO_LONG
from fields import field

TOOL = os.path.join(ROOT, "tools", "shelf_file.py")


def pair(name, body):
    """Not shelf_file.py's own, which is tried here."""
    return field(48, bytes([name])) + field(49, body)


def ended(*words, folder=ROOT, given=b"", out=subprocess.PIPE):
    return subprocess.run([sys.executable, TOOL, *words], cwd=folder, input=given, stdout=out, stderr=subprocess.PIPE)


def makes(made, *words, **others):
    """These bytes are made, and nothing is said."""
    call = ended(*words, **others)
    expect(f"shelf_file.py {words} makes its file", (call.returncode, call.stdout, call.stderr) == (0, made, b""), call)


def fails(said, *words, **others):
    """Nothing is made: 1, and one line that says why."""
    call = ended(*words, **others)
    whole = call.stderr.startswith(b"shelf_file.py: " + said) and call.stderr.count(b"\n") == 1
    expect(f"shelf_file.py {words} says {said}", call.returncode == 1 and not call.stdout and whole, call)


def try_all(folder):
    text = os.path.join(ROOT, "sheets", "B.txt")
    in_folder(folder, "longest", bytes(65_535))
    in_folder(folder, "longer", bytes(65_536))
    makes(pair(7, B), f"7={text}")
    makes(pair(0, B) + pair(255, b"") + pair(0, B), f"0={text}", "255=/dev/null", f"000={text}")
    makes(pair(7, B) + pair(8, bytes(65_535)), "7=-", "8=longest", given=B, folder=folder)
    fails(b"the sheet of name 7 has more than 65,535 bytes", "7=longer", folder=folder)
    fails(b"standard input, -, can be read once", "7=-", "8=-")
    fails(b"NAME=FILE is due, not '7'", "7")
    fails(b"a name is a number from 0 to 255, not '256'", f"256={text}")
    fails(b"absent: No such file", "7=absent")
    fails(b"-: refused, 20 unreadable: line 1, column 7; ./zumbeiry convert tells more\n", "7=-", given=b"limit ten\n")
    fails(b"-: refused, 9 too long; ./zumbeiry convert tells more\n", "7=-", given=TOO_LONG.encode())
    with open("/dev/full", "wb") as full:
        fails(b"standard output: No space left", f"7={text}", out=full)
    for words in (["--help"], [f"7={text}", "-h"]):
        call = ended(*words)
        helps = call.returncode == 0 and b"shelf_file.py NAME=FILE.. > out.bin" in call.stdout and call.stderr == b""
        expect(f"shelf_file.py {words} helps", helps, call)
    call = ended()
    expect("shelf_file.py alone", call.returncode == 1 and call.stderr.startswith(b"usage: ") and not call.stdout, call)
