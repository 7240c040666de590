"""Calls of ./zumbeiry in its tests, and what is expected of them."""

import os
import re
import shutil
import subprocess
import sys

ROOT = os.path.dirname(os.path.dirname(os.path.realpath(__file__)))

# the sheet B of document 01
B = bytes.fromhex("010010 0000000A 00000064 00000002 00000003 030001 00 040001 00 060005 0002 0003 01 060005 0000 0000 00")

# the modules of the command
PARTS = ("fields", "given", "mark", "options", "output", "programs", "usages", "words")
PARTS += ("checker", "lookup", "follower", "times", "preview", "take_back", "mend", "convert", "printer", "compare")

counts = {True: 0, False: 0}  # what held, and what did not


def expect(what, holds, seen=""):
    counts[bool(holds)] += 1
    if not holds:
        print(f"FAILED: {what}\n{seen}")


class Call:
    """One call of the command, with what it wrote and how it ended. Root is where the command stands; before is called in its
    process before it starts; the environment may have other values (PATH=..)."""

    def __init__(self, *arguments, given=b"", root=ROOT, folder=ROOT, before=None, **environment):
        command = [sys.executable, os.path.join(root, "zumbeiry"), *arguments]
        environment = {**os.environ, **environment}
        ended = subprocess.run(command, input=given, cwd=folder, env=environment, preexec_fn=before, capture_output=True)
        self.what = " ".join(arguments)
        self.status, self.bytes, self.err = ended.returncode, ended.stdout, ended.stderr.decode()
        self.out = self.bytes.decode(errors="backslashreplace")

    def gives(self, status, *out, err=()):
        """The exit status is the one given, each of the words is written, and nothing went wrong inside."""
        seen = f"status {self.status}\n{self.out}{self.err}"
        expect(f"{self.what}: status {status}", self.status == status and "Traceback" not in self.err, seen)
        for text in out:
            expect(f"{self.what}: writes {text!r}", text in self.out, seen)
        for text in err:
            expect(f"{self.what}: says {text!r}", text in self.err, seen)
        return self


def cannot(call, *err):
    """The command could not run: 2, nothing answered, one line that says why."""
    call.gives(2, err=err)
    expect(f"{call.what}: one line and no answer", call.out == "" and call.err.count("\n") == 1, call.out + call.err)


def text_of(*parts):
    with open(os.path.join(ROOT, *parts), encoding="utf-8") as file:
        return file.read()


def texts_that_read():
    """The names of the texts of sheets/ but the mistyped ones."""
    names = sorted(os.listdir(os.path.join(ROOT, "sheets"))) + ["forms/loose.txt"]
    return [name for name in names if name.endswith(".txt") and not name.startswith("mistyped")]


def tells_words(verb, listed, ends, asked, others, options):
    """What a verb says of the words behind it: its help, its line in the list of verbs, what it asks where there are others, and options
    that it does not have."""
    for arguments in (["--help"], ["x", "-h"]):
        Call(verb, *arguments).gives(0, f"usage: ./zumbeiry {verb} ", f"Ends with 0 if {ends}")
    Call("--help").gives(0, f"\n  {verb} {listed} ")
    for arguments in others:
        cannot(Call(verb, *arguments), asked)
    for option in options:
        cannot(Call(verb, option, "sheet"), f"there is no option {option}")


def as_in_readme(verb, many, made=None):
    """README's examples of a verb, or of what begins like this pattern, so many, are followed by what they write. The file of target/
    that they make, if any, is not there before."""
    path = os.path.join(ROOT, "target", made) if made else ""
    if os.path.exists(path):
        os.unlink(path)
    examples = re.findall(rf"^    \./zumbeiry ((?:{verb}) .*)\n\n((?:    .*\n)+)", text_of("README.md"), re.MULTILINE)
    expect(f"README.md has {many} examples of {verb}", len(examples) == many, examples)
    for command, shown in examples:
        call = Call(*command.split())
        expect(f"{call.what}: as in README.md", call.out + call.err == re.sub("(?m)^    ", "", shown), call.out + call.err)


def in_folder(folder, name, given):
    """The path of a file in the folder, with the bytes given."""
    path = os.path.join(folder, name)
    with open(path, "wb") as file:
        file.write(given)
    return path


def stand_in(path, script):
    with open(path, "w", encoding="utf-8") as file:
        file.write("#!/bin/sh\n" + script)
    os.chmod(path, 0o755)


def copied(folder):
    """A copy of the command with one small crate and no programs."""
    copy = os.path.join(folder, "copy")
    for made in (("crates", "label", "src"), ("target", "bin"), ("tools",)):
        os.makedirs(os.path.join(copy, *made))
    shutil.copy(os.path.join(ROOT, "zumbeiry"), copy)
    for name in PARTS:
        shutil.copy(os.path.join(ROOT, "tools", f"{name}.py"), os.path.join(copy, "tools"))
    crates = "label:\nlabel_c staticlib: label\nlabel_main: label # a comment\nshelf_main:\nrecord_main:\nretime_main:\nmend_main:\n"
    crates += "text_main:\nprint_main:\n"
    in_folder(copy, "crates.txt", crates.encode())
    in_folder(copy, os.path.join("crates", "label", "src", "lib.rt"), b"")
    return copy


class StandIn:
    """A program of a copy of the command. It keeps what it is given, and answers what it is told to."""

    def __init__(self, folder, copy, name):
        self.folder = os.path.join(folder, f"stand-in for {name}")
        os.makedirs(self.folder, exist_ok=True)
        self.copy, self.path = copy, os.path.join(copy, "target", "bin", name)

    def answers(self, out, err):
        in_folder(self.folder, "out", out)
        in_folder(self.folder, "err", err.encode())
        stand_in(self.path, f"cd '{self.folder}'\ncat > seen\ncat out\ncat err >&2\n")

    def was_given(self, given):
        with open(os.path.join(self.folder, "seen"), "rb") as file:
            expect("the program is given the bytes", file.read() == given)
