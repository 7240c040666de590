"""A sheet looked for by its name in two files, the customer's and ours: what the program answers, and its refusals in words.

A file has pairs of fields, a name and then a sheet. As in words.py, its bytes are looked at only so far as to name a field:
which pair has the name, and what is wrong with a file, is for the proved program to say.
"""

import re
from typing import NamedTuple

import words
from fields import field, heads
from given import read, whole
from options import once
from programs import CannotRun, no_answer, run_on

NAME, SHEET = 48, 49  # the tags
LONGEST = 65_535  # bytes of a sheet, since its length has two
MOST_READ = 1_000_000  # bytes of a file: the program reads no longer one
SHOWN = 20  # of the names that a file has

NAME_DUE = f"a name (tag {NAME})"
OWNERS = ("the customer's file", "our file")

# the number: its trade word, when it is given, what to do
REFUSALS = {
    1: ("short", "the file ends inside a field, or where the sheet of a name is due", "complete the file"),
    2: ("out of turn", "a field's tag is not due there", "put the fields in pairs, each name before its sheet"),
    3: ("bad length", "a name is not 1 byte long", "correct the length"),
    5: ("no such name", "neither file has a pair with the name", "ask for a name that a file has, or add the pair"),
}

REFUSED = re.compile(rb"([123] [01] (0|[1-9]\d{0,6})|5 1 0)\n")


class Refused(NamedTuple):
    """What the program says where it finds no sheet."""

    refusal: int
    file: int  # 0 the customer's, 1 ours
    place: int


class Pairs:
    """Goes over names and sheets in turn, so as to name the next field."""

    whole = "file"

    def __init__(self):
        self.due, self.sheet = NAME_DUE, "a sheet"

    def name(self, tag, body):
        """The words for the next field, which is passed."""
        if tag == NAME:
            self.sheet = f"the sheet of name {body[0]}" if body else "a sheet"
            self.due = f"{self.sheet} (tag {SHEET})"
            return "a name"
        passed, self.sheet, self.due = self.sheet, "a sheet", NAME_DUE
        return passed if tag == SHEET else "a field of no known kind"


def name_of(word):
    """The name that a word gives in decimal, as the program reads it: leading zeros do not count."""
    found = re.fullmatch("0*([0-9]{1,3})", word)
    if not found or int(found[1]) > 255:
        raise CannotRun(f"a name is a number from 0 to 255, not {word!r}")
    return int(found[1])


def asked_of(options, given):
    """The name to look for, and the two files with their bytes."""
    if len(given) != 3:
        raise CannotRun("find which NAME in which files, HIS and OURS? (./zumbeiry find --help)")
    name, files = name_of(given[0]), given[1:]
    if "--numbers" in options and "--check" not in options:
        raise CannotRun("--numbers is for --check: a sheet is written as its bytes")
    once(files)
    return name, [(file, whole(file, read(file), "file", MOST_READ)) for file in files]


def look(path, name, files):
    """What the program at the path finds: the bytes of a sheet, or a refusal. Files are the bytes of the two."""
    out, err = run_on(path, str(name), *files)
    if not out and REFUSED.fullmatch(err):
        return Refused(*map(int, err.split()))
    if not err and len(out) <= LONGEST and any(field(SHEET, out) in given for given in files):
        return out
    raise no_answer("shelf_main", err, "gave neither a sheet of the files nor a refusal")


def names_line(shown, given):
    """The names that a file has, each once, in the order of the file."""
    bodies = (given[at + 3 : at + 3 + length] for at, tag, length in heads(given) if tag == NAME)
    names = list(dict.fromkeys(body[0] for body in bodies if body))
    more = f" and {len(names) - SHOWN} more" if len(names) > SHOWN else ""
    return f"names in {shown}: " + (", ".join(map(str, names[:SHOWN])) or "none") + more


def explain(refused, name, files):
    """The lines of words below the three numbers. Files are two, each with its name and its bytes."""
    if refused.refusal == 5:
        lines = [f"looked for: name {name}, in {files[0][0]} and then in {files[1][0]}"]
        lines += [names_line(*file) for file in files]
    else:
        shown, given = files[refused.file]
        lines = [f"in {shown}, {OWNERS[refused.file]}", *words.place_lines(refused, given, Pairs())]
    return words.refused(refused.refusal, REFUSALS[refused.refusal], lines)
