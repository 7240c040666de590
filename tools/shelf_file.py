#!/usr/bin/env python3
"""Makes a file of sheets with names, in which ./zumbeiry find looks for one.

    shelf_file.py NAME=FILE.. > out.bin

NAME is a number from 0 to 255, and FILE a sheet as text, which goes through the proved converter (./zumbeiry convert --help),
or as bytes, at most 65,535; FILE may be - for standard input. Each NAME=FILE becomes a pair of fields, in the order given: the name (tag 48, length 1), then
the bytes of the sheet (tag 49). A name may come again, and a sheet may be empty (7=/dev/null). The sheets are not
checked.
"""

import sys

sys.dont_write_bytecode = True

import convert
import lookup
from fields import field
from given import Given, read
from mark import line_and_column
from options import once
from programs import CannotRun, reason


def bytes_of(file):
    """The bytes of the sheet in a file."""
    given = convert.converted(Given(file, read(file), set()))
    if given.refused:
        refusal, place, _ = given.refused
        at = ": line {}, column {}".format(*line_and_column(given.typed, place)) if refusal in convert.WITH_LINE else ""
        raise CannotRun(f"{file}: refused, {refusal} {convert.REFUSALS[refusal][0]}{at}; ./zumbeiry convert tells more")
    return given.sheet


def pair(name, body):
    if len(body) > lookup.LONGEST:
        raise CannotRun(f"the sheet of name {name} has more than {lookup.LONGEST:,} bytes")
    return field(lookup.NAME, bytes([name])) + field(lookup.SHEET, body)


def name_and_file(word):
    """The name and the file that NAME=FILE tells."""
    name, equals, file = word.partition("=")
    if not equals:
        raise CannotRun(f"NAME=FILE is due, not {word!r}")
    return lookup.name_of(name), file


def write(made):
    try:
        with open(1, "wb", closefd=False) as out:
            out.write(made)
    except OSError as error:
        raise CannotRun(f"standard output: {reason(error)}") from None


def main(words):
    if not words:
        sys.exit("usage: shelf_file.py NAME=FILE.. > out.bin")
    try:
        if {"--help", "-h"} & set(words):
            write(__doc__.encode())
            return
        pairs = [name_and_file(word) for word in words]
        once([file for _, file in pairs])
        write(b"".join(pair(name, bytes_of(file)) for name, file in pairs))
    except CannotRun as fault:
        sys.exit(f"shelf_file.py: {fault}")


if __name__ == "__main__":
    main(sys.argv[1:])
