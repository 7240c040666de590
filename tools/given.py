"""The files that a person names: their bytes, whether they are a text, other bytes for one, a new one, its name for a shell."""

import contextlib
import os
import re
import shlex
import stat
import sys
import tempfile

from options import FORMS, one_form, one_or_two
from programs import CannotRun, reason

# A file longer than this is not read to its end: the converter takes no longer text, and a sheet has at most 16,384 bytes.
MOST_READ = 1_048_576

CONTROL = re.compile(rb"[\x00-\x08\x0b\x0c\x0e-\x1f\x7f]")


def read(name):
    """The bytes of a file, or of standard input."""
    try:
        with open(0 if name == "-" else name, "rb", closefd=name != "-") as file:
            return file.read(MOST_READ + 1)
    except OSError as error:
        raise CannotRun(f"{name}: {reason(error)}") from None


def whole(name, given, kind, most=MOST_READ):
    """The bytes of a file, if they are no more than may be."""
    if len(given) > most:
        raise CannotRun(f"{name}: a {kind} of more than {most:,} bytes is not read")
    return given


def is_text(given):
    """Whether a file's bytes are taken for a text: it is not empty and holds no control characters but tabs and line
    ends. (The bytes of a sheet begin with a control character, byte 1.)"""
    return bool(given) and not CONTROL.search(given)


class Given:
    """A sheet that was given: its bytes or, if it was typed, the text. The proved converter makes the bytes of that one, or
    refuses it (convert.py)."""

    def __init__(self, name, given, options):
        self.name, self.sheet, self.typed = name, given, None
        self.text, self.places = [], []  # the lines of a text that is converted, and where the fields stand in them
        self.refused = None  # what the converter answers to a text that it refuses
        self.forced = bool(options & FORMS)
        if "--text" in options or (not self.forced and is_text(given)):
            self.sheet, self.typed = b"", whole(name, given, "text")

    def hint(self, answer):
        """A line of advice, where a text may have been taken for bytes."""
        if answer.refusal in (1, 2) and answer.place == 0 and self.sheet and not self.forced:
            return ["  (it was taken as bytes, since it holds control characters; --text takes it as text)"]
        return []


def writable(given):
    """Tells it if the sheet that was given cannot get other bytes."""
    if given.name == "-":
        raise CannotRun("standard input, -, cannot be written: name a file")
    if given.typed is not None:
        raise CannotRun(f"{given.name}: a sheet that is text is not written; change its lines")
    if not os.path.isfile(given.name):
        raise CannotRun(f"{given.name}: not a file that can be written")
    try:
        with open(given.name, "r+b"):
            pass
    except OSError as error:
        raise CannotRun(f"{given.name}: {reason(error)}") from None


def put(name, new):
    """Other bytes for a file. They go to a file beside it that then takes its name, so that a failure leaves it as it was. A
    link stays one; mode and owner are kept, the owner as far as the system allows."""
    path = os.path.realpath(name)
    handle, beside = tempfile.mkstemp(dir=os.path.dirname(path))
    try:
        with os.fdopen(handle, "wb") as file:
            file.write(new)
            file.flush()
            os.fsync(handle)
        before = os.stat(path)
        with contextlib.suppress(PermissionError):
            os.chown(beside, before.st_uid, before.st_gid)
        os.chmod(beside, stat.S_IMODE(before.st_mode))
        os.replace(beside, path)
    except BaseException:
        os.unlink(beside)
        raise


def rewrite(given, new):
    """Other bytes for the file of the sheet that was given, unless it no longer has those that were read."""
    if read(given.name) != given.sheet:
        raise CannotRun(f"{given.name}: the file has changed meanwhile, and is not written")
    try:
        put(given.name, new)
    except OSError as error:
        raise CannotRun(f"{given.name}: not written: {reason(error)}") from None


def creatable(given, name, kind):
    """Tells it if a file of that name is there already: the one that was given, of this kind, or another."""
    if given.name != "-" and os.path.exists(name) and os.path.samefile(given.name, name):
        raise CannotRun(f"{name}: this is {kind} itself, which is left as it is; name a new file")
    if os.path.lexists(name):
        raise CannotRun(f"{name}: there is such a file already; name a new one")


def given_and_new(names, options, asked, kind="SHEET"):
    """What is given in the first file named, and the name of a second one, which is not there yet, - or None; what is asked is told
    where the words are others."""
    name, new = one_or_two(names, asked)
    one_form(options)
    given = Given(name, read(name), options)
    if new not in (None, "-"):
        creatable(given, new, kind)
    return given, new


def create(name, new):
    """A new file with these bytes. None that is there is overwritten, and a failure leaves none."""
    try:
        with open(name, "xb") as file:
            try:
                file.write(new)
                file.flush()
                os.fsync(file.fileno())
            except BaseException:
                os.unlink(name)
                raise
    except OSError as error:
        raise CannotRun(f"{name}: not written: {reason(error)}") from None


def hand_over(name, new):
    """These bytes for a new file of that name, or for standard output if it is -; what has them now."""
    if name != "-":
        create(name, new)
        return name
    sys.stdout.buffer.write(new)
    sys.stdout.flush()
    return "standard output"


def quoted(name):
    """A file's name as a shell takes it, on one line whatever its bytes are."""
    if name.isprintable():
        return shlex.quote(name)
    octal = re.sub(rb"[^\w./-]", lambda found: b"\\%03o" % found[0][0], os.fsencode(name))
    return f"$'{octal.decode()}'"
