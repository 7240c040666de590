"""The times of one statement of a sheet, for the verbs that give it others: what the words behind SHEET ask for, where the
statement stands, and whether a program's sheet differs in its times alone.

As in words.py, a sheet's bytes are looked at only so far as to name a statement: whether it may have other times, and which bytes
the sheet then has, is for the proved program to say.
"""

import re
import struct
from typing import NamedTuple

import words
from fields import heads
from programs import CannotRun

PROGRAM = "retime_main"
OF_SHEET = range(1, 10)  # the refusals of a sheet that does not read
NUMBER = rb"(?:0|[1-9]\d{0,9})"

MOST_DIGITS = 100  # of a number that the program is given: a longer one is far outside every range, and so are these
SHOWN = 20  # of them in words


def shown(digits):
    return digits if len(digits) <= SHOWN else digits[:SHOWN] + "..."


def span(least, greatest):
    return f"{shown(least)}..{shown(greatest)}"


class Change(NamedTuple):
    """New times instead of old ones on a statement, as numbers in decimal."""

    thread: str
    statement: str
    old_least: str
    old_greatest: str
    new_least: str
    new_greatest: str

    @property
    def old(self):
        return span(self.old_least, self.old_greatest)

    @property
    def new(self):
        return span(self.new_least, self.new_greatest)


class Statement(NamedTuple):
    """A statement where it stands, with its times as numbers in decimal."""

    offset: int
    least: str
    greatest: str

    @property
    def times(self):
        return span(self.least, self.greatest)


# ---- the words behind SHEET


def plain(digits):
    return (digits.lstrip("0") or "0")[:MOST_DIGITS]


def name_of(thread, statement):
    """A statement's thread, and its number in the thread."""
    for name, word in (("THREAD", thread), ("STATEMENT", statement)):
        if not re.fullmatch("[0-9]+", word):
            raise CannotRun(f"{name} is a number, 0 or more, not {word[:60]!r}")
    return plain(thread), plain(statement)


def times_of(kind, word):
    """Least and greatest, of the kind of times that a word gives."""
    found = re.fullmatch(r"([0-9]+)\.\.([0-9]+)", word)
    if not found:
        raise CannotRun(f"{kind} are LEAST..GREATEST, two numbers as in 2..3, not {word[:60]!r}")
    return tuple(map(plain, found.groups()))


# ---- what the program answers


def times_at(sheet, at):
    return tuple(map(str, struct.unpack(">HH", sheet[at : at + 4])))


def found(sheet, asked):
    """The statement that is asked for by thread and number, in a sheet that reads and has it."""
    walk = words.Walk()
    for at, tag, length in heads(sheet):
        body = sheet[at + 3 : at + 3 + length]
        walk.name(tag, body)
        if tag == 6 and (str(walk.thread), str(walk.statements - 1)) == (asked.thread, asked.statement) and len(body) >= 4:
            return Statement(at, *times_at(body, 0))
    raise CannotRun(f"target/bin/{PROGRAM} answered for a statement that the sheet does not have")


def is_given(sheet, new, statement, times):
    """Whether new bytes are the sheet with these times on the statement, and no byte but their four is another."""
    at = statement.offset + 3
    if len(new) != len(sheet) or new[:at] + new[at + 4 :] != sheet[:at] + sheet[at + 4 :]:
        return False
    return times_at(new, at) == times


# ---- in words


def statement_lines(given, statement):
    """Where the statement stands, in the sheet's text and in its bytes."""
    at = words.Answer(0, statement.offset, 0, 0, 0)
    return words.text_lines(at, given.text, given.places) + words.place_lines(at, given.sheet, words.Walk())


def there_lines(sheet, asked):
    """What there is, where a statement is asked for that is not."""
    counts = []
    for _, tag, _ in heads(sheet):
        if tag == 4:
            counts.append(0)
        elif tag == 6 and counts:
            counts[-1] += 1
    thread = shown(asked.thread)
    lines = [f"asked for: statement {shown(asked.statement)} of thread {thread}"]
    if int(asked.thread) < len(counts):
        return lines + [f"thread {thread} has {words.number(counts[int(asked.thread)], 'statement')}, from 0 on"]
    return lines + [f"the sheet has {words.number(len(counts), 'thread')}, from 0 on"]
