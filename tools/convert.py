"""A sheet typed as text, converted: what the program answers, the same in words with the line at fault, and the file with the sheet.

As in words.py, a text is looked at only so far as to show a line of it and tell which is due, and to see that an answer is one to this
text: whether it can be read, and where it cannot, is for the proved program to say.
"""

import re

import mark
import output
import words
from fields import heads
from programs import CannotRun, program

PROGRAM = "text_main"
LONGEST = 16_384  # bytes of a sheet

# in the order in which they are tried, 4 to 8 in that of the lines; the number: its trade word, when it is given, what to do
REFUSALS = {
    20: (
        "unreadable",
        "no readable text goes on with the byte at the mark, or ends there",
        "correct the text there, or put the line in its turn; ./zumbeiry convert --help tells what a text says",
    ),
    9: ("too long", "the sheet of the text would have more than 16,384 bytes", "shorten the text"),
    4: (
        "off range",
        "a number of the line is outside its range or too big for its field, or low is above high (thread: nine reg or more)",
        "correct the line",
    ),
    5: (
        "no such name",
        "the line names a register, variable, lock or target that is absent",
        "name one that the text has; each counts from 0",
    ),
    6: (
        "bad expression",
        "the line's expression is nested above twelve: each operator is one deeper than what it joins, so a sum without parentheses has "
        "at most twelve terms",
        "put a part of it into a register first",
    ),
    7: ("no halt", "the line is the last of its thread, and not halt", "add halt behind it"),
    8: ("too many", "the line is a ninth var, a fifth thread, or its thread's 65th statement", "split the routine"),
    19: (
        "output full",
        "the sheet of the text does not fit its buffer (the program's is large enough)",
        "call the library with 16,384 bytes for the sheet",
    ),
}
OF_LINE = (4, 5, 6, 7, 8)
WITH_LINE = (20, *OF_LINE)

VALUES = "-2,147,483,648..2,147,483,647"

# what may stand on a line, by its first word; statements begin with their times
FITS = {
    b"limit": "limit 1..1,000,000",
    b"budget": "budget 1..10,000,000",
    b"label": "low at most high, high at most the limit",
    b"locks": "0..8 locks",
    b"var": f"low at most high, both in {VALUES}",
    b"reg": f"low at most high, both in {VALUES}",
    b"thread": "at most eight reg lines behind it",
    b"": f"times 1..65,535, least at most greatest; values in {VALUES}; names and targets at most 255",
}
TAGS = {b"limit": 1, b"locks": 3, b"var": 2, b"thread": 4, b"reg": 5}  # of a line's field; any other is a statement's, 6
SHARED = (b"budget", b"label")  # they stand in the field of limit

# what is due behind the lines before: for the first four lines by their number, then by the first word of the last one
HEADERS = (b"limit", b"budget", b"label", b"locks")
STATEMENT = "a statement (its times first, or halt)"
DUE = dict.fromkeys((b"locks", b"var"), "var or thread") | dict.fromkeys((b"thread", b"reg"), f"reg, or {STATEMENT}")
LINE_WORDS = (*HEADERS, b"var", b"thread", b"reg", b"halt")


# ---- what the program answers


def lines_of(text):
    """The lines of a text; the last newline may be missing."""
    return (text[:-1] if text.endswith(b"\n") else text).split(b"\n")


def first_word(line):
    return re.match(rb" *([a-z]*)", line)[1]


def places_of(text, sheet):
    """Offset and line of each field of the sheet that a text gives, or None if it is not one of this text: its fields have the tags
    of the lines. Limit, budget and label are one field, told by three lines."""
    there, places, at, tag, end = iter(heads(sheet)), [], 0, 0, 0
    for number, word in enumerate(map(first_word, lines_of(text)), 1):
        if word not in SHARED:
            at, tag, length = next(there, (0, None, 0))
            end = at + 3 + length
        if tag != (1 if word in SHARED else TAGS.get(word, 6)):
            return None
        places.append((at, number))
    return places if end == len(sheet) else None


def fits(answer, text):
    """Whether an answer can be one to this text."""
    if answer.refusal == 0:
        return len(answer.output) <= LONGEST and places_of(text, answer.output) is not None
    if answer.refusal in OF_LINE:
        return answer.place < len(text) and (answer.place == 0 or text[answer.place - 1] == 10)
    return answer.place <= len(text) if answer.refusal == 20 else answer.refusal in (9, 19) and answer.place == 0


def call(path, text):
    """What the program at the path answers."""
    return output.call(path, text, fits)


def take(given, path):
    """Gives a text that was given its sheet, with the lines of its fields, or what refuses it."""
    answer = call(path, given.typed)
    if answer.refusal != 0:
        given.refused = answer
    else:
        given.sheet, given.places = answer.output, places_of(given.typed, answer.output)
        given.text = given.typed.decode("ascii", "replace").split("\n")


def converted(given):
    """A sheet that was given; one that was typed goes through the proved converter, which may refuse it."""
    if given.typed is not None:
        take(given, program(PROGRAM))
    return given


def tried(given, path):
    """The same of one text among several files: the fault itself, where there is no answer."""
    try:
        take(given, path)
        return given
    except CannotRun as fault:
        return CannotRun(f"{given.name}: {fault}")


# ---- in words


def due(text, start):
    """What is due at the start of a line, by the lines before it, which are in turn where the program stops there or behind it."""
    before = text.count(b"\n", 0, start)
    if before < len(HEADERS):
        return HEADERS[before].decode()
    word = first_word(mark.line_at(text, start - 1))
    return DUE.get(word, f"{STATEMENT}, or thread" if not text[start:].strip(b" ") else f"{STATEMENT}, thread, or the text's end")


def due_lines(text, place):
    """The line that is due, where the mark is in the first word of a line, or where a line is missing at the text's end."""
    start = text.rfind(b"\n", 0, place) + 1
    begun, there = text[start:place].lstrip(b" "), text[place : place + 1]
    letters = re.fullmatch(rb"[a-z]*", begun) and (begun not in LINE_WORDS or there.isalpha())
    return [f"due there: {due(text, start)}"] if letters and (begun or there != b"\n") else []


def refused_lines(answer, text):
    """The place of a refusal in the text, and what stands or fits there."""
    if answer.refusal not in WITH_LINE:
        return []
    lines = mark.lines(text, answer.place)
    if answer.refusal == 20:
        lines += [mark.byte_line(text, answer.place), *due_lines(text, answer.place)]
    else:
        lines.append("the mark is at the start of the line at fault")
    if answer.refusal == 4:
        lines.append(f"what fits: {FITS.get(first_word(mark.line_at(text, answer.place)), FITS[b''])}")
    return lines


def explain(answer, text, *before):
    """The lines of words below the numbers, those given first among a refusal's."""
    if answer.refusal == 0:
        return [f"converted: {words.number(len(lines_of(text)), 'line')}, a sheet of {words.number(len(answer.output), 'byte')}"]
    lines = words.refused(answer.refusal, REFUSALS[answer.refusal], [*before, *refused_lines(answer, text)])
    if text[:1] == b"\x01":
        lines.append("  (it begins with byte 1, as the bytes of a sheet do: it may be a sheet already)")
    return lines


def unconverted(given, form, options, before=(), behind=()):
    """What another verb prints of a text that is refused: its numbers in the verb's form, and what convert says."""
    numbers = form.format(given.refused.refusal, given.refused.place).split("\n")
    return numbers if "--numbers" in options else [*numbers, *explain(given.refused, given.typed, *before), *behind]


# ---- the file


def write(answer, name):
    """Puts the sheet into a new file of that name, - being standard output, unless it is refused or none is named; says what was
    done."""
    if answer.refusal == 0 and name is None:
        return f"{output.NOTHING}: name a new file behind TEXT, and the sheet goes there"
    return output.write(answer, name, "the sheet")
