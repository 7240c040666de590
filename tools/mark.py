"""A line of a text with a mark under one of its bytes, for texts of any bytes.

Each byte is shown as one character, so that the mark stands where the byte does: one that does not print as ?, and of a long line
only a part round the mark.
"""

import re

WIDTH = 100  # bytes that are shown of a line
CUT = "..."

DEEPEST = 32  # parentheses

NAMES = {9: "a tab", 13: "a carriage return", 32: "a space"}
NOTES = {
    9: "only spaces stand between words",
    13: "a line ends with a newline alone",
    35: "there are no comments",
    37: "+, -, * and / are the operators",
    59: "one statement stands on a line, with nothing behind it",
    62: "< and == compare, ! and && join",
    94: "+, -, * and / are the operators",
    124: "< and == compare, ! and && join",
}
PLAIN = "only plain letters, digits and signs are read (a pasted minus may be another sign)"
TIMES = re.compile(rb" *[0-9]+ *\.\. *[0-9]+ *")


def printable(part):
    """The bytes as characters of one column each."""
    return "".join(chr(byte) if 32 <= byte < 127 else "?" for byte in part)


def window(line, at):
    """What is shown of a line, and where in it the byte stands that has the mark; at may be the line's end."""
    first = max(0, min(at - WIDTH // 2, len(line) - WIDTH))
    left = CUT if first > 0 else ""
    right = CUT if first + WIDTH < len(line) else ""
    return left + printable(line[first : first + WIDTH]) + right, len(left) + at - first


def line_and_column(text, place):
    """Where a place stands in a text, both counted from 1, the column in bytes."""
    return text.count(b"\n", 0, place) + 1, place - text.rfind(b"\n", 0, place)


def line_at(text, place):
    """The line of a place, without its newline. That of a newline is the one that it ends."""
    end = text.find(b"\n", place)
    return text[text.rfind(b"\n", 0, place) + 1 : end if end >= 0 else len(text)]


def lines(text, place):
    """The line of a place with the mark, under its number and column. A blank line is shown behind the one before it."""
    number, column = line_and_column(text, place)
    shown, at = window(line_at(text, place), column - 1)
    rows, width = [f"line {number}, column {column} (byte {place} of the text):"], len(str(number))
    if not shown.strip() and number > 1:
        before, _ = window(line_at(text, place - column), 0)
        rows.append(f"  {number - 1:>{width}} | {before}".rstrip())
    return [*rows, f"  {number} | {shown}".rstrip(), f"  {'':{width}} | {'':{at}}^"]


def note_of(byte, before, word):
    """The rule of the notation that a byte breaks, for what habits and editors bring: before is its line up to it, word the four bytes
    from it on."""
    if byte >= 128:
        return PLAIN
    if word == b"halt" and TIMES.fullmatch(before):
        return "halt has no times"
    if byte == 40 and before.count(b"(") - before.count(b")") == DEEPEST:
        return f"parentheses nest at most {DEEPEST} deep"
    return NOTES.get(byte, "words are in lower case" if 65 <= byte <= 90 else "")


def byte_line(text, place):
    """What stands at the mark, and for some bytes a note on the notation."""
    line = line_at(text, place)
    blank = "; no line may be blank" if not line.strip(b" ") else ""
    if place == len(text):
        return "at the mark: the text ends" + (blank if line else "")
    byte = text[place]
    if byte == 10:
        return f"at the mark: the line ends{blank}"
    name = NAMES.get(byte) or (f"'{chr(byte)}'" if 32 < byte < 127 else f"a byte of value {byte}")
    note = note_of(byte, text[text.rfind(b"\n", 0, place) + 1 : place], text[place : place + 4])
    return f"at the mark: {name}" + (note and f"; {note}")
