"""A sheet that the card writer garbled, mended: what the program answers, the same in words, and the file with the mended sheet.

As in words.py, a sheet's bytes are looked at only so far as to name its fields, and to see that an answer is one to this sheet:
whether the mended sheet reads, and where it does not, is for the proved program to say.
"""

import re
import struct
from typing import NamedTuple, Optional

import output
import words
from fields import heads
from given import hand_over
from programs import no_answer, run
from times import NUMBER

PROGRAM = "mend_main"
EXCHANGED, HALT_ADDED = 1, 2  # the kinds of a change
LONGEST = 16_384  # bytes of a sheet
MOST_STATEMENTS = 64  # of a thread

HALT = b"\x06\x00\x05" + bytes(5)  # tag, length, times 0 and 0, code 0

# by a field's tag, what its two ends are of, where they stand in its body and how they are packed
ENDS = {1: ("ends", 8, ">II"), 2: ("ends", 0, ">ii"), 5: ("ends", 0, ">ii"), 6: ("times", 0, ">HH")}

# where it differs from the check's, the number: its trade word, when it is given, what to do
REFUSALS = {
    4: (
        "off range",
        "a number or code outside its range, also with the ends exchanged where low is above high",
        "correct the number",
    ),
    8: (
        "too many",
        "a ninth variable, fifth thread or 65th statement; the halt that a thread lacks counts as a statement",
        "split the routine",
    ),
    9: ("too long", "more than 16,384 bytes, as it is or with the halts that are added", "shorten the sheet"),
    19: (
        "output full",
        "the mended sheet, or the list of changes, does not fit its buffer (the program's are large enough)",
        "call the library with 16,384 bytes for the sheet and with two numbers for each change",
    ),
}
WITH_PLACE = (1, 2, 3, 4, 5, 6, 8)  # no thread of a mended sheet lacks its halt (7)

# what is said of a text that is not converted
NO_SHEET = ["a sheet is mended, a text is not: correct its line, or mend the sheet's bytes", "nothing is written"]

ANSWER = re.compile(rb"(%s) (%s) (%s) (%s)\n((?:[12] %s\n)*)" % ((NUMBER,) * 5))


class Part(NamedTuple):
    """A field of a sheet, and what there is to mend about it."""

    offset: int
    tag: int
    field: bytes
    name: str  # in words
    statements: int  # of its thread, as far as this field
    ends: Optional[tuple]  # low and high, where low is above high
    unclosed: bool  # its thread ends with it, and it is not halt


class Answer(NamedTuple):
    """What the program gives."""

    refusal: int
    place: int
    written: int
    listed: int
    changes: list  # kind and offset of each
    sheet: bytes  # mended; empty where it is refused


# ---- what there is to mend


def crossed(tag, field):
    """The two ends of a field, if low is above high."""
    _, at, layout = ENDS.get(tag, ("", 0, ""))
    if not layout or len(field) < 3 + at + struct.calcsize(layout):
        return None
    low, high = struct.unpack_from(layout, field, 3 + at)
    return (low, high) if low > high else None


def parts(sheet):
    """The fields of a sheet, as far as their headers are there. What is said of their changes holds of a sheet that reads with these
    made: of others, a field of another length and a piece of a header are not told apart from what they would be."""
    walk, found, there = words.Walk(), [], list(heads(sheet))
    # a thread closes where another one opens, or where no field is left
    behind = [tag for _, tag, _ in there[1:]] + [None]
    for (at, tag, length), next_tag in zip(there, behind):
        field = sheet[at : at + 3 + length]
        name = walk.name(tag, field[3:]) if tag != 1 else "the label"
        unclosed = tag == 6 and next_tag in (4, None) and field[7:8] != HALT[7:8]
        found.append(Part(at, tag, field, name, walk.statements, crossed(tag, field), unclosed))
    return found


def changes_of(found):
    """Kind and offset of each change that the fields call for, in the sheet's order."""
    changes = []
    for part in found:
        changes += [(EXCHANGED, part.offset)] if part.ends else []
        changes += [(HALT_ADDED, part.offset)] if part.unclosed else []
    return changes


def mended(sheet, found):
    """The sheet with those changes made in its fields."""
    new = bytearray()
    for part in found:
        at = len(new)
        new += part.field
        if part.ends:
            _, place, layout = ENDS[part.tag]
            struct.pack_into(layout, new, at + 3 + place, *reversed(part.ends))
        new += HALT if part.unclosed else b""
    return bytes(new) + sheet[sum(len(part.field) for part in found) :]


# ---- what the program answers


def fits(answer, sheet):
    """Whether an answer can be one to this sheet."""
    if len(sheet) > LONGEST:
        return answer == (9, 0, 0, 0, [], b"")
    found = parts(sheet)
    new = mended(sheet, found)
    if answer.refusal == 0:
        return answer.place == 0 and answer.changes == changes_of(found) and answer.sheet == new and len(new) <= LONGEST
    if answer.sheet or answer.changes:
        return False
    if answer.refusal in WITH_PLACE:
        return answer.place <= len(sheet)
    return answer.place == 0 and (answer.refusal == 19 or answer.refusal == 9 and len(new) > LONGEST)


def call(path, sheet):
    """What the program at the path answers."""
    out, err = run(path, given=sheet)
    line = ANSWER.fullmatch(err)
    if line:
        changes = [tuple(map(int, change.split())) for change in line[5].splitlines()]
        answer = Answer(*map(int, line.groups()[:4]), changes, out)
        if answer.written == len(out) and answer.listed == 2 * len(changes) and fits(answer, sheet):
            return answer
    raise no_answer(PROGRAM, err)


# ---- in words


def change_lines(sheet):
    lines = []
    for part in parts(sheet):
        where = f"{part.name} (at byte {part.offset})"
        if part.ends:
            low, high = part.ends
            lines.append(f"exchanged the {ENDS[part.tag][0]} of {where}: {low}..{high} is now {high}..{low}")
        if part.unclosed:
            lines.append(f"added halt behind {where}: it is statement {part.statements}")
    return lines


def unhealed(answer, sheet):
    """What the changes could not heal, or made worse."""
    if len(sheet) > LONGEST:
        return []
    found = parts(sheet)
    if answer.refusal == 9:
        halts = words.number(sum(part.unclosed for part in found), "halt")
        return [f"it has {len(sheet):,} bytes, and with {halts} added {len(mended(sheet, found)):,}"]
    lines = []
    for part in found:
        if part.offset == answer.place and answer.refusal == 4 and part.ends:
            low, high = part.ends
            whose = "the label's" if part.tag == 1 else "its"
            lines.append(f"{whose} {ENDS[part.tag][0]} are {low}..{high}: exchanging them does not heal it")
        if part.offset == answer.place and answer.refusal == 8 and part.unclosed and part.statements == MOST_STATEMENTS:
            lines.append(f"its thread has {MOST_STATEMENTS} statements, and the halt that it lacks would be the 65th")
    return lines


def explain(answer, given, name):
    """The lines of words below the numbers; the name is that of the new file, or None."""
    if answer.refusal != 0:
        return output.refused(answer, given, REFUSALS, unhealed(answer, given.sheet))
    if not answer.changes:
        return ["nothing to mend: the sheet reads well as it is" + (", and is copied" if name else "")]
    return [f"mended, {words.number(len(answer.changes), 'change')}:", *("  " + line for line in change_lines(given.sheet))]


def numbers(answer):
    """The numbers alone: the line of four, then kind and offset of each change."""
    return [" ".join(map(str, answer[:4])), *(f"{kind} {offset}" for kind, offset in answer.changes)]


# ---- the file


def write(answer, name):
    """Puts the mended sheet into a new file of that name, - being standard output, unless it is refused or none is named; says
    what was done."""
    if answer.refusal != 0 or (name is None and not answer.changes):
        return "nothing is written"
    if name is None:
        return "nothing is written: name a new file behind SHEET, and the mended sheet goes there"
    kind = "the mended sheet" if answer.changes else "the copy"
    return f"written: {hand_over(name, answer.sheet)} has {kind}, {words.number(answer.written, 'byte')}"
