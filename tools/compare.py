"""Two sheets compared by their printed forms: equal, or the lines that differ, each with what it tells of its sheet.

Equal sheets print alike, and only they do: that is proved of the program that prints them.
"""

import difflib
import os
from typing import NamedTuple

import convert
import mark
import printer
import words
from fields import heads
from programs import no_answer, program

UNCOMPARED = "nothing is compared"
NAMED = (2, 4, 5, 6)  # the tags of the fields whose lines do not say which they are


class Line(NamedTuple):
    """A line of a printed form."""

    text: bytes
    number: int
    name: str  # of its field, in words


def printed(given):
    """What the program answers to a sheet, or the converter to a text that it refuses."""
    return given.refused or printer.call(program(printer.PROGRAM), given.sheet)


def refused_lines(given, answer):
    """Which file is refused, with its three numbers and the same in words."""
    said = convert.explain(answer, given.typed) if given.refused else printer.explain(answer, given)
    return [f"{given.name}:", answer.numbers, *said]


# ---- the lines that differ


def lines_of(sheet, text):
    """The lines of a printed form."""
    walk, names = words.Walk(), {}
    for at, tag, length in heads(sheet):
        name = walk.name(tag, sheet[at + 3 : at + 3 + length]).partition(",")[0]
        names[at] = f", {name}" if tag in NAMED else ""
    places = convert.places_of(text, sheet)
    return [Line(line, number, names[at]) for line, (at, number) in zip(convert.lines_of(text), places)]


def row(sign, line, at=0):
    """A line as it is shown, of a long one the part round the byte at which the other begins to differ."""
    return f"  {sign} line {line.number}{line.name}: {mark.window(line.text, at)[0]}"


def rows(before, after):
    """The lines that stand in one place of the two forms, by turns where each stands for another one."""
    if len(before) != len(after):
        return [row("-", line) for line in before] + [row("+", line) for line in after]
    shown = []
    for old, new in zip(before, after):
        at = len(os.path.commonprefix([old.text, new.text]))
        shown += [row("-", old, at), row("+", new, at)]
    return shown


def differing(before, after):
    """The lines of each form that are not in the other, in the places where they stand."""
    texts = [[line.text for line in lines] for lines in (before, after)]
    steps = difflib.SequenceMatcher(None, *texts, autojunk=False).get_opcodes()
    return [(before[low:high], after[low_after:high_after]) for kind, low, high, low_after, high_after in steps if kind != "equal"]


# ---- in words


def explain(sheets, texts):
    """What there is to say of two sheets that print as these texts, and whether they are equal."""
    (one, two), equal = sheets, texts[0] == texts[1]
    if equal != (one.sheet == two.sheet):
        raise no_answer(printer.PROGRAM, b"", "printed equal sheets apart, or different ones alike")
    if equal:
        lines = words.number(len(convert.lines_of(texts[0])), "line")
        return True, [f"equal: both sheets have the same {words.number(len(one.sheet), 'byte')}, and print alike, in {lines}"]
    places = differing(*(lines_of(given.sheet, text) for given, text in zip(sheets, texts)))
    counts = [words.number(sum(len(place[side]) for place in places), "line") for side in (0, 1)]
    told = f"different: {counts[0]} of {one.name} (-) and {counts[1]} of {two.name} (+), counted in the printed forms"
    return False, [told, *(line for place in places for line in rows(*place))]


def compared(sheets):
    """Whether two sheets that were given are equal, and the lines that say it; not so where one is refused."""
    answers = [printed(given) for given in sheets]
    refused = [refused_lines(given, answer) for given, answer in zip(sheets, answers) if answer.refusal != 0]
    if refused:
        return False, [*(line for lines in refused for line in [*lines, ""]), UNCOMPARED]
    return explain(sheets, [answer.output for answer in answers])
