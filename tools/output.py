"""A program with one output: its bytes on standard output or, where it refuses what it is given, the line of refusal and place on
standard error. What it answers, and the file with the output; and the refusal of a sheet in words."""

import os
import re
from typing import NamedTuple

import words
from given import hand_over
from programs import no_answer, run
from times import NUMBER

REFUSED = re.compile(rb"(%s) (%s)\n" % (NUMBER, NUMBER))
NOTHING = "nothing is written"


class Answer(NamedTuple):
    """What the program gives."""

    refusal: int
    place: int  # in what it was given
    output: bytes  # empty where it is refused

    @property
    def numbers(self):
        return f"{self.refusal} {self.place} {len(self.output)}"


def call(path, given, fits):
    """What the program at the path answers, if that can be an answer to what it is given."""
    out, err = run(path, given=given)
    line = REFUSED.fullmatch(err)
    answer = Answer(int(line[1]), int(line[2]), out) if line else Answer(0, 0, out)
    if bool(out) == (not err) and fits(answer, given):
        return answer
    raise no_answer(os.path.basename(path), err)


def refused(answer, given, rows, more=()):
    """A sheet's refusal in words: its row, of those given or of the check's, the field at fault, and what more there is to say."""
    row = rows.get(answer.refusal) or words.REFUSALS[answer.refusal]
    lines = words.sheet_lines(answer, given.sheet, given.text, given.places)
    return words.refused(answer.refusal, row, [*lines, *more]) + given.hint(answer)


def write(answer, name, kind):
    """Puts the output, of this kind, into a new file of that name, - being standard output, unless it is refused; says what was
    done."""
    if answer.refusal != 0:
        return NOTHING
    return f"written: {hand_over(name, answer.output)} has {kind}, {words.number(len(answer.output), 'byte')}"
