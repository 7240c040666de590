"""A change of times taken back: what the program answers, the same in words, the file with the old times, and the line that a
person types for it."""

import os
import re
from typing import NamedTuple

import words
from given import quoted, rewrite
from programs import ROOT, no_answer, run_on
from times import NUMBER, OF_SHEET, PROGRAM, Change, found, is_given, name_of, statement_lines, there_lines, times_of

# of a sheet that reads, in the order in which they are tried, the number: its trade word, when it is given, what to do
REFUSALS = {
    5: (
        "no such name",
        "the sheet has no statement with that thread and number",
        "see that SHEET is the sheet that was changed, and give the words that preview --write printed for the change",
    ),
    4: (
        "off range",
        "old times that the statement may not have",
        "give the words that preview --write printed for the change",
    ),
    18: (
        "changed since",
        "the statement does not show the new times of the change",
        "take later changes of the statement back first, the last one first; else set its times with preview --write",
    ),
}

LINE = re.compile(rb"(" + NUMBER + rb") (" + NUMBER + rb")\n")
NO_THREAD = "4"  # a sheet has at most four


class Answer(NamedTuple):
    """What the program prints, and whether it speaks of a sheet that does not read."""

    refusal: int
    place: int
    sheet: bytes  # with the old times; empty where it is refused
    unread: bool = False


def change_of(thread, statement, old, new):
    """What the words behind SHEET ask for."""
    return Change(*name_of(thread, statement), *times_of("old times", old), *times_of("new times", new))


# ---- what the program answers


def fits(answer, sheet, change):
    """Whether an answer can be one to what was asked."""
    if answer.refusal in OF_SHEET:
        return not answer.sheet
    if answer.refusal not in (0, 18) or answer.place != 0:
        return False
    statement = found(sheet, change)
    shows = statement[1:] == change[4:]
    if answer.refusal == 18:
        return not shows and not answer.sheet
    return shows and is_given(sheet, answer.sheet, statement, change[2:4])


def ask(path, sheet, change):
    """What the program at the path answers to a change that is to be taken back."""
    out, err = run_on(path, sheet, *change)
    line = LINE.match(out)
    if line and not err:
        answer = Answer(int(line[1]), int(line[2]), out[line.end() :])
        if fits(answer, sheet, change):
            return answer
    raise no_answer(PROGRAM, err)


def call(path, sheet, change):
    """The answer. A 5 at place 0 is always the statement's, a 4 there the old times' or that of the sheet's first field. These
    two are told apart by asking for a statement that no sheet has: its 5 comes before the old times' 4, and behind the sheet's."""
    answer = ask(path, sheet, change)
    if answer.refusal not in OF_SHEET or answer[:2] == (5, 0):
        return answer
    unread = answer[:2] != (4, 0) or ask(path, sheet, change._replace(thread=NO_THREAD)) == answer
    return answer._replace(unread=unread)


# ---- in words


def refused_lines(refusal, given, change):
    """What stands in the way of the old times."""
    if refusal == 5:
        return there_lines(given.sheet, change)
    statement = found(given.sheet, change)
    lines, now = statement_lines(given, statement), f"its times are {statement.times}"
    if refusal == 4:
        return lines + [f"{now}; old times asked for: {change.old}"]
    return lines + [f"{now}; the change wrote {change.new} instead of {change.old}"]


def explain(answer, given, change):
    """The lines of words below the numbers."""
    if answer.unread:
        return words.explain(answer, given.sheet) + ["in a sheet that does not read nothing is taken back"]
    if answer.refusal != 0:
        return words.refused(answer.refusal, REFUSALS[answer.refusal], refused_lines(answer.refusal, given, change))
    if change.old == change.new:
        lines = [f"taken back: the change left the times as they were, {change.old}"]
    else:
        lines = [f"taken back: the times were {change.new} and are {change.old} again"]
    return lines + ["  " + line for line in statement_lines(given, found(given.sheet, change))]


# ---- the file


def write(given, answer):
    """Puts the old times into the file, unless it is refused; says what was done."""
    if answer.refusal != 0:
        return "nothing is written"
    if answer.sheet == given.sheet:
        return f"{given.name} has the old times already: nothing is written"
    rewrite(given, answer.sheet)
    return f"written: {given.name} has the old times"


# ---- the line


def behind(change):
    """The words behind SHEET that take a change back."""
    return f"{change.thread} {change.statement} {change.old} {change.new}"


def line(name, change):
    """What a person types to take back a change in the file of that name, in this folder."""
    command = os.path.join(ROOT, "zumbeiry")
    if os.path.exists("zumbeiry") and os.path.samefile("zumbeiry", command):
        command = "./zumbeiry"
    dashes = "-- " if name.startswith("-") else ""
    return f"{quoted(command)} take-back {dashes}{quoted(name)} {behind(change)}"
