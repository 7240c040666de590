"""New times on one statement of a sheet: what the program answers, the same in words, and the file with the new times."""

import re
from typing import NamedTuple

import take_back
import words
from given import rewrite
from programs import no_answer, run_on
from times import NUMBER, OF_SHEET, PROGRAM, Change, found, is_given, name_of, span, statement_lines, there_lines, times_of

# of new times, in the order in which they are tried, the number: its trade word, when it is given, what to do
REFUSALS = {
    19: (
        "output full",
        "the copy buffer is shorter than the sheet (the program's is not)",
        "call the library with a copy buffer as long as the sheet",
    ),
    5: (
        "no such name",
        "the sheet has no such thread, or the thread has no such statement",
        "name a statement that the sheet has; threads and statements count from 0",
    ),
    4: (
        "off range",
        "times that the statement may not have",
        "give halt 0..0, and any other statement least 1 or more, least at most greatest, greatest at most 65,535",
    ),
}

# of a text that is not converted: both lines of numbers, and the last line of words
OF_TEXT = "{0} {1} 0 0 0\n{0} {1} 0 0 0"
NO_SHEET = "no statement of a text that is not converted is given new times"

OF_CHECK = (0, *range(words.FIRST_OF_SEARCH, words.LAST_OF_CHECK + 1))

FIVE = NUMBER + rb"(?: " + NUMBER + rb"){4}\n"
MADE = re.compile(rb"0 0((?: " + NUMBER + rb"){6})\n")  # the line before a changed sheet


class Asked(NamedTuple):
    """What the program is asked, as numbers in decimal."""

    thread: str
    statement: str
    least: str
    greatest: str

    @property
    def times(self):
        return span(self.least, self.greatest)


def asked_of(thread, statement, times):
    """What the words behind SHEET ask for."""
    return Asked(*name_of(thread, statement), *times_of("times", times))


# ---- what the program answers


def fit(now, then):
    """Whether two answers can be those of one sheet, now and then."""
    if now.refusal in OF_SHEET:
        return then == now
    return now.refusal in OF_CHECK and (then.refusal in OF_CHECK or then in [(number, 0, 0, 0, 0) for number in REFUSALS])


def call(path, sheet, asked):
    """The five numbers that the check gives now, and those that it would give, by the program at the path."""
    out, err = run_on(path, sheet, *asked)
    if re.fullmatch(FIVE + FIVE, out) and not err:
        now, then = (words.Answer(*map(int, line.split())) for line in out.splitlines())
        if fit(now, then):
            return now, then
    raise no_answer(PROGRAM, err)


# ---- in words


def refused_lines(refusal, given, asked):
    """What stands in the way of the new times."""
    if refusal == 5:
        return there_lines(given.sheet, asked)
    if refusal == 4:
        statement = found(given.sheet, asked)
        times = f"its times are {statement.times}; asked for: {asked.times}"
        return statement_lines(given, statement) + [times]
    return []


def window_of(answer):
    return f"{answer.low}..{answer.high}" if answer.refusal in (0, 15) else None


def change_line(now, then, sheet):
    """What the new times change."""
    _, _, low, high = words.head(sheet)
    before, after = window_of(now), window_of(then)
    if before == after:
        window = f"the window stays {after}" if after else "there is no window, as before"
    elif before and after:
        window = f"the window {before} becomes {after}"
    else:
        window = f"there is a window, {after}" if after else f"there is no window any more, it was {before}"
    stays = {
        (True, True): "may still stay",
        (True, False): "may no longer stay",
        (False, True): "may then stay",
        (False, False): "may not stay, as before",
    }[now.refusal == 0, then.refusal == 0]
    return f"what changes: {window}; the label {low}..{high} {stays}"


def explain(now, then, given, asked):
    """The lines of words below the numbers."""
    is_now = words.explain(now, given.sheet, given.text, given.places)
    if now.refusal in OF_SHEET:
        return is_now + given.hint(now) + ["no statement of a sheet that does not read is given new times"]
    if then.refusal in REFUSALS:
        is_then = words.refused(then.refusal, REFUSALS[then.refusal], refused_lines(then.refusal, given, asked))
        return ["now, " + is_now[0], *is_now[1:], "then, " + is_then[0], *is_then[1:]]
    statement = found(given.sheet, asked)
    lines = [f"times {asked.times} instead of {statement.times}:"]
    lines += ["  " + line for line in statement_lines(given, statement)]
    is_then = words.explain(then, given.sheet, given.text, given.places)
    lines += ["now, " + is_now[0], *is_now[1:], "then, " + is_then[0], *is_then[1:]]
    return lines + [change_line(now, then, given.sheet)]


# ---- the file


def changed(path, sheet, asked):
    """What the program at the path did to make the change, and the sheet with the new times."""
    out, err = run_on(path, sheet, *asked, "write")
    line, statement = MADE.match(out), found(sheet, asked)
    if line and not err:
        change, new = Change(*line[1].decode().split()), out[line.end() :]
        right = Change(asked.thread, asked.statement, statement.least, statement.greatest, asked.least, asked.greatest)
        if change == right and is_given(sheet, new, statement, asked[2:]):
            return change, new
    raise no_answer(PROGRAM, err)


def write(given, new, then):
    """Puts the sheet with the new times into the file; says what was done."""
    if new == given.sheet:
        return f"{given.name} has these times already: nothing is written"
    rewrite(given, new)
    refused = "" if then.refusal == 0 else "; the check now refuses it, as shown"
    return f"written: {given.name} has the new times{refused}"


def write_times(path, sheet, asked, then, numbers):
    """Puts the new times into the file, unless they are refused, and tells how the change is taken back. Of numbers this is told
    before anything is written, so that the old times stand somewhere however this ends; the words have told them already."""
    if then.refusal not in OF_CHECK:
        print("" if numbers else "nothing is written\n", end="", flush=True)
        return
    change, new = changed(path, sheet.sheet, asked)
    if numbers:
        print(take_back.behind(change), flush=True)
    told = write(sheet, new, then)
    if not numbers:
        print(told, f"to take it back: {take_back.line(sheet.name, change)}", sep="\n", flush=True)
