"""A sheet printed in its one form: what the program answers, the same in words, and the file with the text.

As in words.py, sheet and text are looked at only so far as to see that an answer is one to this sheet, line by line: whether the text is
the sheet's one form, and whether the sheet reads, is for the proved program to say.
"""

import re

import convert
import output
import words

PROGRAM = "print_main"
TIMES_AS_LONG = 6  # as its sheet, at the most

# where it differs from the check's, the number: its trade word, when it is given, what to do
REFUSALS = {
    19: (
        "output full",
        "the printed text does not fit its buffer (the program's is large enough)",
        "call the library with 98,304 bytes for the text",
    ),
}
WITH_PLACE = range(1, 9)

# words of one space between, and a newline after each line
LINES = re.compile(rb"(?:[!-~]+(?: [!-~]+)*\n)+")

# ---- what the program answers


def is_text_of(text, sheet):
    """Whether a text can be the printed one of this sheet: its lines are those of the fields."""
    short = len(text) <= TIMES_AS_LONG * len(sheet)
    return short and bool(LINES.fullmatch(text)) and convert.places_of(text, sheet) is not None


def fits(answer, sheet):
    """Whether an answer can be one to this sheet."""
    if len(sheet) > convert.LONGEST:
        return answer == (9, 0, b"")
    if answer.refusal == 0:
        return is_text_of(answer.output, sheet)
    return answer.place <= len(sheet) if answer.refusal in WITH_PLACE else answer == (19, 0, b"")


def call(path, sheet):
    """What the program at the path answers."""
    return output.call(path, sheet, fits)


# ---- in words


def form_lines(text, typed):
    """Whether a text that was typed has the printed form; it has as many lines as that."""
    if typed is None:
        return []
    if typed == text:
        return ["the text that was given has this form already"]
    others = sum(line != printed for line, printed in zip(convert.lines_of(typed), convert.lines_of(text)))
    if others == 0:
        return ["the text that was given has this form, but for the last newline"]
    return [f"the text that was given has another form in {words.number(others, 'line')}"]


def explain(answer, given):
    """The lines of words below the numbers."""
    if answer.refusal != 0:
        return output.refused(answer, given, REFUSALS)
    lines = words.number(len(convert.lines_of(answer.output)), "line")
    printed = f"printed: {lines}, a text of {words.number(len(answer.output), 'byte')}"
    return [printed, *form_lines(answer.output, given.typed)]


# ---- the file


def write(answer, name):
    """Puts the text into a new file of that name, - being standard output, unless it is refused; the line that says what was done, or
    none where the text itself is seen."""
    told = output.write(answer, name, "the text")
    return [told] if answer.refusal != 0 or name != "-" else []
