"""A sheet checked: what the program answers, and the same in words as check prints it."""

import re

import convert
import words
from programs import CannotRun, put_lines, run, say


def five_of(path, given):
    """The five numbers that the program gives for a sheet."""
    printed, _ = run(path, given=given.sheet)
    if not re.fullmatch(rb"(0|[1-9]\d{0,18})( (0|[1-9]\d{0,18})){4}\n", printed):
        raise CannotRun(f"{given.name}: target/bin/label_main did not print five numbers")
    answer = words.Answer(*map(int, printed.split()))
    if answer.refusal > words.LAST_OF_CHECK:
        raise CannotRun(f"{given.name}: target/bin/label_main gave a refusal that has no words, {answer.refusal}")
    return answer


def said(given, path, options):
    """The refusal, the five numbers and, unless these alone are asked for, the words. A text that is not converted has no sheet to
    check: its number and its place in the text stand first, and the others are 0."""
    if given.refused:
        return given.refused.refusal, convert.unconverted(given, "{} {} 0 0 0", options)
    answer = five_of(path, given)
    lines = [" ".join(map(str, answer))]
    if "--numbers" not in options:
        lines += words.explain(answer, given.sheet, given.text, given.places) + given.hint(answer)
    return answer.refusal, lines


def tell(given, path, options, place, error=False):
    """Prints the answer to one sheet, under its name if it has a place among several; the exit status for it."""
    try:
        if isinstance(given, CannotRun):
            raise given
        refusal, lines = said(given, path, options)
    except CannotRun as fault:
        say(fault)
        return 2
    if place is not None and "--numbers" not in options:
        lines = ([""] if place > 0 else []) + [f"{given.name}:"] + lines
    put_lines(lines, error)
    return 0 if refusal == 0 else 1
