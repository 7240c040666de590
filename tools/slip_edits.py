"""Edits of a text, for the slips of text_slips.py and print_slips.py."""

import sys


def other(old, *changes):
    """The same text with some of it otherwise."""
    new = old
    for before, after in changes:
        if before not in new:
            sys.exit(f"{before!r} does not stand in {old!r}")
        new = new.replace(before, after)
    return old, new


def first(old, text):
    """Something before it."""
    return old, text + old
