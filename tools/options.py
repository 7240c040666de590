"""The words behind a verb: its options and the files, and which of them go together."""

from programs import CannotRun

FORMS = {"--text", "--bytes"}


def options_of(arguments, known):
    """The options and the files among the words after a verb; words after -- are files."""
    options, files = set(), []
    for place, word in enumerate(arguments):
        if word == "--":
            return options, files + arguments[place + 1 :]
        if word == "-" or not word.startswith("-"):
            files.append(word)
        elif word in known:
            options.add(word)
        else:
            raise CannotRun(f"there is no option {word}")
    return options, files


def one_form(options):
    if FORMS <= options:
        raise CannotRun("a file is either text or bytes: --text and --bytes do not go together")


def once(files):
    """Standard input may be one of the files."""
    if files.count("-") > 1:
        raise CannotRun("standard input, -, can be read once")


def one_or_two(names, asked):
    """A file, and a new one or None; what is asked is told where the words are others."""
    if len(names) not in (1, 2) or "" in names:
        raise CannotRun(asked)
    return names[0], names[1] if len(names) == 2 else None
