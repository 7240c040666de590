"""The five numbers in words, with the field at fault.

The table of refusals is README's table "The five numbers": tools/try_command.py compares the two.
What a sheet's bytes mean is told here only as far as a reader of the answer needs it, to name a field. Whether
they are right is for the proved program to say, and nothing here changes what it said.
"""

from typing import NamedTuple

from fields import fields

LENT = 12000  # numbers that the program lends, and how many of them a state fills
PER_STATE = 100
LARGEST_BUDGET = 10_000_000

# the number: its trade word, when it is given, what to do
REFUSALS = {
    1: ("short", "the sheet ends where a field is due, inside a header, or before a body's end", "complete the sheet"),
    2: ("out of turn", "a field's tag is not due there", "put the fields in order"),
    3: ("bad length", "a field's length does not fit its tag or code", "correct the length"),
    4: ("off range", "a number or code outside its range, or low above high", "correct the number"),
    5: ("no such name", "a register, variable, lock or target is absent", "name one that the sheet has"),
    6: (
        "bad expression",
        "unknown code or wrong kind, nesting above twelve, bytes missing or left over",
        "correct the expression",
    ),
    7: ("no halt", "a thread's last statement is not halt", "add halt"),
    8: ("too many", "a ninth variable, fifth thread or 65th statement", "split the routine"),
    9: ("too long", "more than 16,384 bytes", "shorten the sheet"),
    10: (
        "no reading",
        "a divisor may be 0 (the probe may have touched nothing)",
        "narrow the divisor's range, or put the divisor in a register and test that first, with < in an if of its own",
    ),
    11: (
        "stuck",
        "every thread that has not halted waits for a lock that another owns",
        "take the locks in one order",
    ),
    12: ("past the limit", "a run may pass the time limit", "raise the limit, or shorten the routine"),
    13: ("out of steps", "the step budget is used up", "raise the budget, or make the routine smaller"),
    14: (
        "out of room",
        "more states to hold than the work buffer has room for",
        "make the routine smaller, or call the library with a larger buffer",
    ),
    15: ("label broken", "the window is not inside the label", "print the window on the label"),
    16: (
        "off the scale",
        "a result may leave the 32-bit values (the number may be too large for the board)",
        "narrow the ranges, or test the registers first, with < in an if of its own",
    ),
    18: (
        "changed since",
        "a statement no longer shows the times that a change gave it (take-back alone gives this)",
        "see what take-back says",
    ),
    19: (
        "output full",
        "a lent buffer is too short for what goes into it (preview, mend, convert and print alone give this)",
        "see what preview, mend, convert and print say",
    ),
    20: (
        "unreadable",
        "a sheet that is typed as text cannot be read (every verb that takes a text gives this)",
        "see what convert says",
    ),
    21: ("not a run", "what the machine recorded is not a run of the sheet (follow alone gives this)", "see what follow says"),
}

# the refusals that name a field, those of the search, and the last that a check gives
PLACED = (1, 2, 3, 4, 5, 6, 7, 8, 10, 16)
FIRST_OF_SEARCH = 10
LAST_OF_CHECK = 16

CODES = ("halt", "skip", "assign", "if", "store", "load", "unlock", "lock")

# what may stand in a field, by its tag
RANGES = {
    1: "limit 1..1,000,000, budget 1..10,000,000, label low at most high, high at most the limit",
    2: "low at most high",
    3: "0..8 locks",
    4: "0..8 registers",
    5: "low at most high",
    6: "codes 0..7; halt has times 0..0, all others least 1 or more, least at most greatest",
}


class Answer(NamedTuple):
    """What the program prints."""

    refusal: int
    place: int
    steps: int
    low: int
    high: int


class Walk:
    """Counts the fields of a sheet that were passed, so as to name the next one."""

    whole = "sheet"

    def __init__(self):
        self.due = "limit, budget and label (tag 1)"
        self.variables = self.registers = self.statements = 0
        self.registers_due = 0
        self.thread = -1

    def name(self, tag, body):
        """The words for the next field, which is passed."""
        thread = f"thread {self.thread}" if self.thread >= 0 else "no thread"
        if tag == 1:
            self.due = "the number of locks (tag 3)"
            return "limit, budget and label"
        if tag == 3:
            self.due = "a variable (tag 2) or a thread (tag 4)"
            return "the number of locks"
        if tag == 2:
            self.variables += 1
            return f"variable x{self.variables - 1}"
        if tag == 4:
            self.thread += 1
            self.registers = self.statements = 0
            self.registers_due = body[0] if body else 0
            self.thread_due()
            return f"the start of thread {self.thread}"
        if tag == 5:
            self.registers += 1
            self.thread_due()
            return f"register r{self.registers - 1} of {thread}"
        if tag == 6:
            self.statements += 1
            self.due = "a statement (tag 6) or a thread (tag 4)"
            code = f", {CODES[body[4]]}" if len(body) > 4 and body[4] < len(CODES) else ""
            return f"statement {self.statements - 1} of {thread}{code}"
        return "a field of no known kind"

    def thread_due(self):
        if self.registers < self.registers_due:
            self.due = f"register r{self.registers} of thread {self.thread} (tag 5)"
        else:
            self.due = f"a statement of thread {self.thread} (tag 6)"


def number(count, thing):
    return f"{count:,} {thing}" + ("" if count == 1 else "s")


def window(low, high):
    return f"at tick {low:,}" if low == high else f"between tick {low:,} and tick {high:,}"


def head(sheet):
    """Limit, budget, label low and label high of a sheet that reads."""
    return [int.from_bytes(sheet[at : at + 4], "big") for at in (3, 7, 11, 15)]


def place_lines(answer, given, walk):
    """The field at fault, for the refusals that name one."""
    found = next((field for field in fields(given, walk) if field.offset == answer.place), None)
    if found is None:
        return [f"at byte {answer.place}"]
    lines = [f"at byte {found.offset}: {found.words}"]
    if answer.refusal == 2 or found.tag is None:
        lines.append(f"due there: {found.due}")
    if answer.refusal == 4 and found.tag in RANGES:
        lines.append(f"what fits: {RANGES[found.tag]}")
    return lines


def text_lines(answer, text, places):
    """The line of the field at fault, where the sheet came as text: places are its fields' offsets and lines."""
    numbers = [line for offset, line in places if offset == answer.place]
    shown = [f"line {line}: {' '.join(text[line - 1].split())}" for line in numbers]
    return [line if len(line) <= 120 else line[:117] + "..." for line in shown]


def sheet_lines(answer, sheet, text, places):
    """Where the fault is in a sheet, in its text and in its bytes."""
    return text_lines(answer, text, places) + place_lines(answer, sheet, Walk()) if answer.refusal in PLACED else []


def enough(threads, limit):
    """The budget that never meets 13, whatever the routine: the sum of the powers of twice the threads from power 0 to power
    threads times limit (crates/rules/specs/Budget.antt); None if a sheet may not have one as large."""
    total, power = 0, 1
    for _ in range(threads * limit + 1):
        total += power
        power *= 2 * threads
        if total > LARGEST_BUDGET:
            return None
    return total


def budget_lines(sheet):
    """What a larger budget may do where the search was out of steps."""
    limit, budget, _, _ = head(sheet)
    if budget == LARGEST_BUDGET:
        return [f"the budget is {budget:,} steps, the largest that a sheet may have: only a smaller routine can help"]
    lines = [f"the budget is {number(budget, 'step')}; a larger one, at most {LARGEST_BUDGET:,}, may decide"]
    threads = sum(field.tag == 4 for field in fields(sheet, Walk()))
    always = enough(threads, limit)
    if always is not None:
        lines.append(f"with {number(threads, 'thread')} and limit {limit:,}, a budget of {always:,} is always enough")
    return lines


def search_lines(answer, sheet):
    """What a search that was refused came to."""
    limit, _, low, high = head(sheet)
    taken = f"the search took {number(answer.steps, 'state')}"
    if answer.refusal == 12:
        return [f"the limit is {number(limit, 'tick')}; {taken}"]
    if answer.refusal == 13:
        return budget_lines(sheet)
    if answer.refusal == 14:
        return [
            f"the program lends {LENT:,} numbers, room for {LENT // PER_STATE} states; {taken}",
            "a larger buffer may decide",
        ]
    if answer.refusal == 15:
        found = f"{answer.low}..{answer.high}"
        return [
            f"the window found is {found}, the label {low}..{high}; {taken}",
            f"a label that holds {found} may stay, up to the limit of {number(limit, 'tick')}",
        ]
    return [taken]


def refused(number, row, lines):
    """A refusal in words: its row of a table of refusals, and the lines that tell more of it."""
    word, when, remedy = row
    return [f"refused, {number} {word}: {when}"] + ["  " + line for line in [*lines, f"what to do: {remedy}"]]


def explain(answer, sheet, text=(), places=()):
    """The lines of words below the five numbers."""
    if answer.refusal == 0:
        _, _, low, high = head(sheet)
        runs = f"every run finishes {window(answer.low, answer.high)}, inside the label {low}..{high}"
        return [f"accepted: {runs}; the search took {number(answer.steps, 'state')}"]
    lines = sheet_lines(answer, sheet, text, places)
    if answer.refusal >= FIRST_OF_SEARCH:
        lines += search_lines(answer, sheet)
    return refused(answer.refusal, REFUSALS[answer.refusal], lines)
