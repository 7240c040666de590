"""What the machine recorded of a job, followed through the job's sheet: what the program answers, and the same in words.

A record has a field for each starting value, then one for each event. As in words.py, its bytes are looked at only so far as to
name a field: whether they are a run of the sheet, and where they are not, is for the proved program to say.
"""

import re
import struct
from typing import NamedTuple

import words
from fields import heads
from programs import no_answer, run_on

VALUE, EVENT = 32, 33  # the tags
TURN = 65_536  # ticks until the recorder's clock starts over

# of a record, the number: its trade word, when it is given, what to do
REFUSALS = {
    1: ("short", "the record ends inside a field, or where a starting value is due", "complete the record"),
    2: (
        "out of turn",
        "a field's tag is not due there",
        "put the starting values first, variables before each thread's registers, then the events",
    ),
    3: ("bad length", "a starting value is not 4 bytes long, or an event not 3", "correct the length"),
    4: ("off range", "a starting value is outside its range", "correct the value, or its range in the sheet"),
    5: ("no such name", "an event's thread is absent", "name a thread that the sheet has"),
    9: ("too long", "more than 65,536 bytes", "follow a shorter part, from the record's first byte on"),
    10: (
        "no reading",
        "the event's statement divides by 0 (the probe touched nothing)",
        "have the sheet test the divisor first, with < in an if of its own",
    ),
    16: (
        "off the scale",
        "a result of the event's statement leaves the 32-bit values (the number is too large for the board)",
        "have the sheet test the registers first, with < in an if of its own",
    ),
    21: (
        "not a run",
        "the event's thread has halted, its statement cannot end at that tick, or another thread's ends before",
        "see that the job had this sheet, and that the sheet's times are the machine's",
    ),
}

NUMBER = rb"(?:0|[1-9]\d{0,9})"
RUN = rb"0 0 0 [01] " + NUMBER
OF_SHEET = rb"[1-9] 0 " + NUMBER + rb" 0 0"
OF_RECORD = rb"(?:" + b"|".join(b"%d" % refusal for refusal in REFUSALS) + rb") 1 " + NUMBER + rb" 0 0"
ANSWER = re.compile(rb"(?:" + b"|".join((RUN, OF_SHEET, OF_RECORD)) + rb")\n")


class Followed(NamedTuple):
    """What the program prints."""

    refusal: int
    file: int  # 0 the sheet, 1 the record
    place: int
    finished: int
    tick: int


class Start(NamedTuple):
    """A starting value that is due: what it is of, and its range."""

    name: str
    low: int
    high: int


def starts(sheet):
    """The starting values that a sheet asks for, in its order."""
    walk, found = words.Walk(), []
    for at, tag, length in heads(sheet):
        body = sheet[at + 3 : at + 3 + length]
        name = walk.name(tag, body)
        if tag in (2, 5) and len(body) == 8:
            found.append(Start(name, *struct.unpack(">ii", body)))
    return found


class Walk:
    """Goes over starting values and then events, so as to name the next field."""

    whole = "record"

    def __init__(self, sheet):
        self.starts, self.events, self.tick = starts(sheet), 0, 0

    @property
    def due(self):
        return f"the starting value of {self.starts[0].name} (tag {VALUE})" if self.starts else f"an event (tag {EVENT})"

    def name(self, tag, body):
        """The words for the next field, which is passed."""
        if tag == EVENT:
            return self.event(body)
        if tag != VALUE:
            return "a field of no known kind"
        value = f", {int.from_bytes(body, 'big', signed=True)}" if len(body) == 4 else ""
        return (f"the starting value of {self.starts.pop(0).name}" if self.starts else "a starting value") + value

    def event(self, body):
        self.events += 1
        event = f"event {self.events - 1}"
        if len(body) != 3:
            return event
        # the recorder's clock starts over, and no two events are a whole turn apart
        self.tick += (int.from_bytes(body[1:], "big") - self.tick) % TURN
        return f"{event}, thread {body[0]} at tick {self.tick:,}"


def call(path, sheet, recorded):
    """The five numbers that the program at the path gives."""
    out, err = run_on(path, sheet, recorded)
    if ANSWER.fullmatch(out) and not err:
        return Followed(*map(int, out.split()))
    raise no_answer("record_main", err)


def holds(answer, sheet):
    """Whether a run keeps the label: one that has not finished is not yet past it."""
    _, _, low, high = words.head(sheet)
    return answer.tick <= high and (low <= answer.tick or not answer.finished)


def run_lines(answer, sheet, recorded):
    _, _, low, high = words.head(sheet)
    events = words.number(sum(tag == EVENT for _, tag, _ in heads(recorded)), "event")
    kept, label = holds(answer, sheet), f"the label {low}..{high}"
    if answer.finished:
        lines = [f"a run of {events}, finished at tick {answer.tick:,}: {label} " + ("holds" if kept else "does not hold")]
    else:
        lines = [f"a run of {events}, not finished: its last tick is {answer.tick:,}, " + ("" if kept else "past ") + label]
    return lines if kept else lines + ["  a label that ./zumbeiry check accepts holds for every run"]


def record_lines(answer, sheet, recorded):
    """The field at fault, and what would fit there."""
    walk = Walk(sheet)
    due = list(walk.starts)
    lines = words.place_lines(answer, recorded, walk)
    if answer.refusal == 4:
        lines += [f"what fits: {start.low}..{start.high}" for start in due[answer.place // 7 :][:1]]
    if answer.refusal == 5:
        lines.append(f"the sheet has {words.number(sum(tag == 4 for _, tag, _ in heads(sheet)), 'thread')}, from 0 on")
    return lines


def explain(answer, given, name, recorded):
    """The lines of words below the five numbers. Given is the sheet, and name is the record's."""
    if answer.refusal == 0:
        return run_lines(answer, given.sheet, recorded)
    if answer.file == 0:
        lines = words.sheet_lines(answer, given.sheet, given.text, given.places)
        row = words.REFUSALS[answer.refusal]
        return words.refused(answer.refusal, row, [f"in {given.name}, the sheet", *lines]) + given.hint(answer)
    lines = record_lines(answer, given.sheet, recorded) if answer.refusal != 9 else []
    return words.refused(answer.refusal, REFUSALS[answer.refusal], [f"in {name}, the record", *lines])
