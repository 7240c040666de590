#!/usr/bin/env python3
"""Tries ./zumbeiry check: on every sheet of sheets/, as text and as bytes, and on inputs that are broken on purpose. Then
building, by try_building.py, ./zumbeiry find, by try_find.py, tools/shelf_file.py, by try_shelf_file.py, ./zumbeiry follow, by
try_follow.py, ./zumbeiry preview, by try_preview.py and try_written.py, ./zumbeiry take-back, by try_take_back.py and
try_chains.py, ./zumbeiry mend, by try_mend.py and try_mended.py, ./zumbeiry convert, by try_convert.py and try_converted.py,
./zumbeiry print, by try_print.py, and ./zumbeiry diff, by try_diff.py.

    python3 tools/try_command.py

The command first builds its seven programs in target/bin/, if need be. The last line is 'N passed, 0 failed'.
"""

import os
import re
import subprocess
import sys
import tempfile

sys.dont_write_bytecode = True

import convert
import follower
import lookup
import mend
import preview
import printer
import take_back
import try_building
import try_chains
import try_convert
import try_converted
import try_diff
import try_find
import try_follow
import try_mend
import try_mended
import try_preview
import try_print
import try_shelf_file
import try_take_back
import try_written
import words
from any_sheet import assemble
from calls import B, Call, ROOT, cannot, copied, counts, expect, in_folder, text_of
from convert_cases import HEAD, REFUSED, TOO_LONG
from print_cases import UNREAD


def expected():
    """The five numbers of each sheet that sheets/README.md lists."""
    rows = re.findall(r"^\| `(\S+)` \| [^|]* \| (\d+(?: \d+){4}) \|$", text_of("sheets", "README.md"), re.MULTILINE)
    texts = [name for name in os.listdir(os.path.join(ROOT, "sheets")) if name.endswith((".txt", ".sheet"))]
    texts += [f"forms/{name}" for name in os.listdir(os.path.join(ROOT, "sheets", "forms"))]
    expect("sheets/README.md lists every sheet once", sorted(name for name, _ in rows) == sorted(texts), rows)
    return dict(sorted(rows))


def try_sheets(folder):
    rows = expected()
    for name, numbers in rows.items():
        path, status = os.path.join("sheets", name), 0 if numbers.startswith("0 ") else 1
        first = Call("check", path).gives(status, numbers + "\n" + ("accepted: " if status == 0 else "refused, "))
        if name.endswith(".txt") and not name.startswith("mistyped"):
            made = assemble(text_of(path).splitlines())
            second = Call("check", in_folder(folder, os.path.basename(name), made)).gives(status)
            said = "".join(line for line in first.out.splitlines(True) if not line.startswith("  line "))
            expect(f"{name}: bytes give what text gives", second.out == said, first.out + second.out)
    several, numbers = [os.path.join("sheets", name) for name in rows], list(rows.values())
    call = Call("check", "--numbers", *several).gives(1)
    expect("the numbers alone", call.out.splitlines() == numbers and call.err == "", call.out)
    Call("check", *several[:2]).gives(1, f"{several[0]}:\n{numbers[0]}\n", f"\n\n{several[1]}:\n{numbers[1]}\n")


# after HEAD: the text, the first two numbers, the words that name the field
FAULTS = (
    (
        "thread\nreg -1..1\n1..1 r0 := 10 / r0\nhalt",
        "10 49",
        "refused, 10 no reading: a divisor may be 0 (",
        "line 8: 1..1 r0 := 10 / r0\n",
        "assign",
        "took 1 state\n",
    ),
    ("thread\nreg 1..2\n1..1 r0 := r0 * 2000000000\nhalt", "16 49", "line 8: 1..1 r0 := r0 * 2000000000\n", "1 state\n"),
    (
        "thread\nreg 1..2\n1..1 skip\n1..1   if -2147483648 - r0 < 0 goto 0  \nhalt",
        "16 57",
        "refused, 16 off the scale: a result may leave the 32-bit values (",
        "line 9: 1..1 if -2147483648 - r0 < 0 goto 0\n",
        "statement 1 of thread 0, if",
        "took 2 states\n",
    ),
    ("thread\nreg -1..1\n1..1 if (2147483647 + 1) / r0 == 1 / r0 goto 0\nhalt", "16 49", "line 8: ", "if"),
    ("thread\nreg -1..1\n1..1 if 1 / r0 == (2147483647 + 1) / r0 goto 0\nhalt", "10 49", "line 8: ", "if"),
    ("thread\nreg -1..1\n1..1 r0 := 1 / r0" + " + 1" * 10 + " " * 50 + "\nhalt", "10 49", "line 8: ", "+ 1 + 1\n"),
)


def try_texts():
    for text, numbers, *said in FAULTS:
        call = Call("check", "-", given=(HEAD + text).encode()).gives(1, *said)
        expect(f"{text!r} gives {numbers}", call.out.startswith(numbers + " "), call.out)
    for text, numbers, (line, column), _, *said in REFUSED:
        where = f"  line {line}, column {column} (byte {numbers.split()[1]} of the text):\n"
        Call("check", "--text", "-", given=text.encode("latin-1")).gives(1, f"{numbers} 0 0 0\nrefused, ", where, *said)
    Call("check", "-", given=TOO_LONG.encode()).gives(1, "9 0 0 0 0\nrefused, 9 too long: the sheet of the text would have")
    cannot(Call("check", "-", given=b"skip " * 300_000), "zumbeiry: -: a text of more than 1,048,576 bytes is not read\n")


def try_bytes(folder):
    for given, numbers, said in UNREAD:
        Call("check", "-", given=given).gives(1, f"{numbers} 0 0 0\n", said)
    in_folder(folder, "B's bytes", B)
    Call("check", "B's bytes", folder=folder).gives(0, "0 0 2 2 3\naccepted: ")
    Call("check", "-", given=B).gives(0, "between tick 2 and tick 3, inside the label 2..3; the search took 2 states")
    Call("check", "--text", "-", given=B).gives(1, "20 0 0 0 0\nrefused, 20 unreadable: ", "it may be a sheet already)\n")
    Call("check", "--bytes", "-", given=b"limit 10").gives(1, "2 0 0 0 0\nrefused, 2 out of turn")


def try_search():
    Call("check", "sheets/B-limit2.txt").gives(1, "refused, 12 past the limit", "the limit is 2 ticks")
    Call("check", "sheets/B-label.txt").gives(1, "the window found is 2..3, the label 3..3", "a label that holds 2..3")
    Call("check", "sheets/E.txt").gives(1, "refused, 11 stuck")
    Call("check", "sheets/G-zero.txt").gives(1, "refused, 10 no reading", "the probe may have touched nothing")
    Call("check", "sheets/G-lowest.txt").gives(1, "refused, 16 off the scale", "too large for the board")


def try_budgets():
    """What is said of a larger budget and of a larger buffer."""
    larger = "the budget is 1 step; a larger one, at most 10,000,000, may decide\n"
    always = "with 1 thread and limit 10, a budget of 2,047 is always enough\n"
    Call("check", "sheets/B-budget.txt").gives(1, "refused, 13 out of steps", larger, always)
    roomy = HEAD.replace("10", "100000") + ("thread\n" + "1..9 skip\n" * 63 + "halt\n") * 4
    room = "lends 12,000 numbers, room for 120 states"
    Call("check", "-", given=roomy.encode()).gives(1, "14 0 ", room, "a larger buffer may decide\n")
    call = Call("check", "-", given=roomy.replace("budget 1000000", "budget 5").encode()).gives(1, "13 0 5 ", "may decide\n")
    expect("a sum that is no budget is not told", "always enough" not in call.out, call.out)
    ifs = "".join(f"1..1 if r{register} < 5 goto {register + 1}\n" for register in range(7))
    thread = "thread\n" + "reg 0..9\n" * 7 + "reg 0..0\n" + ifs + "1..1 r7 := r7 + 1\n1..1 if r7 < 100000 goto 7\nhalt\n"
    long = HEAD.replace("limit 10\nbudget 100", "limit 1000000\nbudget 10000000") + thread
    call = Call("check", "-", given=long.encode()).gives(1, "13 0 10000000 0 0", "the largest that a sheet may have: ")
    expect("no larger budget is told", "may decide" not in call.out, call.out)


def try_usage(folder):
    call = Call().gives(2, err=["usage: ./zumbeiry VERB"])
    expect("no verb: nothing on standard output", call.out == "")
    for arguments in (["--help"], ["check", "--help"], ["check", "-h", "x"]):
        Call(*arguments).gives(0, "usage: ./zumbeiry ")
    cannot(Call("sing"), "there is no verb 'sing'")
    cannot(Call("check"), "check which FILE?")
    cannot(Call("check", "--loud", "x"), "there is no option --loud")
    cannot(Call("check", "--text", "--bytes", "x"), "do not go together")
    cannot(Call("check", "-", "-"), "can be read once")
    cannot(Call("check", "absent"), "zumbeiry: absent: No such file")
    cannot(Call("check", "--", "--help"), "zumbeiry: --help: No such file")
    cannot(Call("check", folder), "Is a directory")
    call = Call("check", "sheets/E.txt", "absent", "sheets/A.txt").gives(2, "11 0 3 0 0\n", "0 0 1 0 0\n", err=["absent"])
    Call("check", "A.txt", "-", given=B, folder=os.path.join(ROOT, "sheets")).gives(0, "A.txt:\n0 0 1", "-:\n0 0 2")


def try_readme():
    text = text_of("README.md")
    rows = re.findall(r"^\| (\d+) (.+) \| (.+) \| (.+) \|$", text, re.MULTILINE)
    for module in (words, lookup, follower, preview, take_back, mend, convert, printer):
        table = [(str(number), *row) for number, row in module.REFUSALS.items()]
        expect(f"README has the table of {module.__name__}", [row for row in rows if row in table] == table, rows)
    sums = re.findall(r"^\| (\d) \| (\d+) \| ([\d,]+) \|$", text, re.MULTILINE)
    right = [words.enough(int(threads), int(limit)) == int(budget.replace(",", "")) for threads, limit, budget in sums]
    expect("README's table of budgets is the command's", len(right) == 8 and all(right), sums)


def main():
    find, follow = ["--check", "10", *try_find.EXAMPLES], ["sheets/B.txt", "sheets/B-at-3.rec"]
    calls = (["check", "sheets/B.txt"], ["find", *find], ["follow", *follow], ["preview", "sheets/B.txt", *try_preview.ASKED])
    for arguments in (*calls, ["mend", "sheets/garbled.sheet"], ["print", "sheets/B.txt"]):
        subprocess.run([os.path.join(ROOT, "zumbeiry"), *arguments], cwd=ROOT)
    with tempfile.TemporaryDirectory() as folder:
        try_sheets(folder)
        try_texts()
        try_bytes(folder)
        try_search()
        try_budgets()
        try_usage(folder)
        copy = copied(folder)
        try_building.try_all(folder, copy)
        try_readme()
        try_find.try_all(folder, copy)
        try_shelf_file.try_all(folder)
        try_follow.try_all(folder, copy)
        try_preview.try_all(folder, copy)
        try_written.try_all(folder, copy)
        try_take_back.try_all(folder, copy)
        try_chains.try_all(folder)
        try_mend.try_all(folder, copy)
        try_mended.try_all(folder, copy)
        try_convert.try_all(folder, copy)
        try_converted.try_all(folder, copy)
        try_print.try_all(folder, copy)
        try_diff.try_all(folder, copy)
    print(f"{counts[True]} passed, {counts[False]} failed")
    return 1 if counts[False] else 0


if __name__ == "__main__":
    sys.exit(main())
