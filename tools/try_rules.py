#!/usr/bin/env python3
"""Compares the formal definitions of crates/rules with the oracle.

    try_rules.py SEED COUNT       random small sheets (tools/corpus.rs)
    try_rules.py CORPUS           a corpus, but for wrong entries and long sheets that are read far

States of each sheet, beside a scratch copy of the definitions, that `answer`
gives the oracle's five numbers: one definition a sheet, proved by computing.
Needs rustc and rt. Exit status 0 if all agree.
"""

import os
import re
import shutil
import subprocess
import sys
import tempfile

TOOLS = os.path.dirname(os.path.abspath(__file__))
ROOT = os.path.dirname(TOOLS)
RULES = os.path.join(ROOT, "crates", "rules")
PER_FILE = 50
FRONT = 20
WRONG = 1  # planted in an entry
MOST_BYTES = 1000
TOO_LONG = 9

HEAD = """use mathlib.Core.Path.{◌≡◌, refl}
use mathlib.Core.List.{[], ◌∷◌}
use Rattle.rules.specs.Search.{five, answer}
use Rattle.rules.proofs.Compute.{every-rule}
"""


def number(data):
    return int.from_bytes(data, "big")


def entries(data):
    """Each entry's sheet, buffer length and five numbers; not those whose numbers are wrong on purpose."""
    at = 4
    for _ in range(number(data[:4])):
        front = data[at:at + FRONT]
        at += FRONT + number(front[:2])
        five = (front[4], number(front[5:7]), number(front[7:11]), number(front[11:15]), number(front[15:19]))
        if front[19] != WRONG:
            yield data[at - number(front[:2]):at], number(front[2:4]), five


def last_place(fact):
    """Where the reader refuses the sheet, else its end."""
    sheet, _, (refusal, place, *_) = fact
    return place if 1 <= refusal <= TOO_LONG else len(sheet)


def small_sheets(seed, count):
    program = os.path.join(ROOT, "target", "corpus")
    os.makedirs(os.path.dirname(program), exist_ok=True)
    source = os.path.join(TOOLS, "corpus.rs")
    subprocess.run(["rustc", "--edition", "2021", "-O", "-o", program, source], check=True)
    return list(entries(subprocess.run([program, "small", seed, count], check=True, capture_output=True).stdout))


def check(numbered, scratch):
    """Writes the facts and checks them; the checker's success, words and the facts at fault."""
    crate = os.path.join(scratch, "crates", "rules")
    proofs = os.path.join(crate, "proofs")
    shutil.rmtree(crate, ignore_errors=True)
    shutil.copytree(os.path.join(RULES, "specs"), os.path.join(crate, "specs"))
    shutil.copytree(os.path.join(RULES, "src"), os.path.join(crate, "src"))
    with open(os.path.join(scratch, "crates.txt"), "w", encoding="utf-8") as file:
        file.write("rules:\n")
    os.makedirs(proofs)
    shutil.copy(os.path.join(RULES, "proofs", "Compute.antt"), proofs)
    modules = ["Compute"]
    at = {}  # file and line of each fact's proof
    for start in range(0, len(numbered), PER_FILE):
        name = f"Try{start // PER_FILE}"
        lines = HEAD.splitlines()
        for index, (sheet, length, five) in numbered[start:start + PER_FILE]:
            data = "".join(f"{byte} ∷ " for byte in sheet)
            first = len(lines) + 1
            lines += ["", f"fact{index} : answer ({data}[]) {length} ≡ five {' '.join(map(str, five))}",
                      "unfolding every-rule", f"fact{index} = refl"]
            for line in range(first, len(lines) + 1):
                at[name, line] = index
        with open(os.path.join(proofs, name + ".antt"), "w", encoding="utf-8") as file:
            file.write("\n".join(lines) + "\n")
        modules.append(name)
    with open(os.path.join(proofs, "Lib.antt"), "w", encoding="utf-8") as file:
        file.write("".join(f"pub mod {name}\n" for name in modules))
    run = subprocess.run(["rt", "check"], cwd=crate, capture_output=True, text=True)
    words = run.stdout + run.stderr
    faults = {at[name, int(line)] for name, line in re.findall(r"(Try\d+)\.antt:(\d+)", words) if (name, int(line)) in at}
    return run.returncode == 0, words, faults


def main(arguments):
    if len(arguments) == 2:
        sheets = small_sheets(*arguments)
    elif len(arguments) == 1:
        with open(arguments[0], "rb") as file:
            sheets = list(entries(file.read()))
    else:
        sys.exit("usage: try_rules.py SEED COUNT | CORPUS")
    whole = len(sheets)
    sheets = [fact for fact in sheets if last_place(fact) <= MOST_BYTES]
    left = list(enumerate(sheets))
    differ = []
    with tempfile.TemporaryDirectory() as scratch:
        while True:
            proved, words, faults = check(left, scratch)
            if proved:
                break
            if not faults:
                sys.exit(words)
            differ += sorted(faults)
            left = [(index, fact) for index, fact in left if index not in faults]
    for index in differ:
        sheet, length, five = sheets[index]
        print(f"differs: length {length}, oracle {' '.join(map(str, five))}, sheet {sheet.hex().upper()}")
    of = [sum(five[0] == refusal for _, _, five in sheets) for refusal in range(1 + max(five[0] for _, _, five in sheets))]
    print("by refusal:", " ".join(f"{refusal}:{count}" for refusal, count in enumerate(of)))
    print(f"{len(sheets)} sheets compared, {len(differ)} differ, {whole - len(sheets)} left out")
    sys.exit(bool(differ))


if __name__ == "__main__":
    main(sys.argv[1:])
