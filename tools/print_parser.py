#!/usr/bin/env python3
"""A second look at a corpus of printed sheets (02, ticket 4): the texts once more, with each parenthesis tried.

    print_parser.py CORPUS

Every operator of an expression first gets parentheses. Then each pair is taken away if Python's parser still reads the same tree
without it: in Python too `*` and `/` bind before `+` and `-`, all from the left, `not` takes a whole comparison, and `and` binds
last. Shares nothing with prints.rs but the papers. Looks at the sheets that read, by what is stated of them, up to 3000 bytes;
prints how many were compared, and how many differ.
"""

import ast
import functools
import re
import struct
import sys

LONGEST = 3000
# as Python writes them
WORDS = {18: "+", 19: "-", 20: "*", 21: "/", 35: "and", 36: "==", 37: "<"}
NODES = {ast.Add: "+", ast.Sub: "-", ast.Mult: "*", ast.Div: "/", ast.Eq: "==", ast.Lt: "<"}


def tree(body):
    """The expression at the front of these bytes, which are taken off: a leaf's text, or a word with its operands."""
    code = body.pop(0)
    if code == 16:
        value = struct.unpack(">i", bytes(body[:4]))[0]
        del body[:4]
        return str(value)
    if code == 17:
        return f"r{body.pop(0)}"
    if code in (32, 33):
        return {32: "true", 33: "false"}[code]
    if code == 34:
        return "not", tree(body)
    return WORDS[code], tree(body), tree(body)


def enclosed(node):
    """The words of a tree with parentheses round every operator."""
    if isinstance(node, str):
        return [node]
    word, *operands = node
    parts = [["("], *map(enclosed, operands), [")"]]
    parts.insert(len(operands), [word])
    return sum(parts, [])


def read(node):
    """The tree that Python's parser has read."""
    if isinstance(node, ast.Name):
        return node.id
    if isinstance(node, ast.Constant):
        return str(node.value)
    if isinstance(node, ast.UnaryOp):
        return ("not", read(node.operand)) if isinstance(node.op, ast.Not) else "-" + read(node.operand)
    if isinstance(node, ast.BinOp):
        return NODES[type(node.op)], read(node.left), read(node.right)
    if isinstance(node, ast.Compare):
        return NODES[type(node.ops[0])], read(node.left), *map(read, node.comparators)
    # Python has one list for `a and b and c`
    return functools.reduce(lambda left, right: ("and", left, right), map(read, node.values))


def joined(words):
    """Single spaces, none behind `(` or before `)`."""
    return " ".join(words).replace("( ", "(").replace(" )", ")")


def pairs(words):
    """Where the parentheses stand, the outer ones first."""
    opened, found = [], []
    for at, word in enumerate(words):
        if word == "(":
            opened.append(at)
        if word == ")":
            found.append((opened.pop(), at))
    return sorted(found)


def expression(body):
    meant = tree(list(body))
    words = enclosed(meant)
    for first, last in pairs(words):
        bare = [*words[:first], "", *words[first + 1:last], "", *words[last + 1:]]
        if read(ast.parse(joined(filter(None, bare)), mode="eval").body) == meant:
            words = bare
    text = joined(filter(None, words))
    return re.sub(r"\bnot ", "!", text.replace(" and ", " && "))


def statement(body):
    least, greatest, code = struct.unpack(">HHB", body[:5])
    if code == 0:
        return "halt"
    operands = body[5:]
    words = {
        1: lambda: "skip",
        2: lambda: f"r{operands[0]} := {expression(operands[1:])}",
        3: lambda: f"if {expression(operands[1:])} goto {operands[0]}",
        4: lambda: "store r{} to x{}".format(*operands),
        5: lambda: "load r{} from x{}".format(*operands),
        6: lambda: "unlock l{}".format(*operands),
        7: lambda: "lock l{}".format(*operands),
    }
    return f"{least}..{greatest} {words[code]()}"


def lines(sheet):
    forms = {1: ("limit {}\nbudget {}\nlabel {}..{}", ">IIII"), 2: ("var {}..{}", ">ii"), 3: ("locks {}", ">B"), 5: ("reg {}..{}", ">ii")}
    while sheet:
        tag, length = struct.unpack(">BH", sheet[:3])
        body, sheet = sheet[3:3 + length], sheet[3 + length:]
        if tag in forms:
            form, numbers = forms[tag]
            yield form.format(*struct.unpack(numbers, body))
        else:
            yield "thread" if tag == 4 else statement(body)


def entries(corpus):
    """Sheet, room, and what is stated of the entries that nothing is planted in: three numbers and the buffer."""
    at = 4
    for _ in range(int.from_bytes(corpus[:4], "big")):
        planted, length, stated, room, refusal, place, written = struct.unpack(">BIIIBII", corpus[at:at + 22])
        middle = at + 22 + length
        if planted == 0:
            yield corpus[at + 22:middle], room, (refusal, place, written, corpus[middle:middle + stated].ljust(room, b"\0"))
        at = middle + stated


def printed(sheet, room):
    text = "".join(line + "\n" for line in lines(sheet)).encode()
    if len(text) > room:
        return 19, 0, 0, bytes(room)
    return 0, 0, len(text), text.ljust(room, b"\0")


def main(arguments):
    if len(arguments) != 1:
        sys.exit("usage: print_parser.py CORPUS")
    with open(arguments[0], "rb") as file:
        readable = [entry for entry in entries(file.read()) if entry[2][0] in (0, 19) and len(entry[0]) <= LONGEST]
    differ = [(sheet, stated) for sheet, room, stated in readable if printed(sheet, room) != stated]
    for sheet, stated in differ[:10]:
        print(sheet.hex(), "stated", *stated[:3], stated[3].rstrip(b"\0"))
    print(f"{len(readable)} sheets compared, {len(differ)} differ")
    sys.exit(len(differ) > 0)


if __name__ == "__main__":
    main(sys.argv[1:])
