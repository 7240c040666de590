#!/usr/bin/env python3
"""A second look at a corpus of texts (02, ticket 2): where each text stops, by a grammar alone, and what else it gets, by 01's
rules one after the other.

    text_grammar.py CORPUS

The grammar below says which texts can be read, byte by byte. A recogniser for any grammar (Earley's) keeps all that a text may
still become: the text stops at the first byte that none of it goes on with. text_rules.py says what a text that can be read
gets. Both share nothing with texts.rs but the papers. Prints how many entries were compared, and how many differ; entries of
long texts are left out.
"""

import functools
import sys

sys.dont_write_bytecode = True

import text_rules

# Words and signs are in quotation marks; spaces are free before each of them, and one is needed before a word or a number where
# the byte before it is a letter or a digit. `.` is free spaces, `~` what is before a word, `NL` a newline; a rule with `>` is
# one parenthesis deeper, and is left out where that would be the 33rd.
GRAMMAR = """
text       : 'limit' number . NL 'budget' number . NL 'label' ends . NL 'locks' number . NL variables threads last
last       : | NL
variables  : | variables 'var' range . NL
threads    : thread | threads NL thread
thread     : 'thread' . NL registers statements
registers  : | registers 'reg' range . NL
statements : statement . | statements NL statement .
statement  : 'halt' | ends 'skip' | ends register ':=' sum | ends 'if' condition 'goto' number
           | ends 'store' register 'to' variable | ends 'load' register 'from' variable
           | ends 'unlock' lock | ends 'lock' lock
ends       : number '..' number
range      : signed '..' signed
number     : ~ digits
signed     : number | '-' . digits
digits     : DIGIT | digits DIGIT
register   : 'r' digits
variable   : 'x' digits
lock       : 'l' digits
sum        : product | sum '+' product | sum '-' product
product    : operand | product '*' operand | product '/' operand
operand    : signed | register | '(' sum> ')'
condition  : negation | condition '&&' negation
negation   : '!' negation | 'true' | 'false' | sum '==' sum | sum '<' sum | '(' condition> ')'
"""
DEEPEST = 32
LONGEST = 3000
DIGITS = frozenset(b"0123456789")
OF_WORDS = frozenset(b"0123456789abcdefghijklmnopqrstuvwxyzABCDEFGHIJKLMNOPQRSTUVWXYZ")
SPACE, NEWLINE = frozenset(b" "), frozenset(b"\n")
SPACES, BEFORE_WORD = ("spaces", 0), ("before a word", 0)


def rules():
    """The forms of each name, each form as its words."""
    found = {}
    name = None
    for line in GRAMMAR.strip().split("\n"):
        head, _, forms = line.partition(":") if line[0] != " " else (name, "", line.strip()[1:])
        name = head.strip()
        found.setdefault(name, []).extend(form.split() for form in forms.split(" | "))
    return found


RULES = rules()


def symbols(word, depth):
    """What a word of the grammar stands for: sets of bytes, and names with the depth of parentheses."""
    if word in (".", "~"):
        return (SPACES if word == "." else BEFORE_WORD,)
    if word in ("NL", "DIGIT"):
        return (NEWLINE if word == "NL" else DIGITS,)
    if word[0] == "'":
        literal = word[1:-1].encode()
        return (BEFORE_WORD if literal[0] in OF_WORDS else SPACES, *(frozenset([byte]) for byte in literal))
    return ((word.rstrip(">"), depth + word.endswith(">")),)


@functools.lru_cache(None)
def forms(name, depth):
    """The forms of a name at this depth."""
    if name == "spaces":
        return (), (SPACES, SPACE)
    return tuple(sum((symbols(word, depth) for word in form), ()) for form in RULES[name]
                 if depth < DEEPEST or not any(word.endswith(">") for word in form))


class State:
    """All that a text may still become behind one of its bytes. An item is a name, a form of it, how much of that form has been
    met, and where the name began."""

    def __init__(self, items, before, states):
        self.waiting, self.next, self.is_whole = {}, {}, False
        seen, todo, empty, place = set(), list(items), set(), len(states)
        while todo:
            item = todo.pop()
            if item in seen:
                continue
            seen.add(item)
            name, form, met, start = item
            if met == len(form):
                self.is_whole |= name == ("text", 0)
                if start == place:
                    empty.add(name)
                waiting = self.waiting if start == place else states[start].waiting
                todo += [(one, parts, at + 1, begun) for one, parts, at, begun in waiting.get(name, ())]
            elif isinstance(form[met], frozenset):
                for byte in form[met]:
                    self.next.setdefault(byte, []).append((name, form, met + 1, start))
            elif form[met] == BEFORE_WORD:
                gap = (SPACE, SPACES) if before in OF_WORDS else (SPACES,)
                todo.append((name, form[:met] + gap + form[met + 1:], met, start))
            else:
                if form[met] not in self.waiting:
                    todo += [(form[met], parts, 0, place) for parts in forms(*form[met])]
                self.waiting.setdefault(form[met], []).append(item)
                if form[met] in empty:
                    todo.append((name, form, met + 1, start))


def stops(texts):
    """For each text the place where it stops, None if it can be read. States are shared by texts that begin alike."""
    found, states, last = {}, [], b""
    states.append(State([(("text", 0), form, 0, 0) for form in forms("text", 0)], None, states))
    for text in sorted(set(texts)):
        alike = next((at for at, (one, other) in enumerate(zip(text, last)) if one != other), min(len(text), len(last)))
        del states[alike + 1:]
        while len(states) <= len(text):
            byte = text[len(states) - 1]
            if byte not in states[-1].next:
                break
            states.append(State(states[-1].next[byte], byte, states))
        is_read = len(states) > len(text) and states[-1].is_whole
        found[text] = None if is_read else min(len(states) - 1, len(text))
        last = text
    return found


def entries(corpus):
    """Text, refusal, place, length written and output of each entry that nothing is planted in."""
    at = 4
    for _ in range(int.from_bytes(corpus[:4], "big")):
        length, room = (int.from_bytes(corpus[at + start:at + start + 4], "big") for start in (1, 5))
        place, written = (int.from_bytes(corpus[at + start:at + start + 4], "big") for start in (10, 14))
        middle = at + 18 + length
        if corpus[at] == 0:
            yield corpus[at + 18:middle], corpus[at + 9], place, written, corpus[middle:middle + room]
        at = middle + room


def main(arguments):
    if len(arguments) != 1:
        sys.exit("usage: text_grammar.py CORPUS")
    with open(arguments[0], "rb") as file:
        corpus = [entry for entry in entries(file.read()) if len(entry[0]) <= LONGEST]
    places = stops(entry[0] for entry in corpus)
    differ = 0
    for text, *stated in corpus:
        place, room = places[text], len(stated[3])
        refusal, place, sheet = (20, place, b"") if place is not None else text_rules.converted(text, room)
        given = [refusal, place, len(sheet), sheet.ljust(room, b"\0")]
        if given != stated:
            differ += 1
            print(text, "stated", *stated[:3], "given", *given[:3])
    print(f"{len(corpus)} texts compared, {sum(place is None for place in places.values())} of them can be read, {differ} differ")
    sys.exit(differ > 0)


if __name__ == "__main__":
    main(sys.argv[1:])
