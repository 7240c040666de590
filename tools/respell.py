#!/usr/bin/env python3
"""Brings this repository's own antt names to the spelling of the library: words in snake case.

usage: respell.py [FOLDER]        FOLDER holds crates/, README.md and docs/ (default: the current one)

Two rules, for every name that this repository declares and the library does not:
- a word in camel case becomes snake case: atFront -> at_front, leZ-of -> le_z-of. Types and modules keep theirs.
- a dash in a name of specs/, or in a field or a constructor, becomes an underscore. In lemmas the dash stays, as in the library.
It writes .antt, .rt, .edit and the pages of docs/ in place, and prints a line 'look:' where something else has the new name already.
Run once, in the port (docs/PORT.md); a second run changes nothing.
"""
import os
import re
import sys

TOKEN = re.compile(r"[\w'₀-₉◌]+(?:-[\w'₀-₉◌]+)*")
CAMEL = re.compile(r"[a-z][a-z0-9]*(?:_[a-z0-9]+)*(?:_?[A-Z][a-z0-9]*)+")
# Names of the library, which keep theirs.
LIBRARY = set("uint_Makes shr_slice_Tells shr_slice_Lawful walk_Meets uint_Tells uint_Lawful shr_Tells mut_Tells".split())
DECLARES = re.compile(r"^(?:abbrev |unfoldable |opaque )?(?:pub )?(?:data |record )?([^\s:(){}]+)\s")
FIELD = re.compile(r"^\s+(?:pub )?([^\s:(){}]+) :(?:\s|$)")


# A lemma, a field or a constructor that would have a definition's name ends in _lem, as in the library: in every crate, or in those named.
LEMMAS = {
    "at_field": "recorded",
    "both_of": "",
    "go_on": "text",
    "has_body": "rules",
    "is_digit": "printed",
    "is_field": "mended",
    "left_in": "rules",
    "no_join": "",
    "no_result": "",
    "no_sign": "",
    "pair_fits": "",
    "pair_place": "",
    "part_in": "",
    "range_at": "rules",
    "refused_as": "",
    "taken_back": "",
    "target_fits": "text",
    "too_long": "",
    "value_in": "",
}


def snake(word):
    return re.sub(r"_?([A-Z])", lambda m: "_" + m.group(1).lower(), word)


def by_words(token):
    if token in LIBRARY:
        return token
    return "-".join(snake(w) if CAMEL.fullmatch(w) and w not in LIBRARY else w for w in token.split("-"))


def files(root, *endings):
    for folder, inner, names in os.walk(os.path.join(root, "crates")):
        inner[:] = sorted(d for d in inner if d != "out")
        for name in sorted(names):
            if name.endswith(endings):
                yield os.path.join(folder, name)


def text_of(path):
    with open(path, encoding="utf-8") as f:
        return f.read()


def declared(root):
    """The names with a dash that specs/ declares, and those of fields and constructors anywhere."""
    out = set()
    for path in files(root, ".antt"):
        inside = False
        for line in text_of(path).split("\n"):
            if re.match(r"(?:pub )?(?:data|record) ", line):
                inside = True
            elif line and not line[0].isspace() and not line.startswith("--"):
                inside = False
            if "/specs/" in path and line and not line[0].isspace():
                found = DECLARES.match(line)
            else:
                found = FIELD.match(line) if inside else None
            if found and "-" in found.group(1) and re.search(r"\w-\w", found.group(1)):
                out.add(found.group(1))
    return out


def main(root):
    dashed = declared(root)
    tokens = set()
    for path in files(root, ".antt", ".rt"):
        tokens |= set(TOKEN.findall(text_of(path)))
    turned = {t: by_words(t) for t in tokens if by_words(t) != t}
    words = set(turned.values())
    for t in sorted(tokens & dashed):
        new = by_words(t).replace("-", "_")
        turned[t] = new + "_lem" if new in words else new
    for t, n in sorted(turned.items()):
        if n in tokens and n not in LEMMAS:
            print(f"look: {t} -> {n}: a function of src/, a label or a goal has that name")
    lemmas = {t for t in LEMMAS if t in tokens and t in words}
    if "--list" in sys.argv:
        for t in sorted(turned):
            print(t, turned[t])
        return 0
    names = turned
    pages = [os.path.join(root, "README.md")] + [os.path.join(d, f) for d, _, fs in os.walk(os.path.join(root, "docs")) for f in fs if f.endswith(".md")]
    changed = 0
    for path in list(files(root, ".antt", ".rt", ".edit")) + [p for p in pages if os.path.exists(p)]:
        text = text_of(path)
        crate = path[len(root):].strip("/").split("/")[1:2]
        here = {t: t + "_lem" for t in lemmas if path.endswith((".antt", ".edit")) and LEMMAS[t] in ("", *crate)}
        turned = {**names, **here}

        def turn(m):
            t = m.group()
            if path.endswith(".md") and "-" in t and not re.search(r"`[^`\n]*$", text[max(0, m.start() - 80):m.start()].split("\n")[-1]):
                return t
            return turned.get(t, t)

        if path.endswith((".antt", ".rt")):
            # in comments a name with a dash may be a word of English: only those in backticks are turned
            out = []
            for line in text.split("\n"):
                mark = "--" if path.endswith(".antt") else "//"
                at = 0 if line.lstrip().startswith(mark) else line.find(" " + mark + " ")
                code, comment = (line, "") if at < 0 else (line[:at], line[at:])
                code = TOKEN.sub(lambda m: turned.get(m.group(), m.group()), code)
                comment = TOKEN.sub(lambda m: m.group() if "-" in m.group() else turned.get(m.group(), m.group()), comment)
                comment = re.sub(r"`[^`]*`", lambda q: TOKEN.sub(lambda m: turned.get(m.group(), m.group()), q.group()), comment)
                out.append(code + comment)
            new = "\n".join(out)
        else:
            new = TOKEN.sub(turn, text)
        if new != text:
            with open(path, "w", encoding="utf-8") as f:
                f.write(new)
            changed += 1
    print(f"respell: {len(turned)} names, {changed} files")
    return 0


if __name__ == "__main__":
    raise SystemExit(main([a for a in sys.argv[1:] if not a.startswith("-")][0] if [a for a in sys.argv[1:] if not a.startswith("-")] else "."))
