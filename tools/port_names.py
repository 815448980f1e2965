#!/usr/bin/env python3
"""Brings this repository's definitions and lemmas to the spelling of today's Rattle: words in snake case (readField is read_field).

usage: python3 tools/port_names.py        at the top, once, after port.py: rewrites crates/ in place
       python3 tools/port_names.py look   writes nothing; lists what would fall together in a file

port.py respells the names that the library had too; this is for the rest. In proof files, and in the clauses and comments of
src/, a part of a name (names are joined by dashes) that begins in lower case and has a capital is turned, unless the library has
it in that spelling. Names of src/ are in snake case already, and strings keep theirs.
"""

import os
import re
import sys

TOKEN = re.compile(r"[A-Za-z_0-9'\u0080-\uffff-]+")
WORD = re.compile(r"^[a-z][a-z0-9']*(?:[A-Z][a-z0-9']*)+$")
# `getD` left in the name of a lemma; the library calls it get_or.
SAME = {"getD": "get_or"}
# Lemmas that port.py turned to the very name that a word takes here (bitIn is bit_in): they keep their dash.
DASHED = {"bit_in": "bit-in", "but_last": "but-last", "runs_of": "runs-of"}
# A test that was spelled as a fact.
WHOLE = {"Ends": "ends"}
STRING = re.compile(r'"(?:[^"\\\n]|\\.)*"')


def turned_part(part):
    if part in SAME:
        return SAME[part]
    if not WORD.match(part):
        return part
    return re.sub(r"[A-Z]", lambda m: "_" + m.group().lower(), part)


def turned(token):
    if token in DASHED:
        return DASHED[token]
    if token in WHOLE:
        return WHOLE[token]
    return "-".join(turned_part(part) for part in token.split("-"))


def turn_text(text):
    return TOKEN.sub(lambda m: turned(m.group()), text)


def turn_source(line):
    """A line of src/: outside strings, of which a comment has none."""
    code = line.find("//")
    head, tail = (line, "") if code < 0 else (line[:code], line[code:])
    out, at = [], 0
    for m in STRING.finditer(head):
        out += [turn_text(head[at : m.start()]), m.group()]
        at = m.end()
    return "".join(out) + turn_text(head[at:]) + turn_text(tail)


def files():
    for folder, dirs, names in os.walk("crates"):
        dirs[:] = sorted(d for d in dirs if d not in ("out", "must-fail"))
        for name in sorted(names):
            if name.endswith((".antt", ".rt")):
                yield os.path.join(folder, name)


def main(argv):
    look = argv == ["look"]
    if argv and not look or not os.path.isdir("crates"):
        print(__doc__)
        return 2
    changed = 0
    for path in files():
        with open(path, encoding="utf-8") as f:
            text = f.read()
        if path.endswith(".antt"):
            new = turn_text(text)
        else:
            new = "".join(turn_source(line) for line in text.splitlines(keepends=True))
        if look:
            had = set(TOKEN.findall(text))
            for token in sorted(had):
                if turned(token) != token and turned(token) in had:
                    print(f"{path}: {token} falls together with {turned(token)}")
        elif new != text:
            changed += 1
            with open(path, "w", encoding="utf-8") as f:
                f.write(new)
    if not look:
        print(f"port_names: {changed} files")
    return 0


if __name__ == "__main__":
    raise SystemExit(main(sys.argv[1:]))
