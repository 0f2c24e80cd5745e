#!/usr/bin/env python3
"""Brings the names of definitions and lemmas to snake case: `dateIs` becomes `date_is`, `hasSign-upper` becomes `has_sign-upper`.

usage: tools/respell.py          at the top of the repository, once, after /opt/rattle/port/port.py
       tools/respell.py --list   the names and what they become, and which of them fall together with another name; changes nothing

A dash joins names and stays; a part that begins with a capital is a type and stays; strings, comments behind `//` and functions of src/ stay as they are
(those are in snake case already). Names in comments follow.
"""

import os
import re
import sys

# Words of comments that are no names, and a name that cites an older word of std.
OTHER = {w: w for w in ("iCalendar", "iCalendar's", "jCal", "jCal's", "xHH")} | {"getD-encoded": "get_or-encoded"}
# Lemmas that would have the name of the definition that they speak of: `leftOut` becomes `left_out`.
LEMMAS = {"first_piece", "items_shown", "left_out", "line_read", "no_items", "not_behind", "number_read", "parts_are", "read_as"}
TOKEN = re.compile(r"(?<![\w'?◌∙-])[a-z][\w'?-]*[\w'?]")
CAMEL = re.compile(r"(?<=[a-z0-9])(?=[A-Z])|(?<=[A-Z])(?=[A-Z][a-z])")


def snake(part):
    return "_".join(w if w[:1].isupper() else CAMEL.sub("_", w).lower() for w in part.split("_"))


def turned(token):
    if token in OTHER:
        return OTHER[token]
    return "-".join(snake(p) for p in token.split("-"))


def files(kinds):
    for folder, dirs, names in os.walk("crates"):
        dirs[:] = sorted(d for d in dirs if d != "out")
        for n in sorted(names):
            if n.endswith(kinds):
                yield os.path.join(folder, n)


def is_camel(token):
    return any(re.search(r"[a-z0-9][A-Z]", p) and p[:1].islower() for p in re.split("[-_]", token))


def pieces(text):
    """The text cut into strings and octets, and what stands between them."""
    return re.split(r"""("(?:[^"\\\n]|\\.)*"|b'(?:[^'\\\n]|\\.)')""", text)


def respelled(text, seen, lemmas=False):
    def one(m):
        t = m.group(0)
        if lemmas and t in LEMMAS:
            return t + "_lem"
        if not is_camel(t):
            return t
        seen.setdefault(t, turned(t))
        return seen[t]
    out = []
    for i, p in enumerate(pieces(text)):
        out.append(p if i % 2 else TOKEN.sub(one, p))
    return "".join(out)


def tokens():
    have = {}
    for f in files((".antt", ".rt")):
        with open(f, encoding="utf-8") as h:
            for i, p in enumerate(pieces(h.read())):
                if i % 2 == 0:
                    for t in re.findall(r"[A-Za-z_][\w'?-]*", p):
                        have.setdefault(t, set()).add(f)
    return have


def main():
    have, seen = tokens(), {}
    if "--list" in sys.argv[1:]:
        for f in files((".antt", ".rt")):
            with open(f, encoding="utf-8") as h:
                respelled(h.read(), seen)
        for t in sorted(seen):
            print(t, seen[t], "" if seen[t] not in have else "STANDS " + " ".join(sorted(have[seen[t]])[:4]))
        return
    for f in files((".antt", ".rt")):
        with open(f, encoding="utf-8") as h:
            old = h.read()
        new = respelled(old, seen, f.endswith(".antt"))
        if new != old:
            with open(f, "w", encoding="utf-8") as h:
                h.write(new)
    print(f"{len(seen)} names")


main()
