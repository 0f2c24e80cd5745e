#!/usr/bin/env python3
"""Finds the modules of definitions that the promises rest on, by their imports, and holds the lists of them to it.

usage: tools/believed.py [--write]

Each crate's specs/Lib.antt lists its modules under two comments, the meaning and what functions of the code promise, and docs/PROMISES.md has the
modules of the first kind. Without --write, what is out of place is printed and the exit status is 1; with it, each Lib.antt is set in order.
"""
import os
import re
import sys

ROOT = os.path.dirname(os.path.dirname(os.path.abspath(__file__)))
MEANING = "-- The meaning, which the promises rest on."
INNER = "-- What functions of the code promise."
# the modules that the contracts of the entry points, the claims and the cases name
PROMISED = ["conversion_theory.ToJcal", "conversion_theory.ToIcal", "conversion_theory.Written", "conversion_theory.Claim", "octets.Answers", "octets.Pen",
            "stop_list.Stops", "stops_page.Printing", "ffi.Words", "proved_cases.Cases", "proved_cases.Ages"]


def read(*parts):
    with open(os.path.join(ROOT, *parts), encoding="utf-8") as f:
        return f.read()


def crates():
    lines = [l.split("#")[0].strip() for l in read("crates.txt").splitlines()]
    names = [l.split(":")[0].split()[0] for l in lines if l]
    return [c for c in names if os.path.exists(os.path.join(ROOT, "crates", c, "specs", "Lib.antt"))]


def imported(module):
    crate, name = module.split(".")
    text = read("crates", crate, "specs", name + ".antt")
    return {"%s.%s" % (c, m) for c, m in re.findall(r"(?m)^use Rattle\.(\w+)\.specs\.(\w+)", text) if c != "std" and m != "declared"}


def reached():
    found, todo = set(), list(PROMISED)
    while todo:
        module = todo.pop()
        if module not in found:
            found.add(module)
            todo += imported(module)
    return found


def main():
    believed, faults = reached(), 0
    table = dict(re.findall(r"(?m)^\| `(\w+)` \| ([A-Z][\w, ]*?)(?:,? (?:which|for) .*)? \|$", read("docs", "PROMISES.md")))
    for crate in crates():
        lib = read("crates", crate, "specs", "Lib.antt")
        modules = re.findall(r"(?m)^pub mod (\w+)$", lib)
        kinds = [[m for m in modules if ("%s.%s" % (crate, m) in believed) == kind] for kind in (True, False)]
        parts = [comment + "\n" + "".join("pub mod %s\n" % m for m in ms) for comment, ms in zip((MEANING, INNER), kinds) if ms]
        if lib != "".join(parts):
            faults += 1
            print("crates/%s/specs/Lib.antt is not in order" % crate)
            if "--write" in sys.argv[1:]:
                with open(os.path.join(ROOT, "crates", crate, "specs", "Lib.antt"), "w", encoding="utf-8") as f:
                    f.write("".join(parts))
        if kinds[0] and sorted(table.get(crate, "").split(", ")) != sorted(kinds[0]):
            faults += 1
            print("docs/PROMISES.md should have | `%s` | %s |" % (crate, ", ".join(kinds[0])))
    print("%d modules must be believed, of %d" % (len(believed), sum(len(re.findall(r"(?m)^pub mod", read("crates", c, "specs", "Lib.antt"))) for c in crates())))
    sys.exit(1 if faults else 0)


main()
