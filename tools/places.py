#!/usr/bin/env python3
"""Counts the places of docs/DESIGN-PASS.md: tools/places.py [COMMIT] [-v], of the working tree or of a commit, with -v one line for each place.

1 enums of the shape of Option or Result, by their variants' names; answers and fields that a comment says are a number where there is nothing; parameters and fields that are a type's code or a key's place
2 pairs of functions of one crate, of more than two lines, whose text is the same but for names, numbers and strings
3 loops; of these those whose body counts a variable up by one
4 functions that compare, copy or convert by hand, by their names; matches that only turn one name into another
5 clauses that stand in three or more contracts; pairs of parameters of three or more functions, which always come together
6 structs that have an array and a length
7 numbers that choose a step: matches of four or more numbers
8 answers in proofs, and those that use a name that the check says may change"""
import collections
import re
import subprocess
import sys

args = [a for a in sys.argv[1:] if a != "-v"]
verbose = "-v" in sys.argv[1:]


def run(*words):
    return subprocess.run(words, capture_output=True, text=True, check=True).stdout


if args:
    names = run("git", "ls-tree", "-r", "--name-only", args[0], "crates").splitlines()
    read = lambda f: run("git", "show", f"{args[0]}:{f}")
else:
    names = run("git", "ls-files", "crates").splitlines()
    read = lambda f: open(f).read()
sources = {f: read(f) for f in names if "/src/" in f and f.endswith(".rt")}
answers = {f: read(f) for f in names if "/proofs/" in f and f.endswith(".antt")}


def say(point, what, places):
    print(f"{point}  {len(places):4}  {what}")
    if verbose:
        for p in places:
            print("          ", p)


FAILS = {"NoDate", "Past", "NoRule", "NoMoment", "NotClean", "Faulty", "Refused", "Invalid", "Failed", "Nothing", "Other", "Wrong", "TooDeep", "NotJson", "Unlisted", "NoNumber", "Unsound", "Malformed"}
enums, enum_count = [], 0
for f, s in sources.items():
    for m in re.finditer(r"^\s*(?:pub(?:\(crate\))? )?enum (\w+) \{(.*?)^\s*\}", s, re.M | re.S):
        enum_count += 1
        variants = re.findall(r"^\s*(\w+)", m.group(2), re.M)
        fields = re.findall(r"^\s*\w+\(", m.group(2), re.M)
        if FAILS & set(variants) and m.group(1) != "Refusal" and (fields or len(variants) == 2):
            enums.append(f"{f} {m.group(1)}")
say("1a", f"enums of the shape of Option or Result, of {enum_count} enums", enums)
say("1b", "answers that say in a number that there is nothing", [f"{f}: {l.strip()[:110]}" for f, s in sources.items() for l in s.splitlines() if re.search(r"//.*\b(0|7|14|16|64|NONE) (where|for|if)\b|//.*(: none\)|, or 0\b|, or 16\b|, or NONE\b)|// .*; length 0", l)])
say("1c", "types' codes and keys' places as numbers", [f"{f}: {m.group(0)}" for f, s in sources.items() for m in re.finditer(r"\bcode: u8|\bkey: usize", s)])

functions = []
for f, s in sources.items():
    for m in re.finditer(r"^( *)(?:pub(?:\(crate\))? )?(?:const )?fn (\w+).*?^\1\}", s, re.M | re.S):
        functions.append((f, m.group(2), m.group(0)))
shapes = collections.defaultdict(list)
for f, n, text in functions:
    body = text[text.find("\n") :]
    body = "\n".join(l for l in body.splitlines() if not re.match(r"\s*(requires|ensures|//)", l))
    if body.count("\n") > 3:
        shapes[f.split("/")[1], re.sub(r"\b[a-z_]\w*\b|b?\"[^\"]*\"|b?'[^']*'|\b\d+\b", "_", body)].append(f"{f} {n}")
say("2", "functions that have a twin in their crate", [p for v in shapes.values() if len(v) > 1 for p in v])

loops, counted = [], []
for f, s in sources.items():
    lines = s.splitlines()
    for i, l in enumerate(lines):
        m = re.match(r"^(\s*)(while .*|loop) \{$", l)
        if m:
            j = i + 1
            while not lines[j].startswith(m.group(1) + "}"):
                j += 1
            loops.append(f"{f}:{i + 1} {l.strip()}")
            if re.search(r"\b\w+ \+= 1;", "\n".join(lines[i:j])):
                counted.append(loops[-1])
say("3a", f"loops that are no `for` (and {sum(len(re.findall(r'^ *for ', s, re.M)) for s in sources.values())} that are)", loops)
say("3b", "of these, loops that count a variable up by one", counted)
say("4", "functions that compare, copy or convert by hand", [f"{f} {n}" for f, n, t in functions if re.fullmatch(r"same|same_in|is_same\w*|is_either|is_one_of|at_most|least|copy\w*|is_hourly|is_\w+ly|weekday_place|frequency_of|weekday_named|sort_of|number|word_of", n)])
clauses = collections.defaultdict(list)
pairs = collections.defaultdict(list)
for f, n, t in functions:
    for c in re.findall(r"^\s*requires (.*)$", t, re.M):
        clauses[c].append(f"{f} {n}")
    head = re.match(r"\s*(?:pub(?:\(crate\))? )?(?:const )?fn \w+(?:<[^>]*>)?\((.*?)\)(?: ->|\n| \{)", t, re.S)
    if head:
        ps = [p.strip() for p in re.sub(r"\s+", " ", head.group(1)).split(",") if p.strip()]
        for i in range(len(ps) - 1):
            pairs[ps[i], ps[i + 1]].append(n)
say("5a", "clauses `requires` that stand in three or more contracts", [f"{len(v)} {c}" for c, v in sorted(clauses.items(), key=lambda x: -len(x[1])) if len(v) > 2])
say("5b", "neighbouring parameters of ten or more functions", [f"{len(v)} {a}, {b}" for (a, b), v in sorted(pairs.items(), key=lambda x: -len(x[1])) if len(v) > 9])
say("6", "structs with an array and a length", [f"{f} {m.group(1)}" for f, s in sources.items() for m in re.finditer(r"struct (\w+)[^{;]*\{([^}]*)\}", s) if re.search(r": \[\w+; ", m.group(2)) and re.search(r"\b(len|n|count|end): usize", m.group(2))])
say("7", "matches of four or more numbers", [f"{f} {n}" for f, n, t in functions if len(re.findall(r"^\s*\d+(?:\.\.=\d+)? =>", t, re.M)) > 3])
print(f"8   {sum(len(re.findall(r'^pub [^ ]+ : goal[.]', s, re.M)) for s in answers.values()):4}  answers, in {sum(f.endswith('/Answers.antt') for f in answers)} files; {sum(len(s.splitlines()) for s in answers.values())} lines of proofs")
say("8a", "names that the check says may change", [f"{f}: {w}" for f, s in answers.items() for w in re.findall(r"[\w.-]*(?:true-raw|false-raw|in_default-own|branch-raw)", s)])
