#!/usr/bin/env python3
"""Holds the definitions in specs/ to vectors: one computed equation a vector, checked in a scratch repository outside this one.

usage: tools/vectors.py [--jobs N] [--most OCTETS] FOLDER..

A FOLDER has cases NAME.ics (to jCal), NAME.json (to iCalendar) or NAME.txt (a stop list: start, rule, most stops), or the input of a program as
tojcal_NAME.in, tocal_NAME.in or stops_NAME.in; each with NAME.out, what it must give, and perhaps NAME.rows, the content of rows.hex. Inputs longer
than --most octets (default 6000) are left out and counted, and so are inputs of other programs.
An equation that takes too many steps to compute, as a rule that nobody meets up to the year 9999, is named and counted apart.
The last line counts the equations; the exit status is 1 where one does not hold.
"""
import argparse
import concurrent.futures
import glob
import os
import re
import shutil
import subprocess
import sys
import tempfile

ROOT = os.path.dirname(os.path.dirname(os.path.abspath(__file__)))
BATCH_OCTETS = 30000
HEAD = """use Rattle.std.specs.Prelude.{ℕ, ◌≡◌, List, [], ◌∷◌, map}
use Rattle.std.proofs.Common.{refl}
use Rattle.octets.specs.Answers.{Answer, refused, accepted}
use Rattle.calendar.specs.declared.moments.Kind.{Kind}
use Rattle.calendar.specs.declared.moments.Kind.TheVariants.{Day, Local, Utc}
use Rattle.calendar.specs.declared.moments.Moment.{Moment}
use Rattle.stop_list.specs.declared.Stop.{Stop}
use Rattle.stop_list.specs.Stops.{list_of}
use Rattle.conversion_theory.specs.ToJcal.{to_jcal}
use Rattle.conversion_theory.specs.ToIcal.{to_ical}

abbrev kind_number : Kind → ℕ
kind_number Day = 0
kind_number Local = 1
kind_number Utc = 2

abbrev numbers : Stop → List ℕ
numbers s = s.moment.date.year ∷ s.moment.date.month ∷ s.moment.date.day ∷ s.moment.hour ∷ s.moment.minute ∷ s.moment.second ∷ kind_number s.moment.kind ∷ []

abbrev listed : Answer (List Stop) → Answer (List (List ℕ))
listed (refused n) = refused n
listed (accepted ss) = accepted (map numbers ss)
"""


def names():
    """Every definition that can be opened, as CRATE.specs.MODULE.NAME."""
    out = []
    crates = [l.split(":")[0].strip() for l in needed()]
    for path in sorted(p for c in crates for p in glob.glob(os.path.join(ROOT, "crates", c, "specs/*.antt"))):
        crate, module = path.split(os.sep)[-3], os.path.basename(path)[:-5]
        block = False
        for line in open(path, encoding="utf-8"):
            found = re.match(r"unfoldable pub (\S+) ", line) or (block and re.match(r"  pub (\S+) :", line))
            block = line.startswith("unfoldable mutual") or (block and (line.startswith(" ") or not line.strip()))
            if found:
                out.append("Rattle.%s.specs.%s.%s" % (crate, module, found.group(1)))
    return out


JOBS = {".ics": "tojcal", ".json": "tocal", ".txt": "stops"}


def job(path):
    """The program that a case is for; None where it is none of the three."""
    stem, kind = os.path.splitext(path)
    return JOBS.get(kind) or next((j for j in JOBS.values() if kind == ".in" and os.path.basename(stem).startswith(j + "_")), None)


def octets(data):
    return "(%s)" % " ∷ ".join([str(b) for b in data] + ["[]"])


def stops_wanted(out):
    """The stops that the program printed, as numbers; None where it answers before the list does."""
    if out.startswith(b"refused"):
        return "refused %d" % int(out.split()[1])
    if not out.startswith(b"stops"):
        return None
    rows = []
    for line in out.decode().splitlines()[1:]:
        text = line.split()[1]
        g = re.match(r"(\d{4})-(\d\d)-(\d\d)(?:T(\d\d):(\d\d):(\d\d)(Z?))?$", text)
        numbers = [int(x or 0) for x in g.groups()[:6]] + [2 if g.group(7) else 1 if g.group(4) else 0]
        rows.append(octets(numbers))
    return "accepted (%s)" % " ∷ ".join(rows + ["[]"])


def equation(path):
    """The equation of a case, and how many octets it holds; None where there is none to state."""
    stem = os.path.splitext(path)[0]
    data = open(path, "rb").read()
    rows = open(stem + ".rows", "rb").read() if os.path.exists(stem + ".rows") else b""
    out = open(stem + ".out", "rb").read()
    refusal = re.match(rb"refused (\d+)\n$", out)
    want = "refused %d" % int(refusal.group(1)) if refusal else "accepted %s" % octets(out)
    if job(path) == "stops":
        lines = re.split(rb"\r?\n", data)
        want = stops_wanted(out)
        if want is None:
            return None
        return "listed (list_of %s %s %d) ≡ %s" % (octets(lines[0]), octets(lines[1]), int(lines[2]), want), len(data)
    run = "to_jcal" if job(path) == "tojcal" else "to_ical"
    return "%s %s %s ≡ %s" % (run, octets(rows), octets(data), want), len(data) + len(out)


def scratch():
    """A repository with the definitions alone and an empty crate for the equations."""
    top = tempfile.mkdtemp(prefix="vectors-")
    lines = needed()
    for line in lines:
        crate = line.split(":")[0].strip()
        shutil.copytree(os.path.join(ROOT, "crates", crate, "specs"), os.path.join(top, "crates", crate, "specs"))
        shutil.copytree(os.path.join(ROOT, "crates", crate, "src"), os.path.join(top, "crates", crate, "src"))
    for code in glob.glob(os.path.join(top, "crates/*/src/*.rt")):
        strip(code)
    with open(os.path.join(top, "crates.txt"), "w", encoding="utf-8") as f:
        f.writelines(lines + ["vectors: %s\n" % " ".join(l.split(":")[0].strip() for l in lines)])
    os.makedirs(os.path.join(top, "crates/vectors/specs"))
    os.makedirs(os.path.join(top, "crates/vectors/src"))
    with open(os.path.join(top, "crates/vectors/src/lib.rt"), "w") as f:
        f.write("// Vectors.\n#![tactic(auto)]\n")
    with open(os.path.join(top, "crates/vectors/specs/Lib.antt"), "w") as f:
        f.write("pub mod Cases\n")
    return top


def check(top, cases, opened):
    """Checks one batch in the scratch repository; the names of the cases that fail, and of those that take too many steps."""
    text = [HEAD]
    for i, (name, claim) in enumerate(cases):
        text.append("-- %s\ncase%d : %s\nunfolding %s\ncase%d = refl\n" % (name, i, claim, " ".join(opened), i))
    with open(os.path.join(top, "crates/vectors/specs/Cases.antt"), "w", encoding="utf-8") as f:
        f.write("\n".join(text))
    run = subprocess.run(["rt", "check"], cwd=os.path.join(top, "crates/vectors"), stdout=subprocess.PIPE, stderr=subprocess.STDOUT)
    log = run.stdout.decode("utf-8", "replace")
    errors = re.findall(r"error: `case(\d+)`(.*)", log)
    bad = sorted({cases[int(n)][0] for n, why in errors if "step limit" not in why})
    long = sorted({cases[int(n)][0] for n, why in errors if "step limit" in why})
    if run.returncode and not errors:
        bad = ["a batch from %s on: %s" % (cases[0][0], log[-800:])]
    return bad, long


def worker(jobs, opened):
    """Takes batches until none is left."""
    top, failed, long = scratch(), [], []
    try:
        while True:
            try:
                batch = jobs.pop()
            except IndexError:
                return failed, long
            found = check(top, batch, opened)
            failed += found[0]
            long += found[1]
    finally:
        shutil.rmtree(top, ignore_errors=True)


def needed():
    """The lines of crates.txt that the two conversions and the stop list stand on, theirs included."""
    lines = [l for l in open(os.path.join(ROOT, "crates.txt"), encoding="utf-8") if l.split("#")[0].strip()]
    under = {l.split(":")[0].strip(): l.split(":")[1].split() for l in lines}
    wanted = set()
    todo = ["conversion_theory", "stop_list"]
    while todo:
        crate = todo.pop()
        if crate not in wanted:
            wanted.add(crate)
            todo += under[crate]
    return [l for l in lines if l.split(":")[0].strip() in wanted]


def types_alone(item):
    """An item, or of a `use` what it names of types; None where it names none."""
    found = re.match(r"(?s)((?:pub )?use (?:\w+::)+)(?:\{(.*)\}|(\w+));$", item)
    if not found:
        return item
    named = [n for n in re.findall(r"\w+", found.group(2) or found.group(3)) if n == "self" or re.match(r"[A-Z]\w*[a-z]", n)]
    return "%s{%s};" % (found.group(1), ", ".join(named)) if named else None


def strip(path):
    """Leaves the types of a source file, which definitions cite, with what their fields and names stand on, and takes its functions away."""
    text = open(path, encoding="utf-8").read()
    types = r"^(?:pub(?:\(crate\))? )?(?:(?:struct|enum) \w+ \{.*?^\}|struct \w+;|type \w[^\n]*;)$"
    kept = re.findall(r"(?ms)%s|^(?:pub )?mod \w+;$|^(?:pub |ghost )?use [^;]*;$" % types, text)
    kept = [k for k in map(types_alone, kept) if k]
    open(path, "w", encoding="utf-8").write("// Types.\n" + ("#![tactic(auto)]\n" if path.endswith("lib.rt") else "") + "\n".join(kept) + "\n")


def main():
    args = argparse.ArgumentParser(description=__doc__, formatter_class=argparse.RawDescriptionHelpFormatter)
    args.add_argument("--jobs", type=int, default=2)
    args.add_argument("--most", type=int, default=6000)
    args.add_argument("folders", nargs="+")
    args = args.parse_args()
    jobs, batch, size, left_out, total = [], [], 0, 0, 0
    for folder in args.folders:
        for path in sorted(p for k in ("ics", "json", "txt", "in") for p in glob.glob(os.path.join(folder, "*." + k))):
            if not os.path.exists(os.path.splitext(path)[0] + ".out"):
                continue
            if job(path) is None or os.path.getsize(path) > args.most:
                left_out += 1
                continue
            found = equation(path)
            if found is None:
                continue
            batch.append((path, found[0]))
            size += found[1]
            total += 1
            if size > BATCH_OCTETS or len(batch) >= 60:
                jobs.append(batch)
                batch, size = [], 0
    jobs += [batch] if batch else []
    opened = names()
    with concurrent.futures.ThreadPoolExecutor(args.jobs) as pool:
        found = [w.result() for w in [pool.submit(worker, jobs, opened) for _ in range(args.jobs)]]
    failed, long = (sum((f[i] for f in found), []) for i in (0, 1))
    for word, names_of in (("DIFFERS", failed), ("TOO LONG", long)):
        for name in names_of:
            print(word, name)
    print("%d equations, %d differ, %d too long to compute, %d inputs left out" % (total, len(failed), len(long), left_out))
    sys.exit(1 if failed else 0)


main()
