#!/usr/bin/env python3
"""Shows other calendar libraries beside this one: the speed of each on an ordinary calendar, and what comes back of single lines.

usage: bench/peers/run.py [ICAL.JS]

The library is built by `rt lib` in crates/ffi. libical is shown where its headers are installed, icalendar where this Python has it, ical.js where its
file, one ES module, is named. Medians of 60 calls; MB/s are of the octets read.
"""
import os
import statistics
import subprocess
import sys
import time

HERE = os.path.dirname(os.path.abspath(__file__))
ROOT = os.path.dirname(os.path.dirname(HERE))
OUT = os.path.join(ROOT, "target", "peers")
LINES = ["DTSTART;VALUE=DATE:20230229", "DURATION:PT1H30S", "PRIORITY:2147483648", "TZOFFSETTO:-0000", "SUMMARY:a;b", "X-NOTE:a\\,b;c", "no colon"]


def ordinary(events):
    """A calendar of so many events with the usual properties."""
    text = "BEGIN:VCALENDAR\r\nVERSION:2.0\r\nPRODID:-//Market//Office//EN\r\n"
    for k in range(1, events + 1):
        text += (
            f"BEGIN:VEVENT\r\nUID:stop-{k}@market.example\r\nDTSTAMP:20240115T120000Z\r\nDTSTART;TZID=Europe/Berlin:202402{k % 28 + 1:02}T060000\r\n"
            f"DURATION:PT1H30M\r\nSUMMARY:Loading at ramp {k}\\, gate B\r\nLOCATION;LANGUAGE=en:Ramp {k} the long\r\n  side\r\n"
            f"RRULE:FREQ=DAILY;INTERVAL=2;COUNT=10\r\nSEQUENCE:{k}\r\nEND:VEVENT\r\n"
        )
    return text + "END:VCALENDAR\r\n"


def in_event(line):
    return f"BEGIN:VCALENDAR\r\nBEGIN:VEVENT\r\n{line}\r\nEND:VEVENT\r\nEND:VCALENDAR\r\n"


def between(text):
    """What stands in the event of a calendar that came back."""
    return " ".join(l for l in text.splitlines() if not l.startswith(("BEGIN:", "END:"))) or "nothing"


def median(job):
    times = []
    for _ in range(60):
        start = time.perf_counter()
        job()
        times.append(time.perf_counter() - start)
    return statistics.median(times)


def icalendar(calendar, inputs):
    """The answers of Python's icalendar, as the other programs print them."""
    from icalendar import Calendar

    tree = Calendar.from_ical(calendar)
    speeds = [len(calendar) / median(lambda: Calendar.from_ical(calendar)) / 1e6, len(tree.to_ical()) / median(tree.to_ical) / 1e6]
    answers = []
    for text in inputs:
        try:
            answers.append(Calendar.from_ical(text).to_ical().decode())
        except ValueError:
            answers.append("refused")
    return speeds, answers


def program(words):
    """The answers of a program: two speeds in a line, then what came back of each input, ended by a NUL."""
    head, rest = subprocess.run(words, check=True, capture_output=True, text=True).stdout.split("\n", 1)
    return [float(x) for x in head.split()], rest.split("\0")[:-1]


def compiled(name, words):
    path = os.path.join(OUT, name)
    subprocess.run(["cc", "-O2", os.path.join(HERE, name + ".c"), "-o", path] + words, check=True, stderr=subprocess.DEVNULL)
    return path


def main():
    os.makedirs(OUT, exist_ok=True)
    subprocess.run(["rt", "lib"], cwd=os.path.join(ROOT, "crates/ffi"), check=True, stdout=subprocess.DEVNULL)
    files = [os.path.join(OUT, str(i)) for i in range(len(LINES) + 1)]
    texts = [ordinary(120)] + [in_event(line) for line in LINES]
    for path, text in zip(files, texts):
        with open(path, "w", newline="", encoding="utf-8") as f:
            f.write(text)
    jobs = {
        "this library": lambda: program([compiled("putrenski", ["-I", os.path.join(ROOT, "bindings/c"), "-L", os.path.join(ROOT, "crates/ffi/out"), "-lffi"])] + files),
        "libical": lambda: program([compiled("libical", ["-lical"])] + files),
        "icalendar": lambda: icalendar(texts[0], texts[1:]),
    }
    if len(sys.argv) > 1:
        jobs["ical.js"] = lambda: program(["node", os.path.join(HERE, "icaljs.mjs"), os.path.abspath(sys.argv[1])] + files)
    found = {}
    for name, job in jobs.items():
        try:
            found[name] = job()
        except (ImportError, OSError, subprocess.CalledProcessError):
            print(f"{name} is not here", file=sys.stderr)
    print("| | reads, MB/s | writes, MB/s |\n|---|---|---|")
    for name, (speeds, _) in found.items():
        print(f"| {name} | {speeds[0]:.1f} | {speeds[1]:.1f} |")
    print("\n| sent | " + " | ".join(found) + " |\n|---" + "|---" * len(found) + "|")
    for i, line in enumerate(LINES):
        print(f"| `{line}` | " + " | ".join(f"`{a if a.startswith('refused') else between(a)}`" for a in (answers[i] for _, answers in found.values())) + " |")


main()
