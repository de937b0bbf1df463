#!/usr/bin/env python3
"""The office at work as its users run it: threads call through one office, and what they did is replayed; a full disk, a reader
that goes away, words that it does not know. Each case has a line; the first that fails ends it with status 1.

    check/office.py OFFICE_DEMO MARKET      as check/office.py crates/office_demo/out/office_demo crates/market/out/market
"""
import os
import re
import subprocess
import sys
import tempfile

# So many entries wait at most to be written: a journal of more than twice as many was cut out again and again while the callers called.
PLACES = 65_536


def due(what, found, wanted):
    if found != wanted:
        sys.exit(f"{what}: {found!r}, due {wanted!r}")
    print(f"{what}: ok")


def numbers(text, form):
    found = re.fullmatch(form, text)
    if found is None:
        sys.exit(f"{text!r} is not of the form {form!r}")
    return [int(number) for number in found.groups()]


def replayed(demo, market, words):
    """What standard error of the demo says, the verdict of its journal, and the journal's first line."""
    with tempfile.TemporaryFile() as journal:
        made = subprocess.run([demo, *words], stdout=journal, stderr=subprocess.PIPE, text=True, timeout=120)
        due(f"{' '.join(words)} ends well", made.returncode, 0)
        journal.seek(0)
        verdict = subprocess.run([market, "replay"], stdin=journal, capture_output=True, text=True, timeout=600)
        journal.seek(0)
        return made.stderr, verdict.stdout, journal.readline().decode()


def meets(demo, market):
    for callers, calls in ((1, 1_000), (4, 1_000), (64, 500)):
        told, verdict, _ = replayed(demo, market, [str(callers), str(calls)])
        answered, _, agreeing, of = numbers(told, r"(\d+) calls answered, (\d+) workers placed\n(\d+) of (\d+) callers find .*\n")
        due("each call was answered", answered, callers * calls)
        due("each caller finds its own calls", (agreeing, of), (callers, callers))
        due("the journal is legal", verdict, f"legal {answered}\n")


def lasts(demo, market):
    for callers in (1, 4, 63):
        told, verdict, header = replayed(demo, market, ["--forever", "1", str(callers), "--journal"])
        answered = int(re.match(r"(\d+) calls", told).group(1))
        due("it was cut out again and again", answered > 3 * PLACES, True)
        due("the journal is legal from its first entry to its last", verdict, f"legal {answered}\n")
        due("who writes it has a seat too", re.search(r'"seats":(\d+)', header).group(1), str(callers + 1))


def keeps_nothing(demo):
    found = subprocess.run([demo, "--forever", "2", "4"], capture_output=True, text=True, timeout=60)
    due("without --journal nothing is written", (found.stdout, found.returncode), ("", 0))
    quarter, end = map(int, re.search(r"(\d+) kB of memory at a quarter of the time, (\d+) kB", found.stderr).groups())
    due("the memory stays as it is", end <= quarter + 512, True)


def fills_a_disk(demo):
    for words in (["2", "100"], ["--forever", "1", "2", "--journal"]):
        with open("/dev/full", "wb") as full:
            found = subprocess.run([demo, *words], stdout=full, stderr=subprocess.PIPE, text=True, timeout=60)
        due(f"{' '.join(words)} to a full disk ends with a write fault", (found.stderr, found.returncode), ("write fault\n", 3))


def closes_its_pipe(demo):
    child = subprocess.Popen([demo, "--forever", "20", "2", "--journal"], stdout=subprocess.PIPE, stderr=subprocess.PIPE, text=True)
    child.stdout.readline()
    child.stdout.close()
    told = child.stderr.read()
    due("a journal whose reader goes away ends at once with a write fault", (told, child.wait(timeout=10)), ("write fault\n", 3))


def refuses_words(demo):
    found = subprocess.run([demo, "--help"], capture_output=True, text=True, timeout=60)
    lines = found.stdout.splitlines()
    due("--help fits a screen", (found.returncode, 0 < len(lines) <= 50 and max(map(len, lines)) <= 102), (0, True))
    bad = [["0"], ["65"], ["x"], ["4", "x"], ["--forever"], ["--forever", "x"], ["--forever", "1", "65"], ["--forever", "1", "64", "--journal"],
           ["--forever", "1", "4", "fly"], ["1", "2", "3"], [b"\xff"]]
    for words in bad:
        found = subprocess.run([demo, *words], capture_output=True, timeout=60)
        due(f"{words} is refused with a text", (found.returncode, found.stdout, found.stderr != b""), (2, b"", True))


def main():
    demo, market = (os.path.abspath(path) for path in sys.argv[1:3])
    for case in (meets, lasts):
        case(demo, market)
    for case in (keeps_nothing, fills_a_disk, closes_its_pipe, refuses_words):
        case(demo)
    return 0


if __name__ == "__main__":
    sys.exit(main())
