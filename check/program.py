#!/usr/bin/env python3
"""The whole program as its users run it: a child that is talked to line by line, closed pipes, a child that is killed, a slow
reader, a full disk, an input in small pieces or of the greatest length, words that it does not know. Each case has a line; the first
that fails ends it with status 1.

    check/program.py PROGRAM            as check/program.py crates/market/out/market
"""
import os
import pty
import random
import re
import signal
import subprocess
import sys
import time
from xml.etree import ElementTree

EXAMPLES = os.path.join(os.path.dirname(os.path.abspath(__file__)), "..", "examples")
sys.path.insert(0, EXAMPLES)
from client import Market, MarketGone

SCRIPT = b"0 open 8 1 normal\n0 request 1 3\n0 show 1\n"
REPLIES = b"arena 1\nrequest 3\narena 1 request 3 allot 3 top yes active 0 recall 0 hire 3\n"
PLAN = b"market 8 64\narena 8 1 normal 2 0\narena 8 1 low 1 0\njob 1 sum 10\njob 1 digits 9081\njob 2 sum 100\n"
OUTCOME = b"job 1 55\njob 2 18\njob 3 5050\n"
JOURNAL = open(os.path.join(EXAMPLES, "first.journal"), "rb").read()
SUBCOMMANDS = {("run",): SCRIPT, ("run", "--journal"): SCRIPT, ("explain",): SCRIPT, ("replay",): b"", ("drive",): PLAN, ("chart",): JOURNAL}


def ran(words, text=b"", **more):
    return subprocess.run(words, input=text, capture_output=True, timeout=60, **more)


def due(what, found, wanted):
    if found != wanted:
        sys.exit(f"{what}: {found!r}, due {wanted!r}")
    print(f"{what}: ok")


def has_examples(program):
    def of(name):
        return open(os.path.join(EXAMPLES, name), "rb").read()

    due("first.txt has the journal first.journal", ran([program, "run", "--journal"], of("first.txt")).stdout, of("first.journal"))
    due("first.journal is legal", ran([program, "replay"], of("first.journal")).stdout, b"legal 3\n")
    due("version_1.journal is legal", ran([program, "replay"], of("version_1.journal")).stdout, b"legal 3\n")
    due("plan.txt has its outcome", ran([program, "drive"], of("plan.txt")).stdout, OUTCOME)
    told = ran([sys.executable, os.path.join(EXAMPLES, "client.py"), program])
    views = [(3, 2), (2, 2), (1, 3)]
    lines = b"".join(b"arena %d request 5 allot %d top yes active 0 recall 0 hire %d\n" % (arena, allot, allot) for arena, allot in views)
    due("client.py has three arenas share seven workers", (told.stdout, told.returncode), (lines, 0))


def talks(program):
    market = Market(program, base=8, seats=4)
    replies = [market.ask(0, line[2:].decode()) for line in SCRIPT.splitlines()]
    due("each command is answered before the next", replies, REPLIES.decode().splitlines())
    due("a word that it does not know is unread", market.ask(0, "fly"), "unread")
    due("and tells in the exit status", market.close(), 1)


def is_killed(program):
    market = Market(program)
    market.ask(0, "limit")
    market.child.send_signal(signal.SIGKILL)
    market.child.wait()
    try:
        market.ask(0, "limit")
    except MarketGone as gone:
        due("a child that was killed is told as gone", gone.args, (-signal.SIGKILL,))
    else:
        sys.exit("a child that was killed answers")


def reads_slowly(program):
    lines = 200_000
    child = subprocess.Popen([program, "run"], stdin=subprocess.PIPE, stdout=subprocess.PIPE)
    writer = os.fork()
    if writer == 0:
        child.stdout.close()
        child.stdin.write(b"0 limit\n" * lines)
        child.stdin.close()
        os._exit(0)
    child.stdin.close()
    found = 0
    while piece := child.stdout.read1(4_096):
        found += piece.count(b"\n")
        if found < 3_000:
            time.sleep(0.01)
    os.waitpid(writer, 0)
    due("a slow reader gets every reply", (found, child.wait()), (lines, 0))


def closes_its_pipe(program):
    for words in SUBCOMMANDS:
        text = {"replay": b"x\n", "drive": PLAN, "chart": JOURNAL}.get(words[0], b"0 open 8 1 normal\n" * 1_000)
        child = subprocess.Popen([program, *words], stdin=subprocess.PIPE, stdout=subprocess.PIPE, stderr=subprocess.PIPE)
        child.stdout.close()
        try:
            child.stdin.write(text)
            child.stdin.close()
        except BrokenPipeError:
            pass
        told = child.stderr.read()
        status = child.wait()
        due(f"{' '.join(words)} whose reader is gone ends with a write fault", (told, status), (b"write fault\n", 3))


def fills_a_disk(program):
    if not os.path.exists("/dev/full"):
        print("no /dev/full here: left out")
        return
    for words, text in SUBCOMMANDS.items():
        with open("/dev/full", "wb") as full:
            found = subprocess.run([program, *words], input=text, stdout=full, stderr=subprocess.PIPE, timeout=60)
        due(f"{' '.join(words)} to a full disk ends with a write fault", (found.stderr, found.returncode), (b"write fault\n", 3))


def cannot_read(program):
    for words in SUBCOMMANDS:
        with open(os.devnull, "wb") as shut:
            found = subprocess.run([program, *words], stdin=shut, capture_output=True, timeout=60)
        due(f"{' '.join(words)} whose input cannot be read ends with a read fault", (found.stdout, found.stderr, found.returncode), (b"", b"read fault\n", 3))


def comes_in_pieces(program):
    rng = random.Random(7)
    script = b"".join(b"%d %s\n" % (rng.randint(0, 3), rng.choice([b"open 8", b"request 1 3", b"join", b"stay", b"lists", b"fly"])) for _ in range(2_000))
    journal = ran([program, "run", "--journal"], script).stdout
    for words, text in ((["run"], script), (["run", "--journal"], script), (["explain"], script), (["replay"], journal), (["drive"], PLAN), (["chart"], journal)):
        child = subprocess.Popen([program, *words], stdin=subprocess.PIPE, stdout=subprocess.PIPE)
        writer = os.fork()
        if writer == 0:
            child.stdout.close()
            place = 0
            while place < len(text):
                place += os.write(child.stdin.fileno(), text[place : place + rng.choice([1, 2, 40, 400, 4_000])])
                time.sleep(0.0002)
            os._exit(0)
        child.stdin.close()
        told = child.stdout.read()
        os.waitpid(writer, 0)
        whole = ran([program, *words], text)
        due(f"{' '.join(words)} takes its input in pieces of any size", (told, child.wait()), (whole.stdout, whole.returncode))


def is_too_long(program):
    longest = 268_435_456
    for words in SUBCOMMANDS:
        # One remark, which says as much as nothing.
        found, short = ran([program, *words], b"#" * longest), ran([program, *words], b"#")
        due(f"{' '.join(words)} reads an input of {longest} bytes", (found.stdout, found.stderr, found.returncode), (short.stdout, short.stderr, short.returncode))
        found = ran([program, *words], b"#" * (longest + 1))
        due(f"{' '.join(words)} reads none with a byte more", (found.stdout, found.stderr, found.returncode), (b"", b"input too long\n", 3))


def helps(program):
    for words in ((), *SUBCOMMANDS):
        found = ran([program, *words, "--help"])
        lines = found.stdout.decode().splitlines()
        fits = 0 < len(lines) <= 50 and max(map(len, lines)) <= 100
        due(f"--help of {' '.join(words) or 'the program'} fits a screen", (found.returncode, found.stderr, fits), (0, b"", True))


def refuses_words(program):
    bad = [[], ["fly"], ["run", "--base", "0"], ["run", "--seats", "65"], ["run", "--levels", "9"], ["run", "--hard", "x"], ["replay", "x"],
           ["run", "--last", "0"], ["explain", "--last", "4294967295"], ["run", "--journal", "--last", "0"],
           ["drive", "--workers", "0"], ["drive", "--workers", "17"], ["drive", "--workers"], ["run", b"\xff"], ["chart", "--width", "0"],
           ["chart", "--width", "1793"], ["chart", "--arena", "0"], ["chart", "--from", "0"], ["chart", "--to", "x"],
           ["chart", "--from", "3", "--to", "2"]]
    for words in bad:
        found = ran([program, *words], SCRIPT)
        due(f"{words} is refused with a text", (found.returncode, found.stdout, found.stderr != b""), (2, b"", True))


def tells_progress(program):
    # An input that comes for more than a second: what is told of it comes at most four times a second, where it is asked for or seen.
    journal = ran([program, "run", "--journal"], SCRIPT).stdout
    for words in SUBCOMMANDS:
        if words[0] == "drive":
            continue
        lines = (journal if words[0] in ("replay", "chart") else SCRIPT + b"0 limit\n" * 3).splitlines(keepends=True)
        whole = ran([program, *words], b"".join(lines))
        for how, options in (("untold", []), ("asked for", ["--progress"]), ("to a terminal", [])):
            seen, shown = pty.openpty() if how == "to a terminal" else os.pipe()
            begun = time.monotonic()
            child = subprocess.Popen([program, *words, *options], stdin=subprocess.PIPE, stdout=subprocess.PIPE, stderr=shown)
            os.close(shown)
            for line in lines:
                child.stdin.write(line)
                child.stdin.flush()
                time.sleep(1.6 / len(lines))
            child.stdin.close()
            told, status = child.stdout.read(), child.wait()
            most = max(1, int(4 * (time.monotonic() - begun)) - 3)
            due(f"{' '.join(words)} writes the same where its progress is {how}", (told, status), (whole.stdout, whole.returncode))
            try:
                said = os.read(seen, 4_096).decode().splitlines()
            except OSError:
                said = []
            os.close(seen)
            fits = all(re.fullmatch(words[0] + r": \d+ lines, \d+ bytes, \d+ lines a second", line) for line in said)
            due(f"and tells of it {how}", (fits, said == [] if how == "untold" else 1 <= len(said) <= most), (True, True))


def does_its_job(program):
    due("a script is answered", ran([program, "run"], SCRIPT).stdout, REPLIES)
    journal = ran([program, "run", "--journal"], SCRIPT).stdout
    due("where the fourth control has no number it is refused", ran([program, "run", "--last", "3"], b"0 control 9\n" * 4).stdout, b"control 1\ncontrol 2\ncontrol 3\nF04 out of numbers\n")
    due("a journal of the usual last number is written", ran([program, "run", "--journal", "--last", "1048576"], SCRIPT).stdout, journal)
    numbered = ran([program, "run", "--journal", "--last", "3"], b"0 control 9\n" * 4).stdout
    due("a journal of another last number is legal", ran([program, "replay"], numbered).stdout, b"legal 4\n")
    due("its journal is legal", ran([program, "replay"], journal).stdout, b"legal 3\n")
    picture = ran([program, "chart"], journal)
    due("its picture is one document", (ElementTree.fromstring(picture.stdout).tag, picture.stderr, picture.returncode), ("{http://www.w3.org/2000/svg}svg", b"", 0))
    wrong = ran([program, "chart"], journal.replace(b"allot 3", b"allot 2"))
    due("a journal that is not legal is not drawn", (wrong.stdout, wrong.stderr[:18], wrong.returncode), (b"", b"J4 wrong reply lin", 1))
    for workers in range(1, 17):
        found = ran([program, "drive", "--workers", str(workers), "--progress"], PLAN)
        due(f"a plan has its outcome by {workers} workers", (found.stdout, found.returncode), (OUTCOME, 0))


def main():
    program = os.path.abspath(sys.argv[1])
    for case in (does_its_job, has_examples, talks, is_killed, reads_slowly, closes_its_pipe, fills_a_disk, cannot_read, comes_in_pieces, is_too_long, helps, refuses_words, tells_progress):
        case(program)
    return 0


if __name__ == "__main__":
    sys.exit(main())
