#!/usr/bin/env python3
"""Random scripts, some of them with bytes changed, through `market run` and `market explain` and through the model beside this
file: the first difference ends it, with status 1 and the script on standard error.

    check/scripts.py PROGRAM [COUNT [SEED]]        as check/scripts.py crates/market/out/market 1000
"""
import itertools
import random
import subprocess
import sys

from model import Market, calls, replies


def a_number(rng, most):
    """Mostly a number in range, now and then one beside it or badly spelled."""
    kind = rng.random()
    if kind < 0.94:
        return str(rng.randint(0, most))
    return rng.choice(["0", "00", "01", "-1", "-0", "", "x", "4294967295", "4294967296", "65535", "65536", "65537", "1048576", "2147483647", "-2147483648"])


def a_line(rng, seats, levels, arenas):
    seat = a_number(rng, seats - 1) if rng.random() < 0.99 else str(seats)
    arena = a_number(rng, arenas)
    level = rng.choice(["high", "normal", "low"]) if rng.random() < 0.2 else a_number(rng, levels)
    slots, reserved = a_number(rng, rng.choice([3, 20, 70000])), a_number(rng, 2)
    wanted, mandatory = a_number(rng, 9), a_number(rng, 2)
    if rng.random() < 0.4:
        wanted = "-" + wanted
    if rng.random() < 0.4:
        mandatory = "-" + mandatory
    command = rng.choices(
        [f"open {slots}", f"open {slots} {reserved}", f"open {slots} {reserved} {level}", f"close {arena}", f"priority {arena} {level}",
         f"resize {arena} {slots} {reserved}", f"request {arena} {wanted}", f"request {arena} {wanted} {mandatory}", f"control {a_number(rng, 12)}",
         f"uncontrol {a_number(rng, 12)}", "join", "stay", "leave", f"show {arena}", "lists", "limit", "fly", "join 1", " join", "#", "# a remark", ""],
        [4, 4, 9, 3, 6, 6, 12, 12, 3, 4, 14, 8, 6, 12, 6, 4, 0.3, 0.3, 0.3, 0.3, 0.3, 0.3])[0]
    if command.startswith("#") or command == "":
        return command
    return f"{seat} {command}" + ("\r" if rng.random() < 0.003 else "") + (" " * 260 if rng.random() < 0.002 else "")


def a_script(rng, lengths=(20, 200, 600)):
    """What a market is opened with, and a script for it of one of these lengths."""
    base, hard = rng.choice([1, 2, 3, 8, 40]), rng.choice([1, 5, 64, 65535])
    seats, levels = rng.choice([1, 4, 16, 64]), rng.choice([1, 2, 3, 3, 5, 8])
    arenas, last = rng.choice([2, 6, 30]), rng.choice([1, 3, 12, 1048576, 4294967294])
    script = "\n".join(a_line(rng, seats, levels, arenas) for _ in range(rng.choice(lengths)))
    if rng.random() < 0.8:
        script += "\n"
    return (base, hard, seats, levels, last), script.encode("latin-1")


def spoilt(rng, text):
    """The text with some byte changed, or one more."""
    place = rng.randint(0, len(text))
    byte = bytes([rng.choice([0, 9, 10, 13, 32, 34, 44, 92, 123, 125, 127, 128, 255, rng.randrange(256)])])
    return text[:place] + byte + text[place + rng.choice([0, 1]) :]


def cut_or_spoilt(rng, text):
    """The text up to some byte, or spoilt."""
    kind = rng.random()
    if kind < 0.2:
        return text[:-1]
    if kind < 0.6:
        return text[: rng.randint(0, len(text))]
    return spoilt(rng, text)


def options(opening):
    words = zip(("--base", "--hard", "--seats", "--levels", "--last"), map(str, opening))
    return [word for pair in words for word in pair]


def differs(command, text, lines, status):
    """Whether the command, given the text, writes anything but these lines, or ends with another status. Then it is told."""
    ran = subprocess.run(command, input=text, capture_output=True)
    due = "".join(f"{line}\n" for line in lines).encode("latin-1")
    if ran.stdout == due and ran.returncode == status:
        return False
    sys.stderr.buffer.write(text)
    print(f"\n{' '.join(command)} differs; status {ran.returncode}, due {status}", file=sys.stderr)
    for said, due_line in itertools.zip_longest(ran.stdout.split(b"\n"), due.split(b"\n")):
        if said != due_line:
            print(f"written {said}, due {due_line}", file=sys.stderr)
            break
    return True


def main():
    program, count, seed = sys.argv[1], int((sys.argv + [100])[2]), int((sys.argv + [0, 0])[3])
    lines = 0
    for k in range(count):
        rng = random.Random(f"{seed}/{k}")
        opening, text = a_script(rng)
        for _ in range(rng.choice([0, 0, 0, 1, 3, 30])):
            text = spoilt(rng, text)
        market = Market(*opening)
        called = list(calls(market, text))
        status = 1 if None in called else 0
        for word, due in (("run", replies(called)), ("explain", market.explanation())):
            if differs([program, word, *options(opening)], text, due, status):
                print(f"script {k} of seed {seed}", file=sys.stderr)
                return 1
        lines += text.count(b"\n")
    print(f"{count} scripts, {lines} lines, no difference")
    return 0


if __name__ == "__main__":
    sys.exit(main())
