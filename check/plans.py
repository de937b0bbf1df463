#!/usr/bin/env python3
"""Random plans, and plans with changes of lines and bytes, through `market drive` by 1 to 16 workers and through a model of what
a plan says, written from docs/FORMATS.md and docs/RULES.md alone: the first difference ends it, with status 1 and the plan on
standard error.

    check/plans.py PROGRAM [COUNT [SEED]]        as check/plans.py crates/market/out/market 1000
"""
import random
import sys

from model import Market, Unread, level, number
from scripts import cut_or_spoilt, differs

MOST_ARENAS, MOST_CONTROLS, LONGEST_LINE = 64, 256, 256


class BadPlan(Exception):
    """This line is the first that does not fit."""


class Plan:
    """The market of a plan, and its jobs, as far as they were read."""

    def __init__(self):
        self.opening = None
        self.arenas, self.controls, self.jobs = [], [], []

    def take(self, line):
        """Takes a line, and says whether it fits."""
        word, *fields = line.split(" ")
        takers = {"market": self.take_market, "arena": self.take_arena, "control": self.take_control, "job": self.take_job}
        if word not in takers:
            return False
        try:
            return takers[word](fields)
        except Unread:
            return False

    def take_market(self, fields):
        if self.opening is not None or not 2 <= len(fields) <= 3:
            return False
        base, hard, *rest = map(number, fields)
        levels = rest[0] if rest else 3
        self.opening = (base, hard, levels)
        return 1 <= base <= 65_536 and 1 <= hard <= 65_535 and 1 <= levels <= 8

    def take_arena(self, fields):
        if self.opening is None or self.controls or self.jobs or len(fields) != 5 or len(self.arenas) == MOST_ARENAS:
            return False
        slots, reserved, at = number(fields[0]), number(fields[1]), level(fields[2], self.opening[2])
        wanted, mandatory = number(fields[3]), number(fields[4])
        self.arenas.append((slots, reserved, at, wanted, mandatory))
        fits = 1 <= slots <= 65_535 and reserved <= slots and at <= self.opening[2]
        return fits and wanted <= 65_535 and mandatory <= 65_535

    def take_control(self, fields):
        if not self.arenas or self.jobs or len(fields) != 1 or len(self.controls) == MOST_CONTROLS:
            return False
        self.controls.append(number(fields[0]))
        return 1 <= self.controls[-1] <= 65_536

    def take_job(self, fields):
        if not self.arenas or len(fields) != 3 or fields[1] not in ("sum", "digits"):
            return False
        arena, kind, argument = number(fields[0]), fields[1], wide(fields[2])
        self.jobs.append((arena, kind, argument))
        return 1 <= arena <= len(self.arenas) and (kind == "digits" or argument <= 1_000_000)

    def unservable(self):
        """The least arena with a job that is allotted no worker where it alone asks for some."""
        base, hard, levels = self.opening
        for asked in sorted({arena for arena, _, _ in self.jobs}):
            market = Market(base, hard, 1, levels)
            for value in self.controls:
                market.control(0, value)
            for slots, reserved, at, _, _ in self.arenas:
                market.open(0, slots, reserved, at)
            market.request(0, asked, *self.arenas[asked - 1][3:])
            if market.allotments()[asked] == 0:
                return asked
        return None

    def values(self):
        for _, kind, argument in self.jobs:
            yield argument * (argument + 1) // 2 if kind == "sum" else sum(map(int, str(argument)))


def wide(field):
    """A number of 64 bits."""
    if not field.isdigit() or not field.isascii() or (field[0] == "0" and field != "0") or int(field) >= 2**64:
        raise Unread
    return int(field)


def plan_of(text):
    """The plan that a text is."""
    plan = Plan()
    *ended, last = text.split(b"\n")
    lines = ended + ([last] if last else [])
    for place, line in enumerate(lines, 1):
        if line == b"" or line.startswith(b"#"):
            continue
        if len(line) > LONGEST_LINE or not plan.take(line.decode("latin-1")):
            raise BadPlan(place)
    if not plan.arenas:
        raise BadPlan(len(ended) + 1)
    return plan


def due(text):
    """The lines that driving the text writes, and the exit status."""
    try:
        plan = plan_of(text)
    except BadPlan as bad:
        return [f"G01 bad plan line {bad.args[0]}"], 1
    arena = plan.unservable()
    if arena is not None:
        return [f"G02 unservable arena {arena}"], 1
    return [f"job {place} {value}" for place, value in enumerate(plan.values(), 1)], 0


def a_plan(rng):
    """A plan, most of whose arenas can be served."""
    base, hard, levels = rng.choice([1, 2, 3, 8, 40]), rng.choice([1, 5, 64]), rng.choice([1, 2, 3, 3, 3, 5, 8])
    arenas = rng.choice([1, 2, 5, 20])
    lines = [f"market {base} {hard}" if levels == 3 and rng.random() < 0.7 else f"market {base} {hard} {levels}"]
    for _ in range(arenas):
        slots = rng.choice([1, 2, 8, 100])
        at = rng.choice(["high", "normal", "low"]) if levels == 3 and rng.random() < 0.7 else rng.randint(1, levels)
        reserved = rng.randint(0, slots) if rng.random() < 0.1 else rng.randint(0, 1) if slots > 1 else 0
        wanted = 0 if rng.random() < 0.03 else rng.randint(1, 9)
        mandatory = rng.choice([0, 0, 0, 1, 2]) if base > 1 else rng.choice([0, 1, 1, 1, 1])
        lines.append(f"arena {slots} {reserved} {at} {wanted} {mandatory}")
    lines += [f"control {rng.choice([1, 2, 4, 9, 65536])}" for _ in range(rng.choice([0, 0, 0, 1, 3]))]
    for _ in range(rng.choice([0, 3, 30, 300])):
        kind, most = rng.choice([("sum", 1000), ("digits", 2**64 - 1)])
        lines.append(f"job {rng.randint(1, arenas)} {kind} {rng.randint(0, most)}")
    for _ in range(rng.choice([0, 0, 2])):
        lines.insert(rng.randint(0, len(lines)), rng.choice(["", "# a remark", "#" * 300]))
    return ("\n".join(lines) + ("\n" if rng.random() < 0.8 else "")).encode()


WORDS = [b"0", b"1", b"01", b"-1", b"65535", b"65536", b"65537", b"1000001", b"4294967296", b"18446744073709551616", b"high", b"9", b"x", b"", b"\r", b"sum", b"digits"]


def changed(rng, text):
    """The text with a line, a field or a byte changed."""
    lines = text.split(b"\n")
    place = rng.randrange(len(lines))
    kind = rng.randrange(6)
    if kind == 0:
        del lines[place]
    elif kind == 1:
        lines.insert(place, rng.choice(lines))
    elif kind == 2:
        fields = lines[place].split(b" ")
        fields[rng.randrange(len(fields))] = rng.choice(WORDS)
        lines[place] = b" ".join(fields)
    elif kind == 3:
        lines[place] += b" " * rng.choice([1, 260])
    else:
        return cut_or_spoilt(rng, text)
    return b"\n".join(lines)


def main():
    program, count, seed = sys.argv[1], int((sys.argv + [100])[2]), int((sys.argv + [0, 0])[3])
    driven = refused = 0
    for k in range(count):
        rng = random.Random(f"{seed}/{k}")
        text = a_plan(rng)
        if rng.random() < 0.6:
            text = changed(rng, text)
        lines, status = due(text)
        if differs([program, "drive", "--workers", str(rng.randint(1, 16))], text, lines, status):
            print(f"plan {k} of seed {seed}", file=sys.stderr)
            return 1
        driven, refused = driven + (status == 0), refused + (status == 1)
    print(f"{count} plans, {driven} driven, {refused} refused, no difference")
    return 0


if __name__ == "__main__":
    sys.exit(main())
