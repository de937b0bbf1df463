#!/usr/bin/env python3
"""Random scripts through `market run --journal`, their journals and changed ones through `market replay`, and all of them
through the model beside this file: the first difference ends it, with status 1 and the input on standard error.

    check/journals.py PROGRAM [COUNT [SEED]]        as check/journals.py crates/market/out/market 100
"""
import collections
import random
import re
import sys

from json_reader import json_of
from model import Market, calls, journal, level_text, verdict
from scripts import a_script, cut_or_spoilt, differs, options

CHANGED = 40

# How many lines the scripts have: mostly few, so that many journals are seen.
LENGTHS = [10] * 8 + [20] * 8 + [200, 200, 600]

# Values as they stand in a line: numbers, of which few are whole, strings, and what is no value at all.
NUMBERS = ["0", "1", "3", "4", "63", "64", "65535", "65536", "65537", "1.0", "-0", "0.0", "-0.0", "1e0", "10E-1", "-1", "18446744073709551615",
           "18446744073709551616", "-9223372036854775808", "-9223372036854775809", "9" * 30, "1e308", "1e-400", "0e99999999999"]
OTHERS = ["true", "false", "null", "[]", "{}", "[0,[1,{}]]", '"0"', '""', r'"\ud83d\ude00"', '"\x7f"', '"é"', r'"\u0000"', "[" * 126 + "]" * 126]
NO_VALUES = ["", "01", "-01", "+1", ".5", "1.", "1e", "-", "0x1", "1_0", "NaN", "Infinity", "-Infinity", "nul", "True", "'0'", "[1,]", "{,}", "1 2",
             "1e400", "-1e400", "9" * 400, r'"\ud800"', r'"\udc00"', r'"\ud800\u0020"', r'"\ud800x"', r'"\x41"', r'"\u12"', '"\x01"', '"\t"', '"0',
             "/**/0", "[" * 127 + "]" * 127, "[" * 200]
NO_UTF8 = [b"\xff", b"\x80", b"\xc0\x80", b"\xe2\x82", b"\xed\xa0\x80", b"\xf4\x90\x80\x80"]
LINES = ["", " ", "\r", "\t", "{}", "[]", "null", "0", '"limit"', "[" * 200, "[" * 127 + "]" * 127, "[" * 128 + "]" * 128, "# a remark", "\ufeff{}"]
COMMANDS = ["limit", "lists", "join", "stay", "leave", "fly", "", " limit", "limit ", "show 1", "show 01", "show 0", "open 8", "open 8 1", "open 8 1 normal",
            "open 8 1 8", "open 8 1 9", "open 8 1 0", "close 4294967295", "close 4294967296", "request 1 1", "request 1 -0", "request 1 2147483647 -1",
            "0 limit", "é", "show 1\n", "show\t1", "x" * 300]


def a_value(rng):
    kind = rng.random()
    return rng.choice(NUMBERS if kind < 0.4 else OTHERS if kind < 0.6 else NO_VALUES)


def quoted(rng, text):
    """A string, now and then with escapes that need not be."""
    often, digits = rng.choice([0, 0, 0.2, 1]), rng.choice("xX")
    return '"' + "".join(f"\\u{ord(c):04{digits}}" if ord(c) < 32 or rng.random() < often else c for c in text) + '"'


def members_of(rng, line):
    """The keys of a line that was written, with their values as they stand."""
    return [(key, quoted(rng, value) if type(value) is str else str(value)) for key, value in json_of(line).items()]


def laid_out(rng, members, often=0.5):
    """The line of these members, with spaces here and there."""

    def space():
        return "".join(rng.choices(" \t\r", k=rng.choice([1, 1, 3]))) if rng.random() < often else ""

    line = ",".join(space() + quoted(rng, key) + space() + ":" + space() + value + space() for key, value in members)
    return (space() + "{" + line + "}" + space()).encode()


def having(rng, line, key, value):
    """The line with another value of this key."""
    return laid_out(rng, [(name, value if name == key else old) for name, old in members_of(rng, line)], 0.1)


# ---- changes of one line


def laid_out_anew(rng, line):
    members = members_of(rng, line)
    rng.shuffle(members)
    return laid_out(rng, members)


def with_a_value(rng, line):
    return having(rng, line, rng.choice(list(json_of(line))), a_value(rng))


def with_a_key_doubled(rng, line):
    members = members_of(rng, line)
    key, value = rng.choice(members)
    members.insert(rng.randint(0, len(members)), (key, rng.choice([value, a_value(rng)])))
    return laid_out(rng, members, 0.1)


def with_a_key_more_or_less(rng, line):
    members = members_of(rng, line)
    if rng.random() < 0.5:
        key = rng.choice(["more", "", "Seat", "seat ", "levels", "level", "journal", "last", "é"])
        members.insert(rng.randint(0, len(members)), (key, a_value(rng)))
    else:
        del members[rng.randrange(len(members))]
    return laid_out(rng, members, 0.1)


def as_another_line(rng, line):
    return rng.choice(LINES).encode()


def with_bytes_more(rng, line):
    most = rng.choice([65_535, 65_536, 65_536, 65_537, 65_537, 131_072])
    return rng.choice([line + b" " * (most - len(line)), b"\t" * (most - len(line)) + line, line + b"\r", line + line, line + b"\0",
                       line + b",", b"\xef\xbb\xbf" + line, line[:-1]])


def without_utf8(rng, line):
    place = rng.randint(0, len(line))
    return line[:place] + rng.choice(NO_UTF8) + line[place:]


ANY_LINE = [laid_out_anew, laid_out_anew, with_a_value, with_a_key_doubled, with_a_key_more_or_less, as_another_line, with_bytes_more, without_utf8]


# ---- changes of the header


def with_another_number(rng, line):
    key, most = rng.choice([("base", 65536), ("hard", 65535), ("journal", 3), ("last", 4294967294), ("levels", 8), ("seats", 64)])
    return having(rng, line, key, str(rng.choice([0, 0, 1, 2, 3, most, most + 1, most + 1, 2**64 - 1])))


def of_another_version(rng, line):
    members = json_of(line)
    version = rng.choice([1, 1, 1, 2, 2, 3, 3, 0, 4])
    members["journal"] = version
    if rng.random() < (0.8 if version == 1 else 0.1):
        del members["levels"]
    if rng.random() < (0.8 if version < 3 else 0.1):
        members.pop("last", None)
    elif rng.random() < 0.8:
        members["last"] = rng.choice([1, 2, 3, 10, 1048576, 4294967294, 4294967295, 0])
    return laid_out(rng, [(key, str(value)) for key, value in members.items()], 0.1)


HEADER = [with_another_number, with_another_number, of_another_version]


# ---- changes of an entry


def with_another_reply(rng, line):
    reply = json_of(line)["reply"]
    digits = re.sub(r"\d", lambda _: str(rng.randint(0, 9)), reply, count=rng.choice([0, 1]))
    others = [digits, digits, reply + rng.choice([" ", "\n", "0"]), reply[:-1], "", "ok", "idle", "F05 no arena", "unread"]
    return having(rng, line, "reply", quoted(rng, rng.choice(others)))


def with_another_command(rng, line):
    return having(rng, line, "cmd", quoted(rng, rng.choice(COMMANDS)))


def of_another_seat(rng, line):
    return having(rng, line, "seat", rng.choice(NUMBERS))


ENTRY = [with_another_reply, with_another_reply, with_another_command, of_another_seat]


def shortened(levels, command):
    """The command without the last fields, where they are what is meant without them."""
    word, *fields = command.split(" ")
    if word == "request" and fields[2] == "0":
        fields.pop()
    if word == "open" and fields[2] == level_text((levels + 1) // 2, levels):
        fields.pop()
        if fields[1] == "1":
            fields.pop()
    return " ".join([word, *fields])


def all_shortened(levels, line):
    entry = json_of(line)
    return f'{{"cmd":"{shortened(levels, entry["cmd"])}","reply":"{entry["reply"]}","seat":{entry["seat"]}}}'.encode()


# ---- changes of a journal


def changed(rng, written, levels):
    """The journal with a change or two of its lines."""
    lines = list(written)
    if rng.random() < 0.3:
        lines = lines[:1] + [all_shortened(levels, line) for line in lines[1:]]
    places = set(rng.sample(range(len(lines)), min(len(lines), rng.choice([0, 1, 1, 1, 2]))))
    if rng.random() < 0.25:
        places = {0}
    # From the last one on, since a change may move the lines behind it.
    for place in sorted(places, reverse=True):
        kind = rng.random()
        if kind < 0.3:
            instead = rng.choice([[], [lines[place], lines[place]], [rng.choice(written), lines[place]]])
        elif kind < 0.65:
            changes = HEADER if place == 0 else ENTRY
            instead = [rng.choice(changes)(rng, lines[place])]
        else:
            instead = [rng.choice(ANY_LINE)(rng, lines[place])]
        lines[place : place + 1] = instead
    return b"".join(line + b"\n" for line in lines)


def main():
    program, count, seed = sys.argv[1], int((sys.argv + [100])[2]), int((sys.argv + [0, 0])[3])
    found = collections.Counter()
    for k in range(count):
        rng = random.Random(f"{seed}/{k}")
        opening, script = a_script(rng, LENGTHS)
        market = Market(*opening)
        called = list(calls(market, script))
        lines = journal(market, called)
        wrong = differs([program, "run", "--journal", *options(opening)], script, lines, 1 if None in called else 0)
        written = [line.encode() for line in lines]
        text = b"".join(line + b"\n" for line in written)
        wrong = wrong or differs([program, "replay"], text, [f"legal {len(lines) - 1}"], 0)
        for _ in range(CHANGED):
            text = changed(rng, written, market.levels)
            if rng.random() < 0.25:
                text = cut_or_spoilt(rng, text)
            due = verdict(text)
            wrong = wrong or differs([program, "replay"], text, [due], 0 if due.startswith("legal ") else 1)
            found[due.split(" ")[0]] += 1
        if wrong:
            print(f"journal {k} of seed {seed}", file=sys.stderr)
            return 1
    told = ", ".join(f"{kind} {found[kind]}" for kind in sorted(found))
    print(f"{count} journals, {CHANGED * count} changed ones ({told}), no difference")
    return 0


if __name__ == "__main__":
    sys.exit(main())
