"""Two threads share a market from Python, and every misuse is told. Run it with python3; it ends with 0 where all is right."""
import copy
import os
import pathlib
import threading

os.environ.setdefault("MARKET_LIB", str(pathlib.Path(__file__).resolve().parents[2] / "build" / "libmarket.so"))
from market import KEEP_ALL, KEEP_PARTS, Limits, Misuse, Seat, View  # noqa: E402: it loads the library of this name


def told(name, call, *words):
    try:
        call(*words)
    except Misuse as misuse:
        assert str(misuse) == name, (str(misuse), name)
        return misuse.code
    raise AssertionError("not told: " + name)


def refused(call, *words):
    """Python finds by itself that these words are too few, too many, or of another type, before the library is asked."""
    try:
        call(*words)
    except TypeError:
        return
    raise AssertionError("not refused")


first = Seat.open(base=3, hard=8, seats=3)
assert told("MARKET_BAD_BASE", lambda: Seat.open(base=0, hard=8, seats=3)) == 31
assert told("MARKET_BAD_SEAT", Seat().join) == -2
seats = [first.split(), first.split()]
told("MARKET_NO_SEAT_LEFT", first.split)
arena = first.arena_open(8, 1, 1)
assert first.join() is None
told("MARKET_UNFIT", first.leave)
first.request(arena, 2)
assert first.lists() == [(arena, 0, 2)]
told("MARKET_NO_PART", lambda: first.cut(first.journal()))
assert (first.limit().limit, first.show(arena).hire) == (2, 2)
joined = []


def work(seat):
    joined.append(seat.join())
    for _ in range(1000):
        assert seat.stay()
    assert seat.leave() == arena


threads = [threading.Thread(target=work, args=[seat]) for seat in seats]
for thread in threads:
    thread.start()
for thread in threads:
    thread.join()
assert joined == [arena, arena]
told("MARKET_SEATS_OUT", first.close)
for seat in seats:
    first.merge(seat)
told("MARKET_BAD_SEAT", first.merge, seats[0])
# An open, an idle join, a request, lists, a limit and a show, and of each worker a join, the stays and a leave.
assert first.close() == 6 + 2 * 1002

kept = Seat.open(base=3, hard=8, seats=1, keeping=KEEP_PARTS)
journal = kept.journal()
told("MARKET_UNREAD", journal.close)
kept.arena_open(8, 1, 1)
assert kept.cut(journal) == 1
told("MARKET_UNREAD", kept.cut, journal)
lines = journal.read().splitlines()
assert len(lines) == 2 and '"open' in lines[1], lines
assert (kept.cut(journal), journal.read(), kept.close()) == (0, "", 1)
journal.close()
told("MARKET_BAD_JOURNAL", journal.close)

whole = Seat.open(base=3, hard=8, seats=2, keeping=KEEP_ALL)
journal, other = whole.journal(), whole.split()
other.arena_open(8, 1, 1)
told("MARKET_NO_ARENA", whole.request, 7, 1)
told("MARKET_SEATS_OUT", whole.close_into, journal)
whole.merge(other)
assert whole.close_into(journal) == 2
told("MARKET_UNREAD", journal.close)
assert [line[:8] for line in journal.read().splitlines()] == ['{"base":', '{"cmd":"', '{"cmd":"']
journal.close()

# Each other call once, with the numbers that it takes and writes; what is not of its type is refused; a journal of several pieces.
one = Seat.open(base=4, hard=8, seats=2, places=2000, levels=2, last=4294967294, keeping=KEEP_PARTS)
journal, worker = one.journal(), one.split()
refused(one.arena_open, 8, 1)
refused(one.merge, 5)
refused(one.merge, journal)
refused(one.cut, worker)
refused(copy.copy, one)
refused(copy.deepcopy, worker)
assert len({one, worker, journal}) == 3
high, low = one.arena_open(3, 1, 1), one.arena_open(3, 0, 2)
assert (one.request(low, 3), one.request(high, 5), one.request(high, -3, 1)) == (3, 2, 2)
assert one.show(low) == View(arena=low, request=3, allot=1, active=0, recall=0, hire=1, top=0), one.show(low)
assert one.lists() == [(high, 0, 2), (low, 0, 1)], one.lists()
assert worker.join() == high
assert one.show(high) == View(arena=high, request=2, allot=2, active=1, recall=0, hire=1, top=1), one.show(high)
assert one.resize(high, 2, 2) == 0
assert (worker.stay(), worker.join(), worker.stay()) == (None, low, low)
control = one.control(1)
assert one.limit() == Limits(value=1, limit=0, effective=1), one.limit()
assert one.lists() == [(low, 1, 0)], one.lists()
one.uncontrol(control)
told("MARKET_NO_CONTROL", one.uncontrol, control)
assert one.resize(high, 3, 1) == 2
one.priority(low, 1)
assert one.show(low) == View(arena=low, request=3, allot=1, active=1, recall=0, hire=0, top=1), one.show(low)
told("MARKET_ARENA_IN_USE", one.arena_close, low)
assert worker.leave() == low
one.arena_close(low)
told("MARKET_NO_ARENA", one.show, low)
assert told("MARKET_WANTED_RANGE", one.request, high, 2147483647) == 17
for _ in range(1500):
    one.limit()
calls = one.cut(journal)
text = journal.read()
assert len(text) > 65536 and text.count("\n") == 1 + calls, (len(text), calls)
one.limit()
one.merge(worker)
assert one.close_into(journal) == calls + 1
assert journal.read().count("\n") == 1
journal.close()
print("a market from Python: all is right")
