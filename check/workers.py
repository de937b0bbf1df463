#!/usr/bin/env python3
"""check/workers.py JOURNAL: finds in a market's journal whether its workers keep to the limit.

A change of the limit or of a demand may leave an arena with more workers than it is allotted: they are recalled, each when it asks
whether to stay. So at each entry no more workers are placed than the limit allows and recalls are not answered yet; and where all are
answered, no more than the limit. What is allotted is computed by check/model.py, which shares no code with the crates; that the replies
are those due is for `market replay` to say. The exit status is 1 where it is not so.
"""
import json
import sys

from model import opened, recorded


def over(market):
    """How many workers are placed above the limit, and how many are recalled and have not been told."""
    allotted = market.allotments()
    waiting = sum(max(0, market.active(number) - allot) for number, allot in allotted.items())
    return sum(place is not None for place in market.seats) - market.effective(), waiting


def main():
    if len(sys.argv) != 2:
        sys.exit(__doc__)
    with open(sys.argv[1], encoding="ascii") as journal:
        market, _ = opened(json.loads(next(journal)))
        entries = changes = recalls = most = 0
        for entries, line in enumerate(journal, 1):
            seat, name, arguments, reply = recorded(json.loads(line), market)
            if market.answer(seat, name, arguments) != reply:
                sys.exit(f"entry {entries}: not the reply that is due")
            changes += name in ("control", "uncontrol")
            recalls += reply.startswith("recalled")
            above, waiting = over(market)
            if above > waiting:
                sys.exit(f"entry {entries}: {above} workers above the limit, and {waiting} recalls to be answered")
            most = max(most, above)
    print(f"{entries} entries, {changes} changes of the limit, {recalls} recalls; at most {most} workers above the limit, each recalled")


if __name__ == "__main__":
    main()
