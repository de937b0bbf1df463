#!/usr/bin/env python3
"""A program that keeps `market run` as a child process and talks to it line by line, as a server or a build tool would: one
command in, one reply out. It runs the worked example of three arenas that share seven workers.

    examples/client.py [PROGRAM]        as examples/client.py crates/market/out/market
"""
import subprocess
import sys


class MarketGone(Exception):
    """The child process has ended, with this exit status."""


class Market:
    """A market in a child process. Every command is answered before the next one is given."""

    def __init__(self, program="market", **options):
        words = [word for name, value in options.items() for word in (f"--{name}", str(value))]
        self.child = subprocess.Popen([program, "run", *words], stdin=subprocess.PIPE, stdout=subprocess.PIPE, text=True)

    def ask(self, seat, command):
        """The reply to a seat's command."""
        try:
            self.child.stdin.write(f"{seat} {command}\n")
            self.child.stdin.flush()
        except BrokenPipeError:
            raise MarketGone(self.child.wait()) from None
        reply = self.child.stdout.readline()
        if not reply.endswith("\n"):
            raise MarketGone(self.child.wait())
        return reply.removesuffix("\n")

    def close(self):
        """Ends the child process, and gives its exit status: 0 where every line spelled a command."""
        self.child.stdin.close()
        self.child.stdout.close()
        return self.child.wait()


def main():
    market = Market(*sys.argv[1:2], base=8, seats=4)
    arenas = [int(market.ask(0, "open 8 1 normal").removeprefix("arena ")) for _ in range(3)]
    for arena in arenas:
        market.ask(0, f"request {arena} 5")
    for arena in reversed(arenas):
        print(market.ask(0, f"show {arena}"))
    return market.close()


if __name__ == "__main__":
    sys.exit(main())
