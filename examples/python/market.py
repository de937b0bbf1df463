"""The worker market from Python, by ctypes: this file and libmarket.so are all that a program takes.

A Seat is one caller's way in, and each may go to a thread of its own. Its calls take and return what market.h
says. What is neither done nor an answer raises Misuse. MARKET_LIB names a libmarket.so that stands elsewhere.
"""
import ctypes as c
import os
from collections import namedtuple

LIB = c.CDLL(os.environ.get("MARKET_LIB", "libmarket.so"))
LIB.market_code_name.restype = c.c_char_p
OK, IDLE, RECALLED = 0, 3, 4
KEEP_ALL, KEEP_PARTS, KEEP_NOTHING = range(3)
NOTHING, U32, U64, PART = [], [c.c_uint32], [c.c_uint64], [c.c_uint64 * 2]  # the types of what calls write
View = namedtuple("View", "arena request allot active recall hire top")
Limits = namedtuple("Limits", "value limit effective")


class Misuse(Exception):
    def __init__(self, code):
        super().__init__(LIB.market_code_name(code).decode())
        self.code = code


class Place(c.c_uint64 * 8):
    """Where the library keeps a seat or a journal: zeros at first, and at one address. It can't be copied."""
    __hash__, __reduce__ = object.__hash__, None

    def _ask(self, name, writes, *words):
        """Makes a call, and returns the first that it writes: None at an idle join, or at a recalled stay."""
        told = [(of * 1)() for of in writes]  # arrays of one: an array goes by its address
        code = getattr(LIB, "market_" + name)(self, *words, *told)
        if code not in (OK, IDLE, RECALLED):
            raise Misuse(code)
        return told[0][0] if told and code == OK else None


class Journal(Place):
    def close(self): self._ask("journal_close", NOTHING)

    def read(self):
        """All text that was not read yet."""
        text, buffer = b"", c.create_string_buffer(65536)
        while size := self._ask("journal_read", U64, buffer, c.c_size_t(65536)):
            text += buffer[:size]
        return text.decode()


class Seat(Place):
    @staticmethod
    def open(base, hard, seats, places=1048576, levels=3, last=1048576, keeping=KEEP_NOTHING):
        seat = Seat()
        seat._ask("open", NOTHING, (c.c_uint32 * 7)(base, hard, seats, places, levels, last, keeping))
        return seat

    # from_param takes a seat or a journal alone.
    def split(self): return self._ask("split", [Seat])
    def merge(self, other): self._ask("merge", NOTHING, Seat.from_param(other))
    def close(self): return self._ask("close", U64)
    def close_into(self, journal): return self._ask("close_into", U64 + PART, Journal.from_param(journal))
    def cut(self, journal): return self._ask("cut", PART, Journal.from_param(journal))[1]
    def journal(self): return self._ask("journal_open", [Journal])
    def arena_open(self, slots, reserved, level): return self._ask("arena_open", U32, slots, reserved, level)
    def arena_close(self, arena): self._ask("arena_close", NOTHING, arena)
    def priority(self, arena, level): self._ask("priority", NOTHING, arena, level)
    def resize(self, arena, slots, reserved): return self._ask("resize", U32, arena, slots, reserved)
    def request(self, arena, wanted, mandatory=0): return self._ask("request", U32, arena, wanted, mandatory)
    def control(self, value): return self._ask("control", U32, value)
    def uncontrol(self, control): self._ask("uncontrol", NOTHING, control)
    def join(self): return self._ask("join", U32)  # its arena, or None where none is in need of a worker
    def stay(self): return self._ask("stay", U32)  # its arena, or None where it is placed no more
    def leave(self): return self._ask("leave", U32)
    def show(self, arena): return View(*self._ask("show", [c.c_uint32 * 7], arena))
    def limit(self): return Limits(*self._ask("limit", [c.c_uint32 * 3]))

    def lists(self):
        """The arenas with workers too many or too few, each as (arena, recall, hire), as they are served."""
        counts = (c.c_uint32 * 3 * 1024)()
        many = self._ask("lists", U64, counts, c.c_size_t(1024))
        return [tuple(each) for each in counts[:many]]
