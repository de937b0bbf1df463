//! A safe wrapper of the worker market's C library. A [`Seat`] is one caller's way into a market: a value that moves between threads,
//! and that only one of them can use at a time, since each call takes it by `&mut`. So none of the misuses that the library tells can be
//! written, but for seats of two markets, and for what depends on where a seat is placed.
use std::ffi::CStr;
use std::{fmt, io};

mod raw;

/// Which entries of a history are kept.
#[derive(Clone, Copy, Debug, PartialEq, Eq)]
#[repr(u32)]
pub enum Keeping {
    Everything = 0,
    InParts = 1,
    Nothing = 2,
}

/// What a market is opened with. The ranges are those of `market.h`.
#[derive(Clone, Copy, Debug)]
pub struct Terms {
    pub base: u32,
    pub hard: u32,
    pub seats: u32,
    pub places: u32,
    pub levels: u32,
    pub last: u32,
    pub keeping: Keeping,
}

/// What a call was answered, where that is not what was asked for.
#[derive(Clone, Copy, PartialEq, Eq)]
pub struct Code(pub i32);

impl Code {
    pub const HISTORY_FULL: Code = Code(2);
    pub const SEATS_OUT: Code = Code(6);
    pub const STILL_PLACED: Code = Code(7);
    pub const UNREAD: Code = Code(8);
    pub const NO_PART: Code = Code(9);
    pub const NO_ARENA: Code = Code(15);
    pub const OTHER_MARKET: Code = Code(-5);
    pub const UNFIT: Code = Code(-6);
    const IDLE: Code = Code(3);
    const RECALLED: Code = Code(4);

    /// Its name in `market.h`.
    pub fn name(self) -> &'static str {
        // The library gives a string that lives as long as the program, for each number.
        unsafe { CStr::from_ptr(raw::market_code_name(self.0)) }.to_str().unwrap_or("MARKET_UNKNOWN")
    }
}

impl fmt::Debug for Code {
    fn fmt(&self, f: &mut fmt::Formatter<'_>) -> fmt::Result {
        f.write_str(self.name())
    }
}

impl fmt::Display for Code {
    fn fmt(&self, f: &mut fmt::Formatter<'_>) -> fmt::Result {
        f.write_str(self.name())
    }
}

impl std::error::Error for Code {}

fn told(code: i32) -> Result<(), Code> {
    if code == 0 { Ok(()) } else { Err(Code(code)) }
}

pub use raw::{Counts, Limits, Part, View};

/// One caller's way into a market. Where it is dropped before it is merged or closed, the market is never freed.
#[must_use = "a market is closed once all of its seats are merged"]
pub struct Seat {
    // Its place stays its place while the `Seat` moves.
    place: Box<raw::Place>,
}

// A seat goes to one thread at a time; the library orders what seats of one market share.
unsafe impl Send for Seat {}

impl Seat {
    fn vacant() -> Seat {
        Seat { place: Box::new(raw::Place::VACANT) }
    }

    /// The first seat of a new market, with all others in it.
    pub fn open(terms: Terms) -> Result<Seat, Code> {
        let mut seat = Seat::vacant();
        let terms = raw::Terms {
            base: terms.base,
            hard: terms.hard,
            seats: terms.seats,
            places: terms.places,
            levels: terms.levels,
            last: terms.last,
            keeping: terms.keeping as u32,
        };
        told(unsafe { raw::market_open(&mut *seat.place, &terms) })?;
        Ok(seat)
    }

    /// A seat for one more caller; `None` where all are given out.
    pub fn split(&mut self) -> Option<Seat> {
        let mut seat = Seat::vacant();
        told(unsafe { raw::market_split(&mut *self.place, &mut *seat.place) }).ok()?;
        Some(seat)
    }

    /// Takes a seat of the same market back, or gives it back with the reason why not.
    pub fn merge(&mut self, mut other: Seat) -> Result<(), (Seat, Code)> {
        told(unsafe { raw::market_merge(&mut *self.place, &mut *other.place) }).map_err(|code| (other, code))
    }

    /// Ends the market, once all seats are merged, and says how many calls were answered. Else the seat comes back.
    pub fn close(mut self) -> Result<u64, (Seat, Code)> {
        let mut totals = raw::Totals { calls: 0 };
        match told(unsafe { raw::market_close(&mut *self.place, &mut totals) }) {
            Ok(()) => Ok(totals.calls),
            Err(code) => Err((self, code)),
        }
    }

    fn number(&mut self, call: impl FnOnce(*mut raw::Place, *mut u32) -> i32) -> Result<u32, Code> {
        let mut number = 0;
        told(call(&mut *self.place, &mut number)).map(|()| number)
    }

    /// A new arena with so many slots, of which so many are reserved, in this priority level.
    pub fn arena_open(&mut self, slots: u32, reserved: u32, level: u32) -> Result<u32, Code> {
        self.number(|place, arena| unsafe { raw::market_arena_open(place, slots, reserved, level, arena) })
    }

    /// The arena goes.
    pub fn arena_close(&mut self, arena: u32) -> Result<(), Code> {
        told(unsafe { raw::market_arena_close(&mut *self.place, arena) })
    }

    /// The arena goes first in this priority level.
    pub fn priority(&mut self, arena: u32, level: u32) -> Result<(), Code> {
        told(unsafe { raw::market_priority(&mut *self.place, arena, level) })
    }

    /// The arena gets other slots: what it then asks for.
    pub fn resize(&mut self, arena: u32, slots: u32, reserved: u32) -> Result<u32, Code> {
        self.number(|place, request| unsafe { raw::market_resize(place, arena, slots, reserved, request) })
    }

    /// The arena's demand goes up or down: what it then asks for.
    pub fn request(&mut self, arena: u32, wanted: i32, mandatory: i32) -> Result<u32, Code> {
        self.number(|place, request| unsafe { raw::market_request(place, arena, wanted, mandatory, request) })
    }

    /// A new limit on parallelism.
    pub fn control(&mut self, value: u32) -> Result<u32, Code> {
        self.number(|place, control| unsafe { raw::market_control(place, value, control) })
    }

    /// The control goes.
    pub fn uncontrol(&mut self, control: u32) -> Result<(), Code> {
        told(unsafe { raw::market_uncontrol(&mut *self.place, control) })
    }

    /// The arena at which the seat then is placed, or `None` where none is in need of a worker.
    pub fn join(&mut self) -> Result<Option<u32>, Code> {
        match self.number(|place, arena| unsafe { raw::market_join(place, arena) }) {
            Ok(arena) => Ok(Some(arena)),
            Err(Code::IDLE) => Ok(None),
            Err(code) => Err(code),
        }
    }

    /// Whether the seat's arena still wants it; else it is no longer placed.
    pub fn stay(&mut self) -> Result<bool, Code> {
        match self.number(|place, arena| unsafe { raw::market_stay(place, arena) }) {
            Ok(_) => Ok(true),
            Err(Code::RECALLED) => Ok(false),
            Err(code) => Err(code),
        }
    }

    /// The arena that the seat has left.
    pub fn leave(&mut self) -> Result<u32, Code> {
        self.number(|place, arena| unsafe { raw::market_leave(place, arena) })
    }

    /// What the market allots to an arena.
    pub fn show(&mut self, arena: u32) -> Result<View, Code> {
        let mut view = View::default();
        told(unsafe { raw::market_show(&mut *self.place, arena, &mut view) }).map(|()| view)
    }

    /// How many workers may be active.
    pub fn limit(&mut self) -> Result<Limits, Code> {
        let mut limits = Limits::default();
        told(unsafe { raw::market_limit(&mut *self.place, &mut limits) }).map(|()| limits)
    }

    /// All arenas with workers too many or too few, in the order in which they are served.
    pub fn lists(&mut self) -> Result<Vec<Counts>, Code> {
        // No market has more arenas than these.
        let mut arenas = vec![Counts::default(); 1_024];
        let mut count = 0;
        told(unsafe { raw::market_lists(&mut *self.place, arenas.as_mut_ptr(), arenas.len(), &mut count) })?;
        arenas.truncate(count as usize);
        Ok(arenas)
    }

    /// A journal of the seat's market, whose first line is there to be read.
    pub fn journal(&mut self) -> Result<Journal, Code> {
        let mut journal = Journal { place: Box::new(raw::JournalPlace::VACANT) };
        told(unsafe { raw::market_journal_open(&mut *self.place, &mut *journal.place) }).map(|()| journal)
    }

    /// All that a market in parts keeps of its history goes to the end of the journal's text, which was read before.
    pub fn cut(&mut self, journal: &mut Journal) -> Result<Part, Code> {
        let mut part = Part::default();
        told(unsafe { raw::market_cut(&mut *self.place, &mut *journal.place, &mut part) }).map(|()| part)
    }

    /// Ends the market as `close` does, and what it still keeps of its history goes to the end of the journal's text: every entry, or
    /// what was not cut yet. Says how many calls were answered; else the seat comes back.
    pub fn close_into(mut self, journal: &mut Journal) -> Result<(u64, Part), (Seat, Code)> {
        let (mut totals, mut part) = (raw::Totals { calls: 0 }, Part::default());
        match told(unsafe { raw::market_close_into(&mut *self.place, &mut *journal.place, &mut totals, &mut part) }) {
            Ok(()) => Ok((totals.calls, part)),
            Err(code) => Err((self, code)),
        }
    }
}

/// The text of a market's journal that was not read yet, read as any [`io::Read`] is. It may outlive its market. Where it is dropped before
/// it is closed, it is never freed.
#[must_use = "a journal is closed once all of it is read"]
pub struct Journal {
    place: Box<raw::JournalPlace>,
}

// One thread at a time uses a journal, which shares nothing.
unsafe impl Send for Journal {}

impl Journal {
    /// Ends the journal; where some of its text was not read it comes back.
    pub fn close(mut self) -> Result<(), (Journal, Code)> {
        told(unsafe { raw::market_journal_close(&mut *self.place) }).map_err(|code| (self, code))
    }
}

impl io::Read for Journal {
    /// Gives 0 where all that was cut is read. Out of memory nothing is lost: read again.
    fn read(&mut self, buffer: &mut [u8]) -> io::Result<usize> {
        let mut written = 0;
        told(unsafe { raw::market_journal_read(&mut *self.place, buffer.as_mut_ptr().cast(), buffer.len(), &mut written) })
            .map_err(|code| io::Error::new(io::ErrorKind::OutOfMemory, code))?;
        Ok(written as usize)
    }
}
