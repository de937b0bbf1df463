//! `market.h`, as Rust has it.
use std::ffi::{c_char, c_void};

#[repr(C)]
pub struct Place {
    state: u32,
    at: *mut c_void,
    market: u64,
    wait: Option<extern "C" fn(u32, *mut c_void)>,
    with: *mut c_void,
    in_use: u8,
}

impl Place {
    pub const VACANT: Place = Place { state: 0, at: std::ptr::null_mut(), market: 0, wait: None, with: std::ptr::null_mut(), in_use: 0 };
}

#[repr(C)]
pub struct JournalPlace {
    state: u32,
    at: *mut c_void,
    market: u64,
    in_use: u8,
}

impl JournalPlace {
    pub const VACANT: JournalPlace = JournalPlace { state: 0, at: std::ptr::null_mut(), market: 0, in_use: 0 };
}

#[repr(C)]
pub struct Terms {
    pub base: u32,
    pub hard: u32,
    pub seats: u32,
    pub places: u32,
    pub levels: u32,
    pub last: u32,
    pub keeping: u32,
}

#[repr(C)]
pub struct Totals {
    pub calls: u64,
}

/// A part of a history: how many calls come before it, and how many it has.
#[repr(C)]
#[derive(Clone, Copy, Debug, Default, PartialEq, Eq)]
pub struct Part {
    pub from: u64,
    pub calls: u64,
}

/// How far an arena is from what it is allotted: one of its counts is 0, the other is not.
#[repr(C)]
#[derive(Clone, Copy, Debug, Default, PartialEq, Eq)]
pub struct Counts {
    pub arena: u32,
    pub recall: u32,
    pub hire: u32,
}

/// What the market allots to an arena.
#[repr(C)]
#[derive(Clone, Copy, Debug, Default, PartialEq, Eq)]
pub struct View {
    pub arena: u32,
    pub request: u32,
    pub allot: u32,
    pub active: u32,
    pub recall: u32,
    pub hire: u32,
    pub top: u32,
}

/// How many workers may be active.
#[repr(C)]
#[derive(Clone, Copy, Debug, Default, PartialEq, Eq)]
pub struct Limits {
    pub value: u32,
    pub limit: u32,
    pub effective: u32,
}

extern "C" {
    pub fn market_code_name(code: i32) -> *const c_char;
    pub fn market_open(seat: *mut Place, terms: *const Terms) -> i32;
    pub fn market_split(from: *mut Place, to: *mut Place) -> i32;
    pub fn market_merge(into: *mut Place, from: *mut Place) -> i32;
    pub fn market_close(seat: *mut Place, totals: *mut Totals) -> i32;
    pub fn market_arena_open(seat: *mut Place, slots: u32, reserved: u32, level: u32, arena: *mut u32) -> i32;
    pub fn market_arena_close(seat: *mut Place, arena: u32) -> i32;
    pub fn market_priority(seat: *mut Place, arena: u32, level: u32) -> i32;
    pub fn market_resize(seat: *mut Place, arena: u32, slots: u32, reserved: u32, request: *mut u32) -> i32;
    pub fn market_request(seat: *mut Place, arena: u32, wanted: i32, mandatory: i32, request: *mut u32) -> i32;
    pub fn market_control(seat: *mut Place, value: u32, control: *mut u32) -> i32;
    pub fn market_uncontrol(seat: *mut Place, control: u32) -> i32;
    pub fn market_join(seat: *mut Place, arena: *mut u32) -> i32;
    pub fn market_stay(seat: *mut Place, arena: *mut u32) -> i32;
    pub fn market_leave(seat: *mut Place, arena: *mut u32) -> i32;
    pub fn market_show(seat: *mut Place, arena: u32, view: *mut View) -> i32;
    pub fn market_limit(seat: *mut Place, limits: *mut Limits) -> i32;
    pub fn market_lists(seat: *mut Place, arenas: *mut Counts, room: usize, count: *mut u64) -> i32;
    pub fn market_journal_open(seat: *mut Place, journal: *mut JournalPlace) -> i32;
    pub fn market_cut(seat: *mut Place, journal: *mut JournalPlace, part: *mut Part) -> i32;
    pub fn market_close_into(seat: *mut Place, journal: *mut JournalPlace, totals: *mut Totals, part: *mut Part) -> i32;
    pub fn market_journal_read(journal: *mut JournalPlace, buffer: *mut c_void, size: usize, written: *mut u64) -> i32;
    pub fn market_journal_close(journal: *mut JournalPlace) -> i32;
}
