//! The history of a market, read as text.
use market::{Code, Counts, Journal, Keeping, Part, Seat, Terms};
use std::io::Read;

const TERMS: Terms = Terms { base: 4, hard: 64, seats: 2, places: 1_000, levels: 3, last: 1_048_576, keeping: Keeping::Everything };

fn text_of(journal: &mut Journal) -> String {
    let mut text = String::new();
    journal.read_to_string(&mut text).expect("a text");
    text
}

fn on(keeping: Keeping) -> (Seat, Journal) {
    let mut seat = Seat::open(Terms { keeping, ..TERMS }).expect("a market");
    let journal = seat.journal().expect("a journal");
    (seat, journal)
}

#[test]
fn every_entry_is_left_by_the_close() {
    let (mut first, mut journal) = on(Keeping::Everything);
    let mut other = first.split().expect("a seat");
    let arena = other.arena_open(8, 0, 2).expect("an arena");
    first.request(arena, 2, 0).expect("a demand");
    assert_eq!(first.lists(), Ok(vec![Counts { arena, recall: 0, hire: 2 }]));
    assert_eq!(first.cut(&mut journal), Err(Code::NO_PART));
    let Err((mut first, code)) = first.close_into(&mut journal) else { panic!("a seat is out") };
    assert_eq!(code, Code::SEATS_OUT);
    assert!(first.merge(other).is_ok());
    assert_eq!(first.close_into(&mut journal).ok(), Some((3, Part { from: 0, calls: 3 })));
    let Err((mut journal, code)) = journal.close() else { panic!("nothing of it was read") };
    assert_eq!(code, Code::UNREAD);
    let text = text_of(&mut journal);
    let lines: Vec<&str> = text.lines().collect();
    assert_eq!(lines.len(), 4);
    assert_eq!(lines[1], r#"{"cmd":"open 8 0 normal","reply":"arena 1","seat":0}"#);
    assert_eq!(lines[2], r#"{"cmd":"request 1 2 0","reply":"request 2","seat":1}"#);
    assert!(journal.close().is_ok());
}

#[test]
fn parts_follow_one_another() {
    let (mut seat, mut journal) = on(Keeping::InParts);
    seat.arena_open(8, 0, 2).expect("an arena");
    assert_eq!(seat.cut(&mut journal), Ok(Part { from: 0, calls: 1 }));
    assert_eq!(seat.cut(&mut journal), Err(Code::UNREAD));
    assert_eq!(text_of(&mut journal).lines().count(), 2);
    seat.arena_close(1).expect("no arena");
    assert_eq!(seat.close_into(&mut journal).ok(), Some((2, Part { from: 1, calls: 1 })));
    assert_eq!(text_of(&mut journal), "{\"cmd\":\"close 1\",\"reply\":\"ok\",\"seat\":1}\n");
    assert!(journal.close().is_ok());
}

#[test]
fn a_market_that_keeps_nothing_leaves_no_part() {
    let (seat, mut journal) = on(Keeping::Nothing);
    let Err((seat, code)) = seat.close_into(&mut journal) else { panic!("a part of nothing") };
    assert_eq!(code, Code::NO_PART);
    assert_eq!(seat.close().ok(), Some(0));
    assert_eq!(text_of(&mut journal).lines().count(), 1);
    assert!(journal.close().is_ok());
}
