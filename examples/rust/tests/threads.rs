//! Threads share a market, each with a seat of its own.
use market::{Code, Keeping, Seat, Terms};
use std::thread;

const TERMS: Terms = Terms { base: 4, hard: 64, seats: 4, places: 1_000, levels: 3, last: 1_048_576, keeping: Keeping::Nothing };

#[test]
fn three_workers_join_stay_and_leave() {
    let mut first = Seat::open(TERMS).expect("a market");
    let arena = first.arena_open(8, 0, 2).expect("an arena");
    first.request(arena, 3, 0).expect("a demand of three");
    let seats: Vec<Seat> = std::iter::from_fn(|| first.split()).collect();
    assert_eq!(seats.len(), 3);
    let running: Vec<_> = seats
        .into_iter()
        .map(|mut seat| {
            thread::spawn(move || {
                assert_eq!(seat.join(), Ok(Some(arena)));
                for _ in 0..1_000 {
                    assert_eq!(seat.stay(), Ok(true));
                }
                assert_eq!(seat.leave(), Ok(arena));
                seat
            })
        })
        .collect();
    for thread in running {
        let seat = thread.join().expect("a worker");
        assert!(first.merge(seat).is_ok());
    }
    assert_eq!(first.show(arena).expect("a view").active, 0);
    assert_eq!(first.close().ok(), Some(3 + 3 * 1_002));
}

#[test]
fn what_is_refused_comes_back() {
    let mut first = Seat::open(TERMS).expect("a market");
    let mut other = Seat::open(TERMS).expect("another");
    let stray = other.split().expect("a seat");
    let Err((stray, code)) = first.merge(stray) else { panic!("seats of two markets") };
    assert_eq!(code, Code::OTHER_MARKET);
    let Err((mut other, code)) = other.close() else { panic!("a seat is out") };
    assert_eq!(code, Code::SEATS_OUT);
    assert_eq!(first.leave(), Err(Code::UNFIT));
    assert_eq!(first.request(7, 1, 0), Err(Code::NO_ARENA));
    assert_eq!(format!("{}", Code::NO_ARENA), "MARKET_NO_ARENA");
    assert!(other.merge(stray).is_ok());
    assert_eq!(other.close().ok(), Some(0));
    assert_eq!(first.close().ok(), Some(1));
    assert_eq!(Seat::open(Terms { seats: 65, ..TERMS }).err().map(Code::name), Some("MARKET_BAD_SEATS"));
}
