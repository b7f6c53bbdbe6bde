//! Which loan each call asks for, as a type; and threads that share a store by a lock. That the compiler refuses any other use is tried in `src/borrows.rs`.
use sobumikeyo::{Chart, Context, Desk, Refusal, Report, Sample, Stopped, Store, PLAIN_WEIGHT};
use std::sync::Mutex;
use std::thread;

/// A call that writes asks for the store alone.
#[allow(clippy::type_complexity)]
const WRITE: (
    fn(&mut Store, u32) -> Result<(), Refusal>,
    fn(&mut Store, Desk, u32, u32, u32, u32) -> Result<(), Refusal>,
    fn(&mut Store, Desk, Sample, u32) -> Result<(), Refusal>,
    fn(&mut Store, Desk, Sample, &[u8]) -> Result<(), Stopped>,
    fn(&mut Store, Desk) -> Result<(), Refusal>,
) = (Store::make, Store::open, Store::feed, Store::feed_all, Store::close);

/// A call that reads leaves it to others who read.
#[allow(clippy::type_complexity)]
const READ: (
    fn(&Store) -> &[u32],
    fn(&Store) -> bool,
    fn(&Store) -> Result<u32, Refusal>,
    fn(&Store, Desk) -> Result<Report, Refusal>,
    fn(&Store, Desk, &mut [u32], u32) -> Result<(u32, i64), Refusal>,
    fn(&Store, Desk, Context, u32) -> Result<Chart, Refusal>,
) = (Store::numbers, Store::is_sound, Store::room_left, Store::report, Store::report_on, Store::chart);

const DESKS: u32 = 4;
const ROOM: u32 = 400;
const SITTINGS: u32 = 50;

/// One sitting at a desk, from its opening to its closing, with the store lent anew for each call.
fn sitting(store: &Mutex<Store>, desk: Desk, seed: u32) -> Report {
    let call = || store.lock().unwrap();
    let symbols: Vec<u8> = (0..60).map(|place| ((place * place + seed * place + desk.0) % 7 % 3) as u8).collect();
    call().open(desk, 3, 3, PLAIN_WEIGHT, ROOM / DESKS).unwrap();
    call().feed_all(desk, Sample::FIRST, &symbols).unwrap();
    for &symbol in symbols.iter().rev() {
        call().feed(desk, Sample::SECOND, u32::from(symbol)).unwrap();
    }
    let report = call().report(desk).unwrap();
    call().close(desk).unwrap();
    report
}

#[test]
fn each_call_has_its_loan() {
    let (make, ..) = WRITE;
    let (_, is_sound, room_left, ..) = READ;
    let mut store = Store::of_numbers(vec![0; 3000]);
    make(&mut store, 3).unwrap();
    assert!(is_sound(&store));
    assert_eq!(room_left(&store), Ok(3));
}

#[test]
fn four_desks_of_one_store() {
    let shared = Mutex::new(Store::new(ROOM).unwrap());
    thread::scope(|threads| {
        for desk in (0..DESKS).map(Desk) {
            let shared = &shared;
            threads.spawn(move || {
                for seed in 0..SITTINGS {
                    let alone = Mutex::new(Store::new(ROOM).unwrap());
                    assert_eq!(sitting(shared, desk, seed), sitting(&alone, desk, seed));
                }
            });
        }
    });
    assert_eq!(shared.into_inner().unwrap().room_left(), Ok(ROOM));
}

#[test]
fn reports_side_by_side() {
    let mut store = Store::new(ROOM).unwrap();
    store.open(Desk(0), 3, 3, PLAIN_WEIGHT, ROOM).unwrap();
    store.feed_all(Desk(0), Sample::FIRST, &[0, 1, 2, 0, 2, 1, 0, 1]).unwrap();
    store.feed_all(Desk(0), Sample::SECOND, &[2, 1, 0, 0, 1, 2, 2, 1]).unwrap();
    let (store, report) = (&store, store.report(Desk(0)));
    thread::scope(|threads| {
        for _ in 0..DESKS {
            threads.spawn(|| (0..SITTINGS).for_each(|_| assert_eq!(store.report(Desk(0)), report)));
        }
    });
}
