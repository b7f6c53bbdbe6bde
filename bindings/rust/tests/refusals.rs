//! Each refusal by its number, at its limit; a refused call leaves every number as it was.
use sobumikeyo::{read, store_size, Chart, Context, Desk, Kind, Point, Refusal, Row, Sample, Store, LARGEST_WEIGHT, PLAIN_WEIGHT};

const DESK: Desk = Desk(0);
const LONGEST: usize = 2048;

/// Makes a call that must be refused with that number and write nothing.
fn refused<T: std::fmt::Debug>(number: u32, store: &mut Store, call: impl Fn(&mut Store) -> Result<T, Refusal>) {
    let before = store.clone();
    assert_eq!(call(store).unwrap_err().number(), number);
    assert!(*store == before, "a refused call writes nothing");
}

/// A store of room 12 with desk 0 open: three symbols, depth 2, five contexts reserved.
fn opened() -> Store {
    let mut store = Store::new(12).unwrap();
    store.open(DESK, 3, 2, PLAIN_WEIGHT, 5).unwrap();
    store
}

#[test]
fn numbers_that_are_no_store() {
    let mut store = Store::of_numbers(vec![7; 3000]);
    assert!(!store.is_sound());
    refused(1, &mut store, |s| s.open(Desk(9), 9, 9, 17, 0));
    refused(1, &mut store, |s| s.feed(DESK, Sample::FIRST, 0));
    refused(1, &mut store, |s| s.close(DESK));
    refused(1, &mut store, |s| s.room_left());
    refused(1, &mut store, |s| s.report(DESK));
    refused(1, &mut store, |s| s.chart(DESK, Context { length: 0, code: 0 }, 0));
    refused(1, &mut store, |s| s.feed_all(DESK, Sample::FIRST, &[0]).map_err(Refusal::from));
    let mut none = Store::of_numbers(Vec::new());
    refused(1, &mut none, |s| s.room_left());
    refused(18, &mut none, |s| s.make(1));
}

#[test]
fn desks() {
    let mut store = opened();
    refused(2, &mut store, |s| s.open(Desk(8), 3, 2, PLAIN_WEIGHT, 1));
    refused(2, &mut store, |s| s.close(Desk(u32::MAX)));
    refused(3, &mut store, |s| s.open(DESK, 3, 2, PLAIN_WEIGHT, 1));
    refused(4, &mut store, |s| s.close(Desk(1)));
    refused(4, &mut store, |s| s.report(Desk(7)));
    store.open(Desk(7), 3, 2, PLAIN_WEIGHT, 1).unwrap();
    store.close(Desk(7)).unwrap();
}

#[test]
fn openings() {
    let mut store = opened();
    for (alphabet, depth) in [(1, 0), (9, 0), (2, 7)] {
        refused(5, &mut store, |s| s.open(Desk(1), alphabet, depth, PLAIN_WEIGHT, 1));
    }
    refused(6, &mut store, |s| s.open(Desk(1), 8, 6, PLAIN_WEIGHT, 0));
    refused(6, &mut store, |s| s.open(Desk(1), 8, 6, PLAIN_WEIGHT, 13));
    refused(7, &mut store, |s| s.open(Desk(1), 8, 6, PLAIN_WEIGHT, 8));
    store.open(Desk(1), 8, 6, PLAIN_WEIGHT, 7).unwrap();
    assert_eq!(store.room_left(), Ok(0));
}

/// 20 goes after 2, 3 and 5, and before 6 and 7.
#[test]
fn weights() {
    let mut store = opened();
    for weight in [LARGEST_WEIGHT + 1, LARGEST_WEIGHT + 16, 1 << 8, 1 << 16, 1 << 31, u32::MAX] {
        refused(2, &mut store, |s| s.open(Desk(8), 8, 6, weight, 1));
        refused(3, &mut store, |s| s.open(DESK, 8, 6, weight, 1));
        refused(5, &mut store, |s| s.open(Desk(1), 9, 6, weight, 1));
        refused(5, &mut store, |s| s.open(Desk(1), 8, 7, weight, 1));
        for reservation in [0, 1, 7, 8, 13] {
            refused(20, &mut store, |s| s.open(Desk(1), 8, 6, weight, reservation));
        }
    }
    for weight in 0..=LARGEST_WEIGHT {
        refused(6, &mut store, |s| s.open(Desk(1), 8, 6, weight, 0));
        store.open(Desk(1), 8, 6, weight, 7).unwrap();
        store.close(Desk(1)).unwrap();
    }
}

#[test]
fn samples_symbols_and_contexts() {
    let mut store = opened();
    refused(8, &mut store, |s| s.feed(DESK, Sample(2), 0));
    refused(8, &mut store, |s| s.feed(DESK, Sample::FIRST, 3));
    let unknown = [(3, 0), (1, 3), (1, 8), (2, 24), (0, 1), (u32::MAX, u32::MAX)];
    for (length, code) in unknown {
        refused(8, &mut store, |s| s.chart(DESK, Context { length, code }, 0));
    }
    refused(8, &mut store, |s| s.chart(DESK, Context { length: 0, code: 0 }, 3));
    assert_eq!(Context::of(&[0; 7]).unwrap_err().number(), 8);
    store.feed(DESK, Sample::SECOND, 2).unwrap();
}

#[test]
fn the_longest_sample() {
    let mut store = Store::new(1).unwrap();
    store.open(DESK, 2, 0, PLAIN_WEIGHT, 1).unwrap();
    let stopped = store.feed_all(DESK, Sample::FIRST, &[1; LONGEST + 1]).unwrap_err();
    assert_eq!((stopped.accepted as usize, stopped.refusal.number()), (LONGEST, 9));
    refused(9, &mut store, |s| s.feed(DESK, Sample::FIRST, 0));
    store.feed_all(DESK, Sample::SECOND, &[1; LONGEST]).unwrap();
    let report = store.report(DESK).unwrap();
    let row = Row { kind: Kind::Shared, context: Context::of(&[]).unwrap(), counts: [0, 2 * LONGEST as u32, 0, 0, 0, 0, 0, 0] };
    assert_eq!((report.rows, report.score), (vec![row], -49152));
}

#[test]
fn past_the_reservation() {
    let mut store = opened();
    store.feed_all(DESK, Sample::FIRST, &[0, 1, 0, 2]).unwrap();
    refused(10, &mut store, |s| s.feed(DESK, Sample::FIRST, 2));
    refused(10, &mut store, |s| s.feed_all(DESK, Sample::FIRST, &[2, 2]).map_err(Refusal::from));
}

#[test]
fn reports() {
    let mut store = opened();
    store.feed(DESK, Sample::FIRST, 0).unwrap();
    refused(11, &mut store, |s| s.report(DESK));
    store.feed(DESK, Sample::SECOND, 0).unwrap();
    refused(24, &mut store, |s| s.report_on(DESK, &mut [], 0));
    for sample in [Sample::FIRST, Sample::SECOND] {
        refused(24, &mut store, |s| s.report(DESK));
        store.feed_all(DESK, sample, &[0, 0]).unwrap();
    }
    let rows = store.report(DESK).unwrap().rows.len();
    let mut sheet = vec![7; 11 * (2 + rows) + 10];
    assert_eq!(store.report_on(DESK, &mut sheet, 3).unwrap_err().number(), 12);
    assert!(sheet.iter().all(|&number| number == 7), "a refused report leaves the sheet");
    store.report_on(DESK, &mut sheet, 2).unwrap();
    assert!(sheet[..22].iter().chain(&sheet[22 + 11 * rows..]).all(|&number| number == 7), "only the rows are written");
    assert_eq!(store.report_on(DESK, &mut [], 0).unwrap_err().number(), 12);
}

#[test]
fn makings() {
    for room in [0, 4097, u32::MAX] {
        assert_eq!(Store::new(room).unwrap_err().number(), 17);
    }
    assert_eq!(Store::new(4096).unwrap().room_left(), Ok(4096));
    let mut short = Store::of_numbers(vec![0; store_size(5) - 1]);
    refused(17, &mut short, |s| s.make(0));
    refused(18, &mut short, |s| s.make(5));
    short.make(4).unwrap();
    assert!(short.is_sound());
}

#[test]
fn files() {
    let faults: [(u32, &[u8]); 6] =
        [(13, &[]), (13, &[2, 1, 1, 1, 0]), (14, &[2, 0x80, 0]), (15, &[9]), (15, &[2, 1, 1, 1, 0, 2]), (16, &[2, 1, 1, 1, 0, 1, 0])];
    // one more than the largest length
    let too_long: [(u32, &[u8]); 2] = [(15, &[2, 0, 0x81, 0x10, 1]), (15, &[2, 0, 1, 0x81, 0x10])];
    for (number, file) in faults.into_iter().chain(too_long) {
        assert_eq!(read(file).unwrap_err().number(), number);
    }
    let long = [&[2, 0, 0x80, 0x10, 1][..], &[1; LONGEST], &[0]].concat();
    let file = read(&long).unwrap();
    assert_eq!((file.first, file.second), (&[1; LONGEST][..], &[0][..]));
}

#[test]
fn charts_and_kept_stores() {
    let mut store = Store::new(8).unwrap();
    store.open(DESK, 2, 1, PLAIN_WEIGHT, 8).unwrap();
    let zero = Context::of(&[0]).unwrap();
    assert_eq!(store.chart(DESK, zero, 1), Ok(Chart::Neither));
    store.feed_all(DESK, Sample::SECOND, &[0, 1, 0, 0]).unwrap();
    assert_eq!(store.chart(DESK, zero, 1), Ok(Chart::Second(0.5)));
    store.feed_all(DESK, Sample::FIRST, &[0, 0]).unwrap();
    let point = Point { first: 0.0, second: 0.5, gap: -0.5 };
    assert_eq!(store.chart(DESK, zero, 1), Ok(Chart::Both(point)));
    let kept = Store::of_numbers(store.numbers().to_vec());
    assert_eq!(kept.report(DESK), store.report(DESK));
}
