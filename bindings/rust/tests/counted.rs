//! Places are counted from D+1 on: samples of no more than D symbols hold no context and get no report, and the first that is counted
//! adds a context of every length.
use sobumikeyo::{Chart, Context, Desk, Kind, Point, Refusal, Sample, Stopped, Store, PLAIN_WEIGHT, ROW_WIDTH};

const DESK: Desk = Desk(0);
const DEEPEST: usize = 6;
/// One more than the largest depth: the last is counted at every depth.
const ACTS: [u8; DEEPEST + 1] = [0, 1, 1, 0, 2, 1, 0];

/// A sitting with so many contexts reserved.
fn sitting_of(depth: usize, reservation: usize, first: &[u8], second: &[u8]) -> Result<Store, Stopped> {
    let (depth, reservation) = (depth as u32, reservation as u32);
    let mut store = Store::new(reservation).unwrap();
    store.open(DESK, 3, depth, PLAIN_WEIGHT, reservation).unwrap();
    store.feed_all(DESK, Sample::FIRST, first)?;
    store.feed_all(DESK, Sample::SECOND, second)?;
    Ok(store)
}

/// The same, with both samples fed the same symbols.
fn sitting(depth: usize, reservation: usize, symbols: &[u8]) -> Result<Store, Stopped> {
    sitting_of(depth, reservation, symbols, symbols)
}

/// The chart answers for every context that the symbols end in, the longest first and the empty one last.
fn charts(store: &Store, before: &[u8], symbol: u8) -> Vec<Result<Chart, Refusal>> {
    (0..=before.len()).map(|start| store.chart(DESK, Context::of(&before[start..]).unwrap(), symbol.into())).collect()
}

/// Kinds, lengths and totals of a report's rows, and its score.
fn reported(store: &Store) -> (Vec<(Kind, u32, u32)>, i64) {
    let report = store.report(DESK).unwrap();
    (report.rows.iter().map(|row| (row.kind, row.context.length, row.counts.iter().sum())).collect(), report.score)
}

/// Asks for a report that must be refused with that number and write nothing, neither to the sheet nor to the store.
fn refused(number: u32, store: &Store, sheet_len: usize) {
    let (before, mut sheet) = (store.clone(), vec![7; sheet_len]);
    assert_eq!(store.report_on(DESK, &mut sheet, 1).unwrap_err().number(), number);
    assert!(sheet.iter().all(|&number| number == 7), "a refused report leaves the sheet");
    assert!(*store == before, "a refused report leaves the store");
}

#[test]
fn no_more_symbols_than_the_depth() {
    for depth in 1..=DEEPEST {
        let before = &ACTS[..depth];
        let store = sitting(depth, 1, before).unwrap();
        for symbol in 0..3 {
            assert_eq!(charts(&store, before, symbol), vec![Ok(Chart::Neither); depth + 1]);
        }
        refused(24, &store, 4 * ROW_WIDTH);
    }
}

/// 24 with one symbol and with as many as the depth, in either sample; before it 11 where one is empty, and after it 12.
#[test]
fn reports_by_the_lengths_of_both_samples() {
    for depth in 0..=DEEPEST {
        let lengths = [0, 1, depth, depth + 1];
        for (first, second) in lengths.into_iter().flat_map(|first| lengths.map(|second| (first, second))) {
            let store = sitting_of(depth, depth + 1, &ACTS[..first], &ACTS[..second]).unwrap();
            let shortest = first.min(second);
            if shortest > depth {
                refused(12, &store, 0);
                let counted: u32 = reported(&store).0.iter().map(|&(_, _, total)| total).sum();
                assert_eq!(counted, 2, "one act of each is counted");
            } else {
                let number = if shortest == 0 { 11 } else { 24 };
                refused(number, &store, 4 * ROW_WIDTH);
                refused(number, &store, 0);
            }
        }
    }
}

/// Three acts of each at depth 2, of which one counts, with A 3.
#[test]
fn costs_go_by_the_whole_lengths() {
    // a shared context at 4 * 2 L(6) costs less than two own ones at 4 * 2 L(3)
    assert_eq!(reported(&sitting(2, 3, &[0, 1, 0]).unwrap()), (vec![(Kind::Shared, 0, 2)], -21176));
    let apart = sitting_of(2, 3, &[0, 1, 2], &[0, 1, 0]).unwrap();
    assert_eq!(reported(&apart), (vec![(Kind::First, 0, 1), (Kind::Second, 0, 1)], -25968));
}

#[test]
fn the_first_that_is_counted() {
    for depth in 0..=DEEPEST {
        let store = sitting(depth, depth + 1, &ACTS[..=depth]).unwrap();
        let both = Chart::Both(Point { first: 1.0, second: 1.0, gap: 0.0 });
        assert_eq!(charts(&store, &ACTS[..depth], ACTS[depth]), vec![Ok(both); depth + 1], "the second sample adds no context");
    }
    for depth in 1..=DEEPEST {
        let stopped = sitting(depth, depth, &ACTS).unwrap_err();
        assert_eq!((stopped.accepted as usize, stopped.refusal.number()), (depth, 10));
    }
}

#[test]
fn each_sample_by_itself() {
    let mut store = sitting(2, 3, &[0, 1]).unwrap();
    store.feed(DESK, Sample::FIRST, 2).unwrap();
    assert_eq!(charts(&store, &[0, 1], 2), vec![Ok(Chart::First(1.0)); 3]);
    // the 1 at place 2 is not counted
    assert_eq!(charts(&store, &[0], 1), vec![Ok(Chart::Neither), Ok(Chart::First(0.0))]);
}
