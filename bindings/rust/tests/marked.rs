//! Document 01's marked examples, J2 as request E3 works it anew, since places are counted from D+1 on, and J5 as request E8 does: samples
//! no longer than D get no report. Scores are those of request E5 at the plain weight.
use sobumikeyo::Kind::{First, Second, Shared};
use sobumikeyo::{Chart, Context, Desk, Kind, Point, Report, Sample, Store, PLAIN_WEIGHT};

const DESK: Desk = Desk(0);

fn sitting(depth: u32, reservation: u32, first: &[u8], second: &[u8]) -> Store {
    let mut store = Store::new(reservation).unwrap();
    store.open(DESK, 2, depth, PLAIN_WEIGHT, reservation).unwrap();
    store.feed_all(DESK, Sample::FIRST, first).unwrap();
    store.feed_all(DESK, Sample::SECOND, second).unwrap();
    store
}

fn report(depth: u32, first: &[u8], second: &[u8]) -> Report {
    sitting(depth, 3, first, second).report(DESK).unwrap()
}

/// A row by its kind, its symbols and the counts of the two symbols.
type Told = (Kind, Vec<u8>, [u32; 2]);

fn rows(report: &Report) -> Vec<Told> {
    report
        .rows
        .iter()
        .map(|row| {
            assert_eq!(row.counts[2..], [0; 6], "no counts outside the alphabet");
            assert_eq!(row.context.length as usize, row.context.symbols().len());
            (row.kind, row.context.symbols(), [row.counts[0], row.counts[1]])
        })
        .collect()
}

#[test]
fn j1_two_shared_contexts() {
    let told = report(1, &[0, 1, 0, 1], &[0, 1, 0, 1]);
    assert_eq!(rows(&told), [(Shared, vec![0], [0, 4]), (Shared, vec![1], [2, 0])]);
    assert_eq!(told.score, -24576);
    assert!(told.first_tree().eq(told.second_tree()));
}

#[test]
fn j1_empty_context() {
    let store = sitting(1, 3, &[0, 1, 0, 1], &[0, 1, 0, 1]);
    let (third, two_thirds) = (1.0 / 3.0, 2.0 / 3.0);
    let empty = Context::of(&[]).unwrap();
    assert_eq!(store.chart(DESK, empty, 0), Ok(Chart::Both(Point { first: third, second: third, gap: 0.0 })));
    assert_eq!(store.chart(DESK, empty, 1), Ok(Chart::Both(Point { first: two_thirds, second: two_thirds, gap: 0.0 })));
}

#[test]
fn j1_needs_three_contexts() {
    let mut store = Store::new(2).unwrap();
    store.open(DESK, 2, 1, PLAIN_WEIGHT, 2).unwrap();
    let stopped = store.feed_all(DESK, Sample::FIRST, &[0, 1, 0, 1]).unwrap_err();
    assert_eq!((stopped.accepted, stopped.refusal.number()), (2, 10));
}

#[test]
fn j2_all_their_own() {
    let told = report(1, &[0, 1, 0, 1], &[0, 0, 0, 0]);
    assert_eq!(rows(&told), [(Second, vec![], [3, 0]), (First, vec![0], [0, 2]), (First, vec![1], [1, 0])]);
    assert_eq!(told.score, -24576);
    let trees = [told.first_tree().count(), told.second_tree().count()];
    assert_eq!(trees, [2, 1]);
}

#[test]
fn j3_one_habit_shared() {
    let told = report(1, &[0, 1, 0, 1, 0, 1, 0, 1], &[0, 0, 1, 0, 0, 1, 0, 0]);
    assert_eq!(rows(&told), [(First, vec![0], [0, 4]), (Second, vec![0], [3, 2]), (Shared, vec![1], [5, 0])]);
    assert_eq!(told.score, -80704);
    let first: Vec<Kind> = told.first_tree().map(|row| row.kind).collect();
    let second: Vec<Kind> = told.second_tree().map(|row| row.kind).collect();
    assert_eq!((first, second), (vec![First, Shared], vec![Second, Shared]));
}

#[test]
fn j4_no_memory() {
    let told = report(0, &[0, 1, 0, 1], &[0, 1, 0, 1]);
    assert_eq!(rows(&told), [(Shared, vec![], [4, 4])]);
    assert_eq!(told.score, -77824);
}

#[test]
fn j5_no_longer_than_the_depth() {
    assert_eq!(sitting(1, 3, &[0], &[0]).report(DESK).unwrap_err().number(), 24);
}

/// Of one symbol each, at depth 0: L(1) is 0, so that contexts of their own cost nothing.
#[test]
fn equal_samples_need_not_be_shared() {
    let told = report(0, &[0], &[0]);
    assert_eq!(rows(&told), [(First, vec![], [1, 0]), (Second, vec![], [1, 0])]);
    assert_eq!(told.score, 0);
}
