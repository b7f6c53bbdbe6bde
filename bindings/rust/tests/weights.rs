//! The weight of the penalty: J3's samples have another triple at each of the weights 0, 4 and 16, worked out by hand. L(2) is 1024, L(3) 1623,
//! L(5) 2377, L(6) 2647, L(8) 3072, L(14) 3898 and L(16) 4096.
use sobumikeyo::Kind::{First, Second, Shared};
use sobumikeyo::{Desk, Kind, Report, Sample, Store, LARGEST_WEIGHT, PLAIN_WEIGHT};

const LEARNER: [u8; 8] = [0, 1, 0, 1, 0, 1, 0, 1];
const REFERENCE: [u8; 8] = [0, 0, 1, 0, 0, 1, 0, 0];
const ROOM: u32 = 24;
const RESERVATION: u32 = 3;
/// Of desk 0, among a store's numbers (crates/store/specs/Layout).
const WEIGHT: usize = 19;
/// Eightfold: after 0 the reference had three 0 and two 1. No other context of the two trees of depth 1 has two symbols after it.
const FIT_AFTER_0: i64 = 8 * (3 * 1623 + 2 * 1024 - 5 * 2377);

/// A row by its kind, its symbols and the counts of the two symbols.
type Told = (Kind, Vec<u8>, [u32; 2]);

fn told(report: Report) -> (Vec<Told>, i64) {
    (report.rows.iter().map(|row| (row.kind, row.context.symbols(), [row.counts[0], row.counts[1]])).collect(), report.score)
}

/// Both trees of depth 1 cost nothing and fit as well apart as with a shared context, and two separate trees go before a split of both.
fn at_0() -> (Vec<Told>, i64) {
    let rows = vec![(First, vec![0], [0, 4]), (Second, vec![0], [3, 2]), (First, vec![1], [3, 0]), (Second, vec![1], [2, 0])];
    (rows, FIT_AFTER_0)
}

/// Two contexts of their own at 4 L(8) and a shared one at 4 L(16).
fn at_4() -> (Vec<Told>, i64) {
    let rows = vec![(First, vec![0], [0, 4]), (Second, vec![0], [3, 2]), (Shared, vec![1], [5, 0])];
    (rows, FIT_AFTER_0 - 4 * (2 * 3072 + 4096))
}

/// One context at 16 L(16), which loses less by its fit than any other would cost.
fn at_16() -> (Vec<Told>, i64) {
    (vec![(Shared, vec![], [8, 6])], 8 * (8 * 3072 + 6 * 2647 - 14 * 3898) - 16 * 4096)
}

fn sit(store: &mut Store, desk: Desk, weight: u32) {
    store.open(desk, 2, 1, weight, RESERVATION).unwrap();
    store.feed_all(desk, Sample::FIRST, &LEARNER).unwrap();
    store.feed_all(desk, Sample::SECOND, &REFERENCE).unwrap();
}

fn reported(store: &Store, desk: Desk) -> (Vec<Told>, i64) {
    told(store.report(desk).unwrap())
}

#[test]
fn one_sitting_at_three_weights() {
    for (weight, expected) in [(0, at_0()), (PLAIN_WEIGHT, at_4()), (LARGEST_WEIGHT, at_16())] {
        let mut store = Store::new(ROOM).unwrap();
        sit(&mut store, Desk(0), weight);
        assert_eq!(reported(&store, Desk(0)), expected, "weight {weight}");
    }
}

/// Neighbours have other weights, and a desk that is closed and opened again has the weight of its last opening.
#[test]
fn each_desk_by_its_own() {
    let mut store = Store::new(ROOM).unwrap();
    for (desk, weight) in [0, PLAIN_WEIGHT, LARGEST_WEIGHT].into_iter().enumerate() {
        sit(&mut store, Desk(desk as u32), weight);
    }
    assert_eq!([0, 1, 2].map(|desk| reported(&store, Desk(desk))), [at_0(), at_4(), at_16()]);
    store.close(Desk(1)).unwrap();
    sit(&mut store, Desk(1), LARGEST_WEIGHT);
    store.close(Desk(2)).unwrap();
    sit(&mut store, Desk(2), 0);
    assert_eq!([0, 1, 2].map(|desk| reported(&store, Desk(desk))), [at_0(), at_16(), at_0()]);
}

/// L by its rule, L(0) as L(1); floating point is exact enough for numbers as small as these.
fn logarithm(n: u32) -> i64 {
    (1024.0 * f64::from(n.max(1)).log2()).floor() as i64
}

fn fit(counts: [u32; 2]) -> i64 {
    let fold = |n: u32| i64::from(n) * logarithm(n);
    8 * (fold(counts[0]) + fold(counts[1]) - fold(counts[0] + counts[1]))
}

/// Every admissible triple of depth 1: the counts of its contexts with both symbols after them, how many of its contexts are shared, and how
/// many are own.
const TRIPLES: [(&[[u32; 2]], i64, i64); 8] = [
    (&[[8, 6]], 1, 0),         // shared {empty}
    (&[[3, 4], [5, 2]], 0, 2), // own {empty} and {empty}
    (&[[5, 2]], 0, 3),         // own {0, 1} and {empty}
    (&[[3, 4], [3, 2]], 0, 3), // own {empty} and {0, 1}
    (&[[3, 2]], 0, 4),         // own {0, 1} and {0, 1}
    (&[[3, 6]], 1, 2),         // shared {0}
    (&[[3, 2]], 1, 2),         // shared {1}
    (&[[3, 6]], 2, 0),         // shared {0, 1}
];

#[test]
fn the_score_is_the_best_of_all_triples() {
    for weight in 0..=LARGEST_WEIGHT {
        let scores = TRIPLES.map(|(mixed, shared, own)| {
            let fits: i64 = mixed.iter().copied().map(fit).sum();
            fits - i64::from(weight) * (shared * logarithm(16) + own * logarithm(8))
        });
        let mut store = Store::new(ROOM).unwrap();
        sit(&mut store, Desk(0), weight);
        assert_eq!(Some(reported(&store, Desk(0)).1), scores.into_iter().max(), "weight {weight}");
    }
}

#[test]
fn the_soundness_test_asks_for_its_limits() {
    let mut store = Store::new(ROOM).unwrap();
    sit(&mut store, Desk(0), PLAIN_WEIGHT);
    for weight in [LARGEST_WEIGHT, LARGEST_WEIGHT + 1, u32::MAX] {
        let mut numbers = store.numbers().to_vec();
        numbers[WEIGHT] = weight;
        let other = Store::of_numbers(numbers);
        let expected = if weight == LARGEST_WEIGHT { Ok(at_16()) } else { Err(1) };
        assert_eq!(other.is_sound(), expected.is_ok());
        assert_eq!(other.report(Desk(0)).map(told).map_err(|refusal| refusal.number()), expected);
    }
}
