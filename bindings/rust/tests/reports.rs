//! A report of more rows than the program's sheet has: `many_rows.txt` has two strings that go round, so that nearly every context of five or
//! six symbols has one next symbol, and another one in each. And one of more rows than the first sheet that `report` lends.
use sobumikeyo::{Desk, Kind, Row, Sample, Store, PLAIN_WEIGHT, ROW_WIDTH};

const DESK: Desk = Desk(0);
const DEPTH: u32 = 6;
const LONGEST: usize = 2048;
const PROGRAM_ROWS: usize = 512;
const FIRST_SHEET_ROWS: usize = 1024;

fn sitting(alphabet: u32, weight: u32) -> Store {
    let mut store = Store::new(4096).unwrap();
    store.open(DESK, alphabet, DEPTH, weight, 4096).unwrap();
    for (sample, period) in [Sample::FIRST, Sample::SECOND].into_iter().zip(include_str!("../../many_rows.txt").lines()) {
        let symbols: Vec<u8> = period.bytes().map(|digit| digit - b'0').cycle().take(LONGEST).collect();
        store.feed_all(DESK, sample, &symbols).unwrap();
    }
    store
}

#[test]
fn more_rows_than_the_program_has() {
    let (store, mut sheet) = (sitting(3, PLAIN_WEIGHT), vec![0; (PROGRAM_ROWS + 17) * ROW_WIDTH]);
    assert_eq!(store.report_on(DESK, &mut sheet[..PROGRAM_ROWS * ROW_WIDTH], 0).unwrap_err().number(), 12);
    assert_eq!(store.report_on(DESK, &mut sheet, 0), Ok((529, -47955968)));
    let report = store.report(DESK).unwrap();
    assert_eq!((report.rows.len(), report.score), (529, -47955968));
    assert_eq!(report.rows.iter().filter(|row| row.kind == Kind::Shared).count(), 35);
    assert_eq!((report.first_tree().count(), report.second_tree().count()), (281, 283));
}

/// Whether the contexts are as many as a complete tree has: one of length k has a share of A^-k, and all add up to 1.
fn complete<'a>(tree: impl Iterator<Item = &'a Row>, alphabet: u64) -> bool {
    tree.map(|row| alphabet.pow(DEPTH - row.context.length)).sum::<u64>() == alphabet.pow(DEPTH)
}

/// With weight 0 and eight symbols, of which three are fed, each split adds five leaves or more that no sample saw.
#[test]
fn more_rows_than_the_first_sheet() {
    let store = sitting(8, 0);
    let mut sheet = vec![0; FIRST_SHEET_ROWS * ROW_WIDTH];
    assert_eq!(store.report_on(DESK, &mut sheet, 0).unwrap_err().number(), 12);
    let report = store.report(DESK).unwrap();
    assert!(report.rows.len() > FIRST_SHEET_ROWS);
    assert!(complete(report.first_tree(), 8) && complete(report.second_tree(), 8));
    let acts: u32 = report.rows.iter().flat_map(|row| row.counts).sum();
    assert_eq!(acts as usize, 2 * (LONGEST - DEPTH as usize));
}
