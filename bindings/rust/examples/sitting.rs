//! Prints the report on a sitting file at standard input, as the repository's own program does.
//!
//!     python3 -m reference.compare --program target/cargo/debug/examples/sitting
use sobumikeyo::{read, Desk, Refusal, Sample, Store, PLAIN_WEIGHT, ROW_WIDTH};
use std::io::{Read, Write};

const INPUT_BYTES: u64 = 4608;
const ROOM: u32 = 256;
const SHEET_ROWS: usize = 512;

fn report(file: &[u8]) -> Result<String, Refusal> {
    let sitting = read(file)?;
    let (desk, alphabet) = (Desk(0), sitting.alphabet as usize);
    let mut store = Store::new(ROOM)?;
    store.open(desk, sitting.alphabet, sitting.depth, PLAIN_WEIGHT, ROOM)?;
    store.feed_all(desk, Sample::FIRST, sitting.first)?;
    store.feed_all(desk, Sample::SECOND, sitting.second)?;
    let mut sheet = [0; ROW_WIDTH * SHEET_ROWS];
    let (rows, score) = store.report_on(desk, &mut sheet, 0)?;
    let (n, m) = (sitting.first.len(), sitting.second.len());
    let mut text = format!("{} {} {n} {m} {rows} {score}\n", sitting.alphabet, sitting.depth);
    for row in sheet.chunks(ROW_WIDTH).take(rows as usize) {
        let words: Vec<String> = row[..3 + alphabet].iter().map(u32::to_string).collect();
        text += &(words.join(" ") + "\n");
    }
    Ok(text)
}

fn main() -> std::io::Result<()> {
    let mut file = Vec::new();
    std::io::stdin().take(INPUT_BYTES).read_to_end(&mut file)?;
    let text = report(&file).unwrap_or_else(|refusal| format!("refused {}\n", refusal.number()));
    std::io::stdout().write_all(text.as_bytes())
}
