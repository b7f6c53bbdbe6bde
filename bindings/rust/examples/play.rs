//! Plays a script of store calls (the language is in `reference/README.md`) and prints every answer.
//!
//!     python3 -m reference.compare --scripts target/cargo/debug/examples/play
use sobumikeyo::{Chart, Context, Desk, Point, Refusal, Sample, Stopped, Store, ROW_WIDTH};
use std::io::{Read, Write};

const PLAYER_NUMBERS: usize = 100_352;
const LONGEST_SHEET: usize = 5_632;
const BLANK: u32 = u32::MAX;

/// Says in one line what is wrong with the script, and ends.
fn no_script(words: &str) -> ! {
    eprintln!("play: not a script: {words}");
    std::process::exit(1)
}

/// The numbers of a script, in their order.
struct Script(std::vec::IntoIter<u32>);

impl Script {
    fn of(text: &str) -> Script {
        let words = text.split(|c: char| !c.is_ascii_digit()).filter(|word| !word.is_empty());
        let numbers: Vec<u32> = words.map(|word| word.parse().unwrap_or_else(|_| no_script("a number has more than 32 bits"))).collect();
        Script(numbers.into_iter())
    }

    fn number(&mut self) -> u32 {
        self.0.next().unwrap_or_else(|| no_script("it ends within a call"))
    }
}

/// A store of the first of the player's numbers, and those that it does not lend.
struct Player {
    store: Store,
    rest: Vec<u32>,
}

impl Player {
    fn new() -> Player {
        Player { store: Store::of_numbers(vec![0; PLAYER_NUMBERS]), rest: Vec::new() }
    }

    /// From now on a store of `len` numbers.
    fn lend(&mut self, len: usize) {
        let mut numbers = std::mem::replace(&mut self.store, Store::of_numbers(Vec::new())).into_numbers();
        numbers.append(&mut self.rest);
        self.rest = numbers.split_off(len);
        self.store = Store::of_numbers(numbers);
    }

    /// The answer of the next call; none at the script's end.
    fn play(&mut self, script: &mut Script) -> Option<String> {
        let opcode = script.0.next()?;
        let mut next = || script.number();
        Some(match opcode {
            0 => self.make(next(), next() as usize),
            1 => done(self.store.open(Desk(next()), next(), next(), next(), next())),
            2 => done(self.store.feed(Desk(next()), Sample(next()), next())),
            3 => done(self.store.close(Desk(next()))),
            4 => answer(self.store.room_left().map(|left| format!("room {left}"))),
            5 => self.report(Desk(next()), next() as usize, next()),
            6 => {
                let (desk, context) = (Desk(next()), Context { length: next(), code: next() });
                answer(self.store.chart(desk, context, next()).map(chart_words))
            }
            7 => self.spoil(next() as usize, next()),
            8 => self.feed_all(Desk(next()), Sample(next()), script),
            _ => no_script(&format!("no call has the number {opcode}")),
        })
    }

    /// A refused making leaves lent what was lent before.
    fn make(&mut self, room: u32, len: usize) -> String {
        if len > PLAYER_NUMBERS {
            no_script(&format!("the player has {PLAYER_NUMBERS} numbers, not {len}"));
        }
        let before = self.store.numbers().len();
        self.lend(len);
        let made = self.store.make(room);
        if made.is_err() {
            self.lend(before);
        }
        done(made)
    }

    fn feed_all(&mut self, desk: Desk, sample: Sample, script: &mut Script) -> String {
        let count = script.number();
        // a symbol too large for a byte is refused as 255 is: neither is below any alphabet's size
        let symbols: Vec<u8> = (0..count).map(|_| script.number().min(255) as u8).collect();
        if symbols.is_empty() {
            return "fed 0 whole".to_string(); // by the language's rule no call is made
        }
        match self.store.feed_all(desk, sample, &symbols) {
            Ok(()) => format!("fed {count} whole"),
            Err(Stopped { accepted, refusal }) => format!("fed {accepted} refused {}", refusal.number()),
        }
    }

    fn spoil(&mut self, place: usize, number: u32) -> String {
        if place >= PLAYER_NUMBERS {
            no_script(&format!("the player has {PLAYER_NUMBERS} numbers, none at {place}"));
        }
        let lent = self.store.numbers().len();
        self.lend(PLAYER_NUMBERS);
        let mut numbers = self.store.numbers().to_vec();
        numbers[place] = number;
        self.store = Store::of_numbers(numbers);
        self.lend(lent);
        "done".to_string()
    }

    /// The answer, the rows as they stand on the sheet, and how many numbers outside them have changed, where any have.
    fn report(&self, desk: Desk, sheet_len: usize, place: u32) -> String {
        if sheet_len > LONGEST_SHEET {
            no_script(&format!("a sheet has up to {LONGEST_SHEET} numbers, not {sheet_len}"));
        }
        let mut sheet = vec![BLANK; sheet_len];
        let answered = self.store.report_on(desk, &mut sheet, place);
        let start = ROW_WIDTH * place as usize;
        let end = start + ROW_WIDTH * answered.map_or(0, |(rows, _)| rows as usize);
        let mut lines = vec![answer(answered.map(|(rows, score)| format!("report {rows} {score}")))];
        if answered.is_ok() {
            lines.extend(sheet.drain(start..end).as_slice().chunks(ROW_WIDTH).map(row_words));
        }
        let outside = sheet.iter().filter(|&&number| number != BLANK).count();
        if outside > 0 {
            lines.push(format!("outside {outside}"));
        }
        lines.join("\n")
    }
}

fn answer(answered: Result<String, Refusal>) -> String {
    answered.unwrap_or_else(|refusal| format!("refused {}", refusal.number()))
}

fn done(answered: Result<(), Refusal>) -> String {
    answer(answered.map(|()| "done".to_string()))
}

fn row_words(row: &[u32]) -> String {
    row.iter().map(u32::to_string).collect::<Vec<_>>().join(" ")
}

/// Shares and gaps are printed as their bits.
fn chart_words(chart: Chart) -> String {
    match chart {
        Chart::Neither => "chart neither".to_string(),
        Chart::First(share) => format!("chart first {:016x}", share.to_bits()),
        Chart::Second(share) => format!("chart second {:016x}", share.to_bits()),
        Chart::Both(Point { first, second, gap }) => {
            format!("chart both {:016x} {:016x} {:016x}", first.to_bits(), second.to_bits(), gap.to_bits())
        }
    }
}

fn main() -> std::io::Result<()> {
    let mut bytes = Vec::new();
    std::io::stdin().read_to_end(&mut bytes)?;
    let mut script = Script::of(&String::from_utf8_lossy(&bytes));
    let mut player = Player::new();
    let mut to = std::io::BufWriter::new(std::io::stdout().lock());
    while let Some(lines) = player.play(&mut script) {
        writeln!(to, "{lines}")?;
    }
    to.flush()
}
