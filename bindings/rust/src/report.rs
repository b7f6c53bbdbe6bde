//! Reports, their rows and contexts.
use crate::{Refusal, Sample};

/// How many numbers a row has on a sheet: kind, length, code and eight counts.
pub const ROW_WIDTH: usize = 3 + COUNTS;
const COUNTS: usize = 8;
const DEEPEST: usize = 6;
const CODE_BASE: u32 = 8;

/// A string of symbols that came just before, by its length and code: the sum of symbol times 8^j, where j is 0 for the most recent.
///
/// Any two numbers may stand here; those that are no context of a sitting get refusal 8 there.
#[derive(Clone, Copy, Debug, PartialEq, Eq, Hash)]
pub struct Context {
    pub length: u32,
    pub code: u32,
}

impl Context {
    /// The context of these symbols, oldest first; refusal 8 for what no sitting can have: more than 6 symbols, or one above 7.
    ///
    /// ```
    /// use sobumikeyo::Context;
    /// assert_eq!(Context::of(&[2, 1])?, Context { length: 2, code: 17 });
    /// assert_eq!(Context::of(&[8]).unwrap_err().number(), 8);
    /// # Ok::<(), sobumikeyo::Refusal>(())
    /// ```
    pub fn of(symbols: &[u8]) -> Result<Context, Refusal> {
        if symbols.len() > DEEPEST || symbols.iter().any(|&symbol| u32::from(symbol) >= CODE_BASE) {
            return Err(Refusal::NOT_OF_SITTING);
        }
        let code = symbols.iter().fold(0, |code, &symbol| CODE_BASE * code + u32::from(symbol));
        Ok(Context { length: symbols.len() as u32, code })
    }

    /// Its symbols, oldest first.
    pub fn symbols(self) -> Vec<u8> {
        let mut symbols = Vec::new();
        let mut code = self.code;
        for _ in 0..self.length {
            symbols.push((code % CODE_BASE) as u8);
            code /= CODE_BASE;
        }
        symbols.reverse();
        symbols
    }
}

/// Whose context a row is.
#[derive(Clone, Copy, Debug, PartialEq, Eq, Hash)]
pub enum Kind {
    /// Both samples treat it alike.
    Shared,
    /// The first sample's own.
    First,
    /// The second sample's own.
    Second,
}

/// One context of a report.
#[derive(Clone, Copy, Debug, PartialEq, Eq, Hash)]
pub struct Row {
    pub kind: Kind,
    pub context: Context,
    /// How often each symbol came next, at places from depth + 1 on; 0 for symbols outside the alphabet. A shared row has the counts of both
    /// samples added.
    pub counts: [u32; COUNTS],
}

impl Row {
    /// The row of its eleven numbers on a sheet that a report has written.
    pub(crate) fn of_numbers(numbers: &[u32]) -> Row {
        let kind = match numbers[0] {
            0 => Kind::Shared,
            1 => Kind::First,
            _ => Kind::Second,
        };
        let mut counts = [0; COUNTS];
        counts.copy_from_slice(&numbers[3..]);
        Row { kind, context: Context { length: numbers[1], code: numbers[2] }, counts }
    }

    /// Whether the row's context is one of that sample's tree.
    fn is_of(&self, sample: Sample) -> bool {
        match self.kind {
            Kind::Shared => true,
            Kind::First => sample == Sample::FIRST,
            Kind::Second => sample == Sample::SECOND,
        }
    }
}

/// The joint estimate of a sitting: rows in the order of their contexts, and the score, which is never above 0.
///
/// The score is the sum of each row's fit less its cost. With counts c and total t the fit is eightfold, 8 (the sum of c L(c), less t L(t)), and the
/// cost weight (A-1) L(the length of its sample, or of both where shared). L(n) is 1,024 times the logarithm of n to base 2, rounded down.
#[derive(Clone, Debug, PartialEq, Eq)]
pub struct Report {
    pub rows: Vec<Row>,
    pub score: i64,
}

impl Report {
    /// The complete tree of the first sample: the shared rows and its own.
    pub fn first_tree(&self) -> impl Iterator<Item = &Row> {
        self.rows.iter().filter(|row| row.is_of(Sample::FIRST))
    }

    /// The complete tree of the second sample: the shared rows and its own.
    pub fn second_tree(&self) -> impl Iterator<Item = &Row> {
        self.rows.iter().filter(|row| row.is_of(Sample::SECOND))
    }
}
