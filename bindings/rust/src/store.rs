//! The store and its desks.
use crate::report::{Report, Row, ROW_WIDTH};
use crate::{calls, Chart, Context, Point, Refusal, Stopped};

/// The weight of the plain penalty: a weight is a whole number of quarters.
pub const PLAIN_WEIGHT: u32 = 4;
/// The largest weight that an opening accepts.
pub const LARGEST_WEIGHT: u32 = 16;
/// The largest room that a making accepts.
const LARGEST_ROOM: u32 = 4096;
/// How many rows a report's first sheet has, twice the program's, which some reports on three symbols pass. By estimate what a row costs at the
/// plain weight keeps reports of strings below 600; at small weights there may be more.
const SHEET_ROWS: usize = 1024;
/// How many no report passes, by an argument on paper: a tree has one leaf and at most seven more for each split, only contexts that are held are
/// split, and there are two trees.
const MOST_ROWS: usize = 2 * (1 + 7 * LARGEST_ROOM as usize);

/// How many numbers a store for so many contexts has.
pub const fn store_size(room: u32) -> usize {
    2048 + 24 * room as usize
}

/// A desk by its number, 0 to 7; any other gets refusal 2.
///
/// It is a name and no loan, so the desks of one store can be used in turn.
#[derive(Clone, Copy, Debug, PartialEq, Eq, Hash)]
pub struct Desk(pub u32);

/// A sitting's sample by its number, 0 or 1; any other gets refusal 8.
#[derive(Clone, Copy, Debug, PartialEq, Eq, Hash)]
pub struct Sample(pub u32);

impl Sample {
    pub const FIRST: Sample = Sample(0);
    pub const SECOND: Sample = Sample(1);
}

/// A store: room for contexts, shared by up to eight desks. It owns its numbers.
///
/// ```
/// use sobumikeyo::{Desk, Sample, Store, PLAIN_WEIGHT};
///
/// let mut store = Store::new(100)?;
/// let (morning, evening) = (Desk(0), Desk(1));
/// store.open(morning, 2, 1, PLAIN_WEIGHT, 60)?;
/// store.open(evening, 3, 2, 2 * PLAIN_WEIGHT, 40)?;
/// store.feed(morning, Sample::FIRST, 1)?;
/// store.feed(evening, Sample::FIRST, 2)?;
/// assert_eq!(store.room_left()?, 0);
/// store.close(morning)?;
/// assert_eq!(store.room_left()?, 60);
/// # Ok::<(), sobumikeyo::Refusal>(())
/// ```
///
/// A store is used by one call at a time, and the compiler sees to it: a call that writes asks for `&mut`, so threads that share a store, also at
/// different desks, lend it by a lock.
///
/// ```
/// use sobumikeyo::{Desk, Sample, Store, PLAIN_WEIGHT};
/// use std::sync::Mutex;
///
/// let store = Mutex::new(Store::new(100)?);
/// std::thread::scope(|threads| {
///     for desk in [Desk(0), Desk(1)] {
///         let store = &store;
///         threads.spawn(move || {
///             store.lock().unwrap().open(desk, 2, 1, PLAIN_WEIGHT, 50).unwrap();
///             store.lock().unwrap().feed_all(desk, Sample::FIRST, &[0, 1, 0]).unwrap();
///         });
///     }
/// });
/// assert_eq!(store.into_inner().unwrap().room_left()?, 0);
/// # Ok::<(), sobumikeyo::Refusal>(())
/// ```
#[derive(Clone, Debug, PartialEq, Eq)]
pub struct Store {
    numbers: Vec<u32>,
}

// Why every `unsafe` below is sound: each pointer and length are those of one slice, each output is a variable that was
// initialised, `&mut self` and `&mut` sheets overlap nothing, and no function keeps a pointer.
impl Store {
    /// A new store with room for so many contexts and no open desk; refusal 17.
    pub fn new(room: u32) -> Result<Store, Refusal> {
        // a room that will be refused needs no memory
        let mut store = Store::of_numbers(vec![0; store_size(room.min(LARGEST_ROOM))]);
        store.make(room)?;
        Ok(store)
    }

    /// A store of numbers that were kept from another. Any numbers may be given: where they are no store, every call but
    /// [`make`](Store::make) gets refusal 1.
    pub fn of_numbers(numbers: Vec<u32>) -> Store {
        Store { numbers }
    }

    /// The numbers, to be kept.
    pub fn numbers(&self) -> &[u32] {
        &self.numbers
    }

    /// The numbers, given back.
    pub fn into_numbers(self) -> Vec<u32> {
        self.numbers
    }

    /// Whether the numbers are a store. Every store that calls have left is one.
    pub fn is_sound(&self) -> bool {
        unsafe { calls::sobumikeyo_sound(self.numbers.as_ptr(), self.numbers.len()) }
    }

    /// Makes the store anew, whatever it was; refusals 17 and 18.
    pub fn make(&mut self, room: u32) -> Result<(), Refusal> {
        Refusal::unless_zero(unsafe { calls::sobumikeyo_make(self.numbers.as_mut_ptr(), self.numbers.len(), room) })
    }

    /// Opens a desk for symbols below `alphabet` and contexts of up to `depth` symbols. The sitting may have `reservation` contexts.
    ///
    /// `weight` is what a report's contexts are charged by, until the desk is closed: a whole number of quarters from 0 to 16
    /// ([`LARGEST_WEIGHT`]), where 4 ([`PLAIN_WEIGHT`]) is the plain penalty; any other gets refusal 20. 0 makes deep splits free, and the tie rules
    /// decide then.
    ///
    /// ```
    /// use sobumikeyo::{Desk, Sample, Store, LARGEST_WEIGHT};
    ///
    /// let mut store = Store::new(6)?;
    /// for (desk, weight) in [(Desk(0), 0), (Desk(1), LARGEST_WEIGHT)] {
    ///     store.open(desk, 2, 1, weight, 3)?;
    ///     store.feed_all(desk, Sample::FIRST, &[0, 1, 0, 1])?;
    ///     store.feed_all(desk, Sample::SECOND, &[0, 0, 1, 1])?;
    /// }
    /// assert_eq!((store.report(Desk(0))?.rows.len(), store.report(Desk(1))?.rows.len()), (4, 1));
    /// # Ok::<(), sobumikeyo::Refusal>(())
    /// ```
    pub fn open(&mut self, desk: Desk, alphabet: u32, depth: u32, weight: u32, reservation: u32) -> Result<(), Refusal> {
        let (numbers, len) = (self.numbers.as_mut_ptr(), self.numbers.len());
        Refusal::unless_zero(unsafe { calls::sobumikeyo_open(numbers, len, desk.0, alphabet, depth, weight, reservation) })
    }

    /// One more symbol of a sample. Where `depth` symbols are before it, it is counted in the depth + 1 contexts that they end in; where fewer are,
    /// it is only kept. So a sitting holds no context until a sample has more than `depth` symbols: that feed adds depth + 1 at once, a later
    /// one at most `depth`.
    ///
    /// ```
    /// use sobumikeyo::{Desk, Sample, Store, PLAIN_WEIGHT};
    ///
    /// let mut store = Store::new(2)?;
    /// store.open(Desk(0), 2, 2, PLAIN_WEIGHT, 2)?;
    /// store.feed_all(Desk(0), Sample::FIRST, &[0, 1])?;
    /// assert_eq!(store.feed(Desk(0), Sample::FIRST, 0).unwrap_err().number(), 10);
    /// # Ok::<(), sobumikeyo::Refusal>(())
    /// ```
    pub fn feed(&mut self, desk: Desk, sample: Sample, symbol: u32) -> Result<(), Refusal> {
        let (numbers, len) = (self.numbers.as_mut_ptr(), self.numbers.len());
        Refusal::unless_zero(unsafe { calls::sobumikeyo_feed(numbers, len, desk.0, sample.0, symbol) })
    }

    /// Feeds the symbols in their order, up to the first that is refused; those before it stay fed.
    /// Quicker than as many feeds: the store is tested once.
    pub fn feed_all(&mut self, desk: Desk, sample: Sample, symbols: &[u8]) -> Result<(), Stopped> {
        let (numbers, len) = (self.numbers.as_mut_ptr(), self.numbers.len());
        let mut why = 0;
        let accepted = unsafe { calls::sobumikeyo_feed_all(numbers, len, desk.0, sample.0, symbols.as_ptr(), symbols.len(), &mut why) };
        Refusal::unless_zero(why).map_err(|refusal| Stopped { accepted, refusal })
    }

    /// Closes a desk. What it reserved is free for any later opening.
    pub fn close(&mut self, desk: Desk) -> Result<(), Refusal> {
        Refusal::unless_zero(unsafe { calls::sobumikeyo_close(self.numbers.as_mut_ptr(), self.numbers.len(), desk.0) })
    }

    /// How many contexts are left to reserve.
    pub fn room_left(&self) -> Result<u32, Refusal> {
        let mut left = 0;
        Refusal::unless_zero(unsafe { calls::sobumikeyo_room(self.numbers.as_ptr(), self.numbers.len(), &mut left) })?;
        Ok(left)
    }

    /// The report on a desk. Each sample must have more symbols than the depth: where one is empty the report is refused with 11, and where one
    /// has no more than the depth with 24.
    ///
    /// ```
    /// use sobumikeyo::{Desk, Sample, Store, PLAIN_WEIGHT};
    ///
    /// let mut store = Store::new(8)?;
    /// store.open(Desk(0), 2, 1, PLAIN_WEIGHT, 8)?;
    /// store.feed_all(Desk(0), Sample::FIRST, &[0, 0])?;
    /// store.feed(Desk(0), Sample::SECOND, 0)?;
    /// assert_eq!(store.report(Desk(0)).unwrap_err().number(), 24);
    /// store.feed(Desk(0), Sample::SECOND, 0)?;
    /// assert_eq!(store.report(Desk(0))?.score, -8192);
    /// # Ok::<(), sobumikeyo::Refusal>(())
    /// ```
    pub fn report(&self, desk: Desk) -> Result<Report, Refusal> {
        match self.report_within(desk, SHEET_ROWS) {
            Err(Refusal::SHEET_SHORT) => self.report_within(desk, MOST_ROWS),
            answered => answered,
        }
    }

    /// The report on a sheet of so many rows.
    fn report_within(&self, desk: Desk, sheet_rows: usize) -> Result<Report, Refusal> {
        let mut sheet = vec![0; sheet_rows * ROW_WIDTH];
        let (rows, score) = self.report_on(desk, &mut sheet, 0)?;
        let rows = sheet.chunks_exact(ROW_WIDTH).take(rows as usize).map(Row::of_numbers).collect();
        Ok(Report { rows, score })
    }

    /// Writes the report's rows on a sheet from row `place` on, eleven numbers each, and answers how many there are and the score.
    /// No number outside those rows is written.
    pub fn report_on(&self, desk: Desk, sheet: &mut [u32], place: u32) -> Result<(u32, i64), Refusal> {
        let (numbers, len) = (self.numbers.as_ptr(), self.numbers.len());
        let (mut rows, mut score) = (0, 0);
        Refusal::unless_zero(unsafe {
            calls::sobumikeyo_report(numbers, len, desk.0, sheet.as_mut_ptr(), sheet.len(), place, &mut rows, &mut score)
        })?;
        Ok((rows, score))
    }

    /// How often, of the times that a sample saw the context, the symbol came next: places from depth + 1 on.
    ///
    /// ```
    /// use sobumikeyo::{Chart, Context, Desk, Sample, Store, PLAIN_WEIGHT};
    ///
    /// let mut store = Store::new(8)?;
    /// store.open(Desk(0), 2, 1, PLAIN_WEIGHT, 8)?;
    /// store.feed_all(Desk(0), Sample::FIRST, &[0, 1, 0, 0, 1])?;
    /// assert_eq!(store.chart(Desk(0), Context::of(&[0])?, 1)?, Chart::First(2.0 / 3.0));
    /// # Ok::<(), sobumikeyo::Refusal>(())
    /// ```
    pub fn chart(&self, desk: Desk, context: Context, symbol: u32) -> Result<Chart, Refusal> {
        let (numbers, len) = (self.numbers.as_ptr(), self.numbers.len());
        let Context { length, code } = context;
        let mut seen = 0;
        let (mut first, mut second, mut gap) = (0.0, 0.0, 0.0);
        Refusal::unless_zero(unsafe {
            calls::sobumikeyo_chart(numbers, len, desk.0, length, code, symbol, &mut seen, &mut first, &mut second, &mut gap)
        })?;
        Ok(match seen {
            0 => Chart::Neither,
            1 => Chart::First(first),
            2 => Chart::Second(second),
            _ => Chart::Both(Point { first, second, gap }),
        })
    }
}
