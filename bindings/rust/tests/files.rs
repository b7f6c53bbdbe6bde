//! Sitting files that are written: at every limit, drawn, and again from what was read. Damaged ones that are salvaged: cut and spoilt at
//! every place, and drawn.
use sobumikeyo::{read, salvage, write, Lost, Salvaged};
use std::fs;
use std::ops::RangeInclusive;
use std::path::Path;

const LARGEST_BYTE: u32 = 255;
const LIMIT: usize = 2048;
const ALPHABETS: RangeInclusive<u32> = 2..=8;
const DEPTHS: RangeInclusive<u32> = 0..=6;
const LENGTHS: RangeInclusive<u32> = 0..=LIMIT as u32;

/// A number below 16,384 in its shortest form.
fn number(value: usize) -> Vec<u8> {
    match value {
        0..=127 => vec![value as u8],
        _ => vec![128 + (value % 128) as u8, (value / 128) as u8],
    }
}

/// The file by the words of its rules; none where a value is outside its limits.
fn file_of(first: &[u8], second: &[u8], alphabet: u32, depth: u32) -> Option<Vec<u8>> {
    let values = ALPHABETS.contains(&alphabet) && DEPTHS.contains(&depth) && first.len() <= LIMIT && second.len() <= LIMIT;
    let symbols = [first, second].concat();
    if !values || symbols.iter().any(|&symbol| u32::from(symbol) >= alphabet) {
        return None;
    }
    Some([vec![alphabet as u8, depth as u8], number(first.len()), number(second.len()), symbols].concat())
}

/// Writes what may be written, and reads the same back; anything else gets 15.
#[track_caller]
fn check(first: &[u8], second: &[u8], alphabet: u32, depth: u32) -> bool {
    let expected = file_of(first, second, alphabet, depth);
    let written = write(first, second, alphabet, depth);
    assert_eq!(written.clone().map_err(|refusal| refusal.number()), expected.clone().ok_or(15));
    if let Ok(file) = written {
        let sitting = read(&file).unwrap();
        assert_eq!((sitting.alphabet, sitting.depth, sitting.first, sitting.second), (alphabet, depth, first, second));
    }
    expected.is_some()
}

#[test]
fn every_limit() {
    for (alphabet, good) in [(0, false), (1, false), (2, true), (8, true), (9, false), (258, false), (65538, false), (u32::MAX, false)] {
        assert_eq!(check(&[0, 1], &[1], alphabet, 0), good);
    }
    for (depth, good) in [(0, true), (6, true), (7, false), (256, false), (65536, false), (u32::MAX, false)] {
        assert_eq!(check(&[0, 1], &[1], 2, depth), good);
    }
    for (length, good) in [(0, true), (1, true), (127, true), (128, true), (LIMIT, true), (LIMIT + 1, false), (LIMIT + 128, false)] {
        assert_eq!(check(&vec![1; length], &[0], 2, 1), good);
        assert_eq!(check(&[0], &vec![1; length], 2, 1), good);
    }
    for alphabet in 2..=8 {
        for symbol in [alphabet as u8 - 1, alphabet as u8, 128, 255] {
            let good = u32::from(symbol) < alphabet;
            assert_eq!(check(&[0, symbol, 0], &[1], alphabet, 6), good);
            assert_eq!(check(&[1], &[0, 0, symbol], alphabet, 6), good);
        }
    }
    assert!(check(&[], &[], 2, 0));
}

/// A seeded generator.
struct Draw(u64);

impl Draw {
    fn below(&mut self, many: u32) -> u32 {
        self.0 ^= self.0 << 13;
        self.0 ^= self.0 >> 7;
        self.0 ^= self.0 << 17;
        (self.0 >> 20) as u32 % many
    }

    /// A sample of symbols below the alphabet's size; one in four has one symbol more that may be any.
    fn sample(&mut self, alphabet: u32) -> Vec<u8> {
        let longest = [8, 200, (LIMIT + LIMIT / 64) as u32][self.below(3) as usize];
        let mut symbols: Vec<u8> = (0..self.below(longest)).map(|_| self.below(alphabet.max(1)) as u8).collect();
        if self.below(4) == 0 {
            let any = [alphabet, LARGEST_BYTE + 1][self.below(2) as usize];
            let place = self.below(symbols.len() as u32 + 1) as usize;
            symbols.insert(place, self.below(any + 1).min(LARGEST_BYTE) as u8);
        }
        symbols
    }
}

#[test]
fn drawn_values() {
    let mut draw = Draw(88172645463325252);
    let mut written = 0;
    for _ in 0..2000 {
        let (alphabet, depth) = (1 + draw.below(9), draw.below(8));
        let (first, second) = (draw.sample(alphabet), draw.sample(alphabet));
        written += u32::from(check(&first, &second, alphabet, depth));
    }
    assert!((500..1500).contains(&written), "{written} of 2,000 are good");
}

/// Files of the second program's, sound ones and one for each fault.
fn stored_files() -> impl Iterator<Item = Vec<u8>> {
    let root = Path::new(concat!(env!("CARGO_MANIFEST_DIR"), "/../.."));
    let folders = ["samples", "crates/cases/data"].map(|folder| fs::read_dir(root.join(folder)).unwrap());
    folders.into_iter().flatten().map(|entry| entry.unwrap().path()).filter(|path| path.is_file()).map(|path| fs::read(path).unwrap())
}

/// Every file that is read without a fault has the same bytes when it is written again, and when it is salvaged, with nothing lost.
#[test]
fn accepted_files_again() {
    let mut again = 0;
    for file in stored_files() {
        let Ok(sitting) = read(&file) else { continue };
        assert_eq!(write(sitting.first, sitting.second, sitting.alphabet, sitting.depth).as_ref(), Ok(&file));
        assert_eq!(salvage(&file), Ok(Salvaged { file, lost: lost_of([0; 5]) }));
        again += 1;
    }
    assert!(again >= 20, "{again} files were accepted");
}

fn lost_of(told: [usize; 5]) -> Lost {
    let [first_missing, first_dropped, second_missing, second_dropped, cut_off] = told.map(|many| many as u64);
    Lost { first_missing, first_dropped, second_missing, second_dropped, cut_off }
}

/// The header's next number, and the bytes after it, by the words of the reader's refusals.
fn header_number(bytes: &[u8], limits: RangeInclusive<u32>) -> Result<(u32, &[u8]), u32> {
    let (value, rest) = match bytes {
        [low @ 0..=127, rest @ ..] => (u32::from(*low), rest),
        [] | [_] => return Err(13),
        [_, 0 | 128..=255, ..] => return Err(14),
        [low, high, rest @ ..] => (u32::from(*low) - 128 + 128 * u32::from(*high), rest),
    };
    limits.contains(&value).then_some((value, rest)).ok_or(15)
}

/// The next bytes, as many as are wanted as far as they exist, and those after them.
fn taken(bytes: &[u8], wanted: u32) -> (&[u8], &[u8]) {
    bytes.split_at(bytes.len().min(wanted as usize))
}

/// The bytes before the first that is not below the alphabet's size.
fn kept(sample: &[u8], alphabet: u32) -> &[u8] {
    let end = sample.iter().position(|&symbol| u32::from(symbol) >= alphabet);
    &sample[..end.unwrap_or(sample.len())]
}

/// What is saved of a damaged file by the words of request E12, or the refusal.
fn saved_of(damaged: &[u8]) -> Result<Salvaged, u32> {
    let (alphabet, rest) = header_number(damaged, ALPHABETS)?;
    let (depth, rest) = header_number(rest, DEPTHS)?;
    let (n, rest) = header_number(rest, LENGTHS)?;
    let (m, rest) = header_number(rest, LENGTHS)?;
    let (first, rest) = taken(rest, n);
    let (second, after) = taken(rest, m);
    let (one, two) = (kept(first, alphabet), kept(second, alphabet));
    let (n, m) = (n as usize, m as usize);
    let lost = lost_of([n - first.len(), first.len() - one.len(), m - second.len(), second.len() - two.len(), after.len()]);
    Ok(Salvaged { file: file_of(one, two, alphabet, depth).unwrap(), lost })
}

/// Saves what is to be saved, which is read without a fault and no longer than the damaged file, or gets the same refusal.
#[track_caller]
fn check_salvage(damaged: &[u8]) -> Result<Salvaged, u32> {
    let expected = saved_of(damaged);
    assert_eq!(salvage(damaged).map_err(|refusal| refusal.number()), expected, "{damaged:?}");
    if let Ok(salvaged) = &expected {
        assert!(read(&salvaged.file).is_ok() && salvaged.file.len() <= damaged.len(), "{damaged:?}");
    }
    expected
}

/// Files with lengths of one group and of two; the symbols go through the alphabet.
fn whole_files() -> [Vec<u8>; 4] {
    let symbols = |many, alphabet| (0..many).map(|place| (place % alphabet) as u8).collect::<Vec<u8>>();
    [(2, 1, 8, 8), (8, 6, 3, 130), (3, 0, 129, 0), (2, 6, 0, 2)]
        .map(|(alphabet, depth, n, m)| file_of(&symbols(n, alphabet), &symbols(m, alphabet), alphabet, depth).unwrap())
}

#[test]
fn every_cut() {
    let longest = file_of(&[7; LIMIT], &[0; LIMIT], 8, 6).unwrap();
    for file in whole_files().iter().chain([&longest]) {
        let refused = (0..file.len()).filter(|&length| check_salvage(&file[..length]) == Err(13)).count();
        let symbols = read(file).map(|sitting| sitting.first.len() + sitting.second.len()).unwrap();
        assert_eq!(refused, file.len() - symbols, "a cut in the header is refused, and no other");
    }
}

#[test]
fn every_spoilt_byte() {
    for file in whole_files() {
        for (place, value) in (0..file.len()).flat_map(|place| (0..=u8::MAX).map(move |value| (place, value))) {
            let mut spoilt = file.clone();
            spoilt[place] = value;
            let _ = check_salvage(&spoilt);
        }
    }
}

/// A byte that is never a symbol, at every place, and the file cut at every other or lengthened.
#[test]
fn every_spoilt_byte_and_cut() {
    for file in whole_files() {
        for (place, length) in (0..file.len()).flat_map(|place| (0..file.len() + 3).map(move |length| (place, length))) {
            let mut spoilt = file.clone();
            spoilt[place] = u8::MAX;
            spoilt.resize(length, 0);
            let _ = check_salvage(&spoilt);
        }
    }
}

impl Draw {
    /// A file whose lengths may be above the limit, with bytes that are no symbols; one in three has a header of any bytes from some place on,
    /// and two in three are cut or lengthened.
    fn damaged(&mut self) -> Vec<u8> {
        let alphabet = 2 + self.below(7);
        let (first, second) = (self.sample(alphabet), self.sample(alphabet));
        let mut header = [vec![alphabet as u8, self.below(7) as u8], number(first.len()), number(second.len())].concat();
        if self.below(3) == 0 {
            let place = self.below(header.len() as u32) as usize;
            header[place..].fill_with(|| self.below(LARGEST_BYTE + 1) as u8);
        }
        let mut file = [header, first, second].concat();
        if self.below(3) > 0 {
            file.resize(self.below(2 * file.len() as u32) as usize, 0);
        }
        file
    }
}

#[test]
fn drawn_damaged_files() {
    let mut draw = Draw(2463534242);
    let answers: Vec<_> = (0..2000).map(|_| check_salvage(&draw.damaged())).collect();
    for number in [13, 14, 15] {
        let many = answers.iter().filter(|answer| **answer == Err(number)).count();
        assert!(many >= 20, "{many} of 2,000 get {number}");
    }
    let losses: [fn(Lost) -> u64; 5] =
        [|lost| lost.first_missing, |lost| lost.first_dropped, |lost| lost.second_missing, |lost| lost.second_dropped, |lost| lost.cut_off];
    for loss in losses {
        let many = answers.iter().flatten().filter(|salvaged| loss(salvaged.lost) > 0).count();
        assert!(many >= 100, "{many} of 2,000 lose such bytes");
    }
}

#[test]
fn stored_files_salvaged() {
    let answers: Vec<_> = stored_files().filter(|file| read(file).is_err()).map(|file| check_salvage(&file).is_ok()).collect();
    let saved = answers.iter().filter(|saved| **saved).count();
    assert!(saved >= 10 && answers.len() - saved >= 10, "{saved} of {} are saved", answers.len());
}
