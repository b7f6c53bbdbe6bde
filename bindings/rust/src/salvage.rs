//! Damaged sitting files, and what can be saved of them.
use crate::calls;
use crate::Refusal;

/// What a salvage saves of a damaged sitting file, and what is lost of it.
#[derive(Clone, Debug, PartialEq, Eq)]
pub struct Salvaged {
    /// A valid file with the shorter lengths, in shortest form.
    pub file: Vec<u8>,
    pub lost: Lost,
}

/// How many bytes are lost of a damaged sitting file; of a sound one none are.
#[derive(Clone, Copy, Debug, PartialEq, Eq, Hash)]
pub struct Lost {
    /// Bytes of the first sample that did not exist.
    pub first_missing: u64,
    /// Bytes of the first sample that existed and were dropped: the first that is no symbol, and those after it.
    pub first_dropped: u64,
    /// Bytes of the second sample that did not exist.
    pub second_missing: u64,
    /// Bytes of the second sample that existed and were dropped.
    pub second_dropped: u64,
    /// Bytes after both samples.
    pub cut_off: u64,
}

/// Salvages a damaged sitting file: each sample keeps its bytes up to the first that is missing or no symbol. Refusals 13 to 15 where the
/// header cannot be read within limits, as [`read`](crate::read) says. What is saved is a file that [`read`](crate::read) accepts, and a
/// sound file comes out the same.
///
/// ```
/// use sobumikeyo::{read, salvage};
///
/// let salvaged = salvage(&[2, 1, 3, 4, 0, 9, 0, 1, 1])?; // the first sample has a 9, and the second two symbols of four
/// assert_eq!(salvaged.file, [2, 1, 1, 2, 0, 1, 1]);
/// assert_eq!((salvaged.lost.first_dropped, salvaged.lost.second_missing), (2, 2));
/// assert_eq!(read(&salvaged.file)?.second, [1, 1]);
///
/// let sound = salvage(&salvaged.file)?;
/// assert_eq!(sound.file, salvaged.file);
/// assert_eq!(salvage(&[2, 1, 3]).unwrap_err().number(), 13);
/// # Ok::<(), sobumikeyo::Refusal>(())
/// ```
pub fn salvage(damaged: &[u8]) -> Result<Salvaged, Refusal> {
    // always enough, so that 19 is never given
    let mut file = vec![0; damaged.len()];
    let (mut written, mut told) = (0, [0; 5]);
    salvage_into(damaged, &mut file, &mut written, &mut told)?;
    file.truncate(written);
    let [first_missing, first_dropped, second_missing, second_dropped, cut_off] = told;
    Ok(Salvaged { file, lost: Lost { first_missing, first_dropped, second_missing, second_dropped, cut_off } })
}

/// The call itself: bytes past the saved file's end stay, and a refused one leaves all of them, the length and the five numbers.
fn salvage_into(damaged: &[u8], file: &mut [u8], written: &mut usize, told: &mut [u64; 5]) -> Result<(), Refusal> {
    let (bytes, many) = (damaged.as_ptr(), damaged.len());
    // Sound: each pointer and length are those of one slice, and `&mut` overlaps nothing.
    Refusal::unless_zero(unsafe { calls::sobumikeyo_salvage(bytes, many, file.as_mut_ptr(), file.len(), written, told) })
}

#[cfg(test)]
mod tests {
    use super::*;

    const BLANK: u8 = 0xee;
    const AFTER: usize = 16; // bytes after those that are lent
    const UNTOLD: (usize, [u64; 5]) = (usize::MAX, [u64::MAX; 5]);

    /// A call with so many bytes lent: its answer, all the bytes, and the length and the five numbers told.
    fn told(damaged: &[u8], room: usize) -> (u32, Vec<u8>, (usize, [u64; 5])) {
        let (mut bytes, (mut written, mut lost)) = (vec![BLANK; room + AFTER], UNTOLD);
        let answer = salvage_into(damaged, &mut bytes[..room], &mut written, &mut lost);
        (answer.map_or_else(Refusal::number, |()| 0), bytes, (written, lost))
    }

    #[track_caller]
    fn refused(number: u32, damaged: &[u8], room: usize) {
        assert_eq!(told(damaged, room), (number, vec![BLANK; room + AFTER], UNTOLD));
    }

    /// Saves that file in bytes that are enough, the rest of which stay, and gets 19 where they are not.
    #[track_caller]
    fn saved(file: &[u8], lost: [u64; 5], damaged: &[u8]) {
        for room in [0, file.len() - 1] {
            refused(19, damaged, room);
        }
        for room in [file.len(), file.len() + 1, file.len() + 40] {
            let expected = [file, &vec![BLANK; room + AFTER - file.len()]].concat();
            assert_eq!(told(damaged, room), (0, expected, (file.len(), lost)));
        }
    }

    #[test]
    fn bytes_lent() {
        saved(&[2, 0, 0, 0], [0; 5], &[2, 0, 0, 0]);
        saved(&[2, 0, 0, 0], [3, 0, 2, 0, 0], &[2, 0, 3, 2]);
        saved(&[8, 6, 2, 1, 0, 7, 3], [0, 0, 0, 0, 2], &[8, 6, 2, 1, 0, 7, 3, 0xff, 0]);
        saved(&[3, 1, 1, 2, 2, 0, 1], [0, 2, 1, 1, 0], &[3, 1, 3, 4, 2, 3, 1, 0, 1, 0x80]);
        // a file that ends in its first sample misses all of its second
        saved(&[3, 1, 1, 0, 2], [1, 1, 4, 0, 0], &[3, 1, 3, 4, 2, 3]);
        // the largest lengths that a header may have
        saved(&[2, 6, 1, 0, 0], [2047, 0, 2048, 0, 0], &[2, 6, 0x80, 0x10, 0x80, 0x10, 0]);
    }

    /// A length of two groups that becomes one of one group: the saved file is shorter by a byte more than what is lost.
    #[test]
    fn headers_that_become_shorter() {
        let symbols = [1; 128];
        let damaged = [&[2, 1, 0x80, 1, 0x80, 1][..], &symbols, &symbols].concat();
        saved(&damaged, [0; 5], &damaged);
        saved(&[&damaged[..4], &[127][..], &damaged[6..261]].concat(), [0, 0, 1, 0, 0], &damaged[..261]);
        let spoilt = [&damaged[..133], &[2], &damaged[134..]].concat();
        saved(&[&[2, 1, 127, 0x80, 1][..], &symbols[1..], &symbols].concat(), [0, 1, 0, 0, 0], &spoilt);
    }

    #[test]
    fn bad_headers_go_before_too_few_bytes() {
        for room in [0, 3, 600] {
            for early in [&[][..], &[2, 1, 3], &[2, 1, 3, 0x80], &[0xff]] {
                refused(13, early, room);
            }
            for longer in [&[2, 0x81, 0, 3, 3, 0][..], &[2, 1, 3, 0x80, 0x80], &[0x80, 0]] {
                refused(14, longer, room);
            }
            for outside in [&[9][..], &[1, 0x80, 0], &[2, 7, 0, 0], &[2, 0, 0xff, 0x7f, 0], &[2, 0, 0, 0xff, 0x7f]] {
                refused(15, outside, room);
            }
            // one more than the largest length
            for outside in [&[2, 0, 0x81, 0x10, 0][..], &[2, 0, 0x80, 0x10, 0x81, 0x10]] {
                refused(15, outside, room);
            }
        }
    }
}
