//! Sitting files.
use crate::calls;
use crate::Refusal;

/// The longest header: alphabet and depth in a byte each, both lengths in two.
const LONGEST_HEADER: usize = 6;

/// What a sitting file holds.
#[derive(Clone, Copy, Debug, PartialEq, Eq)]
pub struct SittingFile<'a> {
    pub alphabet: u32,
    pub depth: u32,
    /// The symbols of the first sample, one byte each.
    pub first: &'a [u8],
    /// The symbols of the second sample.
    pub second: &'a [u8],
}

/// Reads a sitting file; refusals 13 to 16, the first fault from the left.
///
/// ```
/// let file = sobumikeyo::read(&[2, 1, 3, 1, 0, 1, 0, 1])?;
/// assert_eq!((file.alphabet, file.depth), (2, 1));
/// assert_eq!((file.first, file.second), (&[0, 1, 0][..], &[1][..]));
/// assert_eq!(sobumikeyo::read(&[2, 1, 3, 1, 0]).unwrap_err().number(), 13);
/// # Ok::<(), sobumikeyo::Refusal>(())
/// ```
pub fn read(file: &[u8]) -> Result<SittingFile<'_>, Refusal> {
    let mut shape = [0; 4];
    // Sound: the pointer and the length are the slice's own, and `shape` overlaps nothing.
    Refusal::unless_zero(unsafe { calls::sobumikeyo_read(file.as_ptr(), file.len(), &mut shape) })?;
    let [alphabet, depth, n, m] = shape;
    // the symbols are the file's last n + m bytes
    let (rest, second) = file.split_at(file.len() - m as usize);
    let first = &rest[rest.len() - n as usize..];
    Ok(SittingFile { alphabet, depth, first, second })
}

/// The sitting file of two samples, in shortest form; refusal 15 where a file may not have those values. [`read`] reads the same back, and an
/// accepted file written again has the same bytes.
///
/// ```
/// let file = sobumikeyo::write(&[0, 1, 0], &[1], 2, 1)?;
/// assert_eq!(file, [2, 1, 3, 1, 0, 1, 0, 1]);
/// assert_eq!(sobumikeyo::read(&file)?.first, [0, 1, 0]);
/// assert_eq!(sobumikeyo::write(&[0, 2, 0], &[1], 2, 1).unwrap_err().number(), 15);
/// # Ok::<(), sobumikeyo::Refusal>(())
/// ```
pub fn write(first: &[u8], second: &[u8], alphabet: u32, depth: u32) -> Result<Vec<u8>, Refusal> {
    // always enough, so that 19 is never given
    let mut file = vec![0; LONGEST_HEADER + first.len() + second.len()];
    let mut written = 0;
    write_into(first, second, alphabet, depth, &mut file, &mut written)?;
    file.truncate(written);
    Ok(file)
}

/// The call itself: bytes past the file's end stay, and a refused one leaves all of them and the length.
fn write_into(first: &[u8], second: &[u8], alphabet: u32, depth: u32, file: &mut [u8], written: &mut usize) -> Result<(), Refusal> {
    let (first, n) = (first.as_ptr(), first.len());
    let (second, m) = (second.as_ptr(), second.len());
    // Sound: each pointer and length are those of one slice, and `&mut` overlaps nothing.
    Refusal::unless_zero(unsafe { calls::sobumikeyo_write(first, n, second, m, alphabet, depth, file.as_mut_ptr(), file.len(), written) })
}

#[cfg(test)]
mod tests {
    use super::*;

    const BLANK: u8 = 0xee;
    const AFTER: usize = 16; // bytes after those that are lent
    const UNTOLD: usize = usize::MAX;

    /// A call with so many bytes lent: its answer, all the bytes, and the length told.
    fn told(first: &[u8], second: &[u8], alphabet: u32, depth: u32, room: usize) -> (u32, Vec<u8>, usize) {
        let (mut bytes, mut written) = (vec![BLANK; room + AFTER], UNTOLD);
        let answer = write_into(first, second, alphabet, depth, &mut bytes[..room], &mut written);
        (answer.map_or_else(Refusal::number, |()| 0), bytes, written)
    }

    #[track_caller]
    fn refused(number: u32, first: &[u8], second: &[u8], alphabet: u32, depth: u32, room: usize) {
        let untouched = vec![BLANK; room + AFTER];
        assert_eq!(told(first, second, alphabet, depth, room), (number, untouched, UNTOLD));
    }

    /// Writes that file into bytes that are enough, the rest of which stay, and gets 19 where they are not.
    #[track_caller]
    fn written(file: &[u8], first: &[u8], second: &[u8], alphabet: u32, depth: u32) {
        for room in [0, file.len() - 1] {
            refused(19, first, second, alphabet, depth, room);
        }
        for room in [file.len(), file.len() + 1, file.len() + 40] {
            let expected = [file, &vec![BLANK; room + AFTER - file.len()]].concat();
            assert_eq!(told(first, second, alphabet, depth, room), (0, expected, file.len()));
        }
    }

    #[test]
    fn bytes_lent() {
        written(&[2, 0, 0, 0], &[], &[], 2, 0);
        written(&[8, 6, 2, 1, 0, 7, 3], &[0, 7], &[3], 8, 6);
        let (short, long) = ([1; 127], [1; 128]);
        written(&[&[2, 1, 127, 0x80, 1][..], &short, &long].concat(), &short, &long, 2, 1);
        written(&[&[2, 1, 0x80, 1, 127][..], &long, &short].concat(), &long, &short, 2, 1);
        let longest = [2; 2048];
        written(&[&[3, 0, 0x80, 0x10, 0x80, 0x10][..], &longest, &longest].concat(), &longest, &longest, 3, 0);
    }

    #[test]
    fn bad_values_go_before_too_few_bytes() {
        let too_long = [0; 2049];
        for room in [0, 3, 5, 2100] {
            refused(15, &[0], &[1], 1, 0, room);
            refused(15, &[0], &[1], 9, 0, room);
            refused(15, &[0], &[1], 2, 7, room);
            refused(15, &[0, 2], &[1], 2, 0, room);
            refused(15, &[0], &[1, 2], 2, 0, room);
            refused(15, &too_long, &[1], 2, 0, room);
            refused(15, &[0], &too_long, 2, 0, room);
        }
    }
}
