// crates/cap_path/src/reading.rt without its contracts, by tools/erase: that text is proved, this one is only tested.
//! A step of a path, read from the path's text.

use crate::cap_spec::Step;

/// A number with one more digit. `None` if the byte is no digit, or if the number would have a
/// leading zero or be more than `most`.
#[inline(always)]
fn longer_number(n: u64, byte: u8, most: u64) -> Option<u64> {
    if !byte.is_ascii_digit() {
        return None;
    }
    if n == 0 {
        return None;
    }
    let longer = 10 * n + u64::from(byte - b'0');
    if longer > most {
        None
    } else {
        Some(longer)
    }
}

/// The number of at most `most` that begins at byte `from` of a text, and where its digits end: at
/// the end of the text, or before a slash. The error is the first byte at which no such number goes
/// on.
#[inline(always)]
fn number_at(text: &[u8], from: usize, most: u64) -> Result<(u64, usize), usize> {
    if from == text.len() || !text[from].is_ascii_digit() {
        return Err(from);
    }
    let mut number = u64::from(text[from] - b'0');
    for end in from + 1..text.len() {
        match longer_number(number, text[end], most) {
            Some(longer) => number = longer,
            None if text[end] == b'/' => return Ok((number, end)),
            None => return Err(end),
        }
    }
    Ok((number, text.len()))
}

/// The step whose text begins at the slash of this place, and where its text ends: at the end of
/// the whole text, or before a slash. The error is the first byte at which no path goes on, if the
/// whole text is longer than a slash and has the texts of steps before the place.
#[inline(always)]
pub(crate) fn step_at(text: &[u8], slash: usize) -> Result<(Step, usize), usize> {
    let letter = slash + 1;
    if letter == text.len() {
        return Err(letter);
    }
    match text[letter] {
        b'p' => {
            let (number, end) = number_at(text, letter + 1, 65535)?;
            Ok((Step::Ptr(number as u16), end))
        }
        b'i' => {
            let (number, end) = number_at(text, letter + 1, 4294967295)?;
            Ok((Step::Item(number as u32), end))
        }
        _ => Err(letter),
    }
}
