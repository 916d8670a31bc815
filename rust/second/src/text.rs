//! Lines of numbers, read and written.

use crate::refusal::{BAD_LINE, OUT_OF_RANGE, TEXT_TOO_LONG};
use std::ops::RangeInclusive;

/// The most bytes that a text may have.
pub const MAX_TEXT: usize = 65_536;

/// The most digits of a number.
const MAX_DIGITS: usize = 10;

/// What is still to be read of a text.
pub struct Lines<'a> {
    rest: &'a [u8],
}

impl<'a> Lines<'a> {
    pub fn new(text: &'a [u8]) -> Result<Self, u32> {
        if text.len() > MAX_TEXT {
            return Err(TEXT_TOO_LONG);
        }
        Ok(Lines { rest: text })
    }

    /// Reads one line: `opening`, then a number for each of `fields`, parted
    /// by commas, then LF.
    pub fn line(&mut self, opening: &[u8], fields: &mut [u64]) -> Result<(), u32> {
        self.rest = self.rest.strip_prefix(opening).ok_or(BAD_LINE)?;
        let (last, others) = fields.split_last_mut().expect("a line has fields");
        for field in others {
            *field = self.number(b',').ok_or(BAD_LINE)?;
        }
        *last = self.number(b'\n').ok_or(BAD_LINE)?;
        Ok(())
    }

    pub fn at_end(&self) -> bool {
        self.rest.is_empty()
    }

    /// Refuses a line that is left over.
    pub fn end(&self) -> Result<(), u32> {
        if self.at_end() { Ok(()) } else { Err(BAD_LINE) }
    }

    /// Reads a number and the byte that must follow it.
    fn number(&mut self, follower: u8) -> Option<u64> {
        let mut value = 0;
        for (length, &byte) in self.rest.iter().enumerate() {
            let digit = byte.wrapping_sub(b'0');
            if digit > 9 {
                let needless_zero = length > 1 && self.rest[0] == b'0';
                let sound = byte == follower && length > 0 && !needless_zero;
                self.rest = &self.rest[length + 1..];
                return sound.then_some(value);
            }
            if length == MAX_DIGITS {
                return None;
            }
            value = 10 * value + u64::from(digit);
        }
        None
    }
}

/// Refuses a value outside its range.
pub fn within(value: u64, range: RangeInclusive<u64>) -> Result<(), u32> {
    if range.contains(&value) {
        Ok(())
    } else {
        Err(OUT_OF_RANGE)
    }
}

/// Appends `number` in decimal.
pub fn put_number(out: &mut Vec<u8>, mut number: u32) {
    let mut digits = [0; MAX_DIGITS];
    let mut start = MAX_DIGITS;
    loop {
        start -= 1;
        digits[start] = b'0' + (number % 10) as u8;
        number /= 10;
        if number == 0 {
            break;
        }
    }
    out.extend_from_slice(&digits[start..]);
}

/// Appends a comma and `number`.
pub fn put_field(out: &mut Vec<u8>, number: u32) {
    out.push(b',');
    put_number(out, number);
}
