//! Fixes: the 16 bytes of one, and lines of text.

use crate::arguments::number_of;
use crate::input::Input;
use crate::names;
use crate::stop::{trouble, Stop};

/// The bytes of a number and of a fix: its serial, then north, east and down.
const WORD: usize = 4;
pub const FIX_BYTES: usize = 4 * WORD;

/// The most fixes of a file that is read: over eleven days at ten a second.
pub const MOST_FIXES: usize = 10_000_000;

/// The serial that a fix names, and where the aircraft is: north, east and down in metres, which can be anything, NaN too.
#[derive(Clone, Copy, Debug)]
pub struct Fix {
    pub serial: u32,
    pub position: [f32; 3],
}

impl Fix {
    /// Big-endian, the numbers by their bits.
    pub fn bytes(&self) -> [u8; FIX_BYTES] {
        let [north, east, down] = self.position.map(f32::to_bits);
        let mut bytes = [0; FIX_BYTES];
        for (place, word) in bytes.chunks_exact_mut(WORD).zip([self.serial, north, east, down]) {
            place.copy_from_slice(&word.to_be_bytes());
        }
        bytes
    }

    fn of_bytes(bytes: &[u8]) -> Fix {
        let word = |i: usize| bytes[i * WORD..][..WORD].iter().fold(0, |word, byte| word << 8 | u32::from(*byte));
        Fix { serial: word(0), position: [1, 2, 3].map(|i| f32::from_bits(word(i))) }
    }
}

/// The fixes of a file, which ends with a whole one.
pub fn read(input: &Input) -> Result<Vec<Fix>, Stop> {
    let bytes = input.bytes(MOST_FIXES * FIX_BYTES + 1)?;
    if bytes.len() > MOST_FIXES * FIX_BYTES {
        return Err(trouble(&format!("{}: more than {MOST_FIXES} fixes", input.name)));
    }
    let fixes = bytes.chunks_exact(FIX_BYTES);
    if !fixes.remainder().is_empty() {
        return Err(trouble(&format!("{}: fix {} is cut short", input.name, bytes.len() / FIX_BYTES + 1)));
    }
    Ok(fixes.map(Fix::of_bytes).collect())
}

/// A number in metres, as Rust reads an f32: nan and inf are among them.
fn metres(word: &str) -> Result<f32, String> {
    word.parse().map_err(|_| format!("{} is no number of metres", names::word(word.as_ref())))
}

/// The fix of a line `SERIAL NORTH EAST DOWN`.
fn fix_of(line: &str) -> Result<Fix, String> {
    let words: Vec<&str> = line.split_whitespace().collect();
    let [serial, north, east, down] = words[..] else {
        return Err("not a fix: SERIAL NORTH EAST DOWN".to_string());
    };
    let serial = number_of("serial", serial, 0, u32::MAX)?;
    Ok(Fix { serial, position: [metres(north)?, metres(east)?, metres(down)?] })
}

/// The fixes of a text.
pub fn of_text(input: &Input) -> Result<Vec<Fix>, Stop> {
    let mut fixes = Vec::new();
    input.each_line(|_, line| {
        fixes.push(fix_of(line)?);
        Ok(())
    })?;
    Ok(fixes)
}

/// The file of these fixes.
pub fn file(fixes: &[Fix]) -> Vec<u8> {
    fixes.iter().flat_map(Fix::bytes).collect()
}

#[cfg(test)]
mod tests {
    use super::*;

    #[test]
    fn a_fix_is_sixteen_bytes() {
        let fix = fix_of("258  1.5 -0 1e-45").unwrap();
        let bytes = [0, 0, 1, 2, 0x3F, 0xC0, 0, 0, 0x80, 0, 0, 0, 0, 0, 0, 1];
        assert_eq!(fix.bytes(), bytes);
        assert_eq!(Fix::of_bytes(&bytes).bytes(), bytes);
    }

    #[test]
    fn what_is_no_number_can_be_tried() {
        let fix = fix_of("1 nan inf -inf").unwrap();
        assert!(fix.position[0].is_nan());
        assert_eq!(fix.position[1..], [f32::INFINITY, f32::NEG_INFINITY]);
    }

    #[test]
    fn lines_that_are_no_fix() {
        for line in ["1 2 3", "1 2 3 4 5", "-1 2 3 4", "x 2 3 4", "1 2 3 4m", "4294967296 0 0 0"] {
            assert!(fix_of(line).is_err(), "{line}");
        }
    }
}
