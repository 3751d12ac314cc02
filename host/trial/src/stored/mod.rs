//! The stored answers of the Rust, which proved programs replay and the library is held against,
//! without Rust at hand.
//!
//! Every number in these files is 32 bits, low byte first; entries stand back to back.

mod answers;
mod lent;

pub use answers::{answers, Answers, DAY_WORDS};
pub use lent::{bytes, lent, Kind, Outcome, Vector};

/// The front of a file, taken piece by piece; none where the rest is too short.
struct Front<'a>(&'a [u8]);

impl<'a> Front<'a> {
    fn bytes(&mut self, count: usize) -> Option<&'a [u8]> {
        let (front, rest) = self.0.split_at_checked(count)?;
        self.0 = rest;
        Some(front)
    }

    fn words(&mut self, count: usize) -> Option<Vec<u32>> {
        let (words, _) = self.bytes(count.checked_mul(4)?)?.as_chunks();
        Some(words.iter().map(|word| u32::from_le_bytes(*word)).collect())
    }

    /// So many numbers that count something.
    fn counts<const N: usize>(&mut self) -> Option<[usize; N]> {
        self.words(N)?.try_into().ok().map(|words: [u32; N]| words.map(|word| word as usize))
    }

    /// Each entry of the file, to its end.
    fn each<T>(mut self, entry: fn(&mut Front<'a>) -> Option<T>) -> Option<Vec<T>> {
        let mut entries = Vec::new();
        while !self.0.is_empty() {
            entries.push(entry(&mut self)?);
        }
        Some(entries)
    }
}
