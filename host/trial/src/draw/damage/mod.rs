//! Ways to break a good record: every field set to the values around its edges, and bytes cut
//! off, added or exchanged.

mod fields;
mod target;

use std::fmt;

pub use fields::{MONTH_DAYS, TAG_EDGES, YEARS};
pub use target::Target;

/// One thing done to a record.
#[derive(Clone, Copy, Debug, PartialEq, Eq)]
#[allow(missing_docs)]
pub enum Damage {
    /// `width` bytes at `offset` become `value`, low byte first.
    Write { offset: usize, width: usize, value: u32 },
    /// Only `length` bytes remain.
    Cut { length: usize },
    /// `bytes` bytes are put behind the record.
    Extend { bytes: usize, with: u8 },
    /// The bytes at the two offsets change places.
    Swap { first: usize, second: usize },
}

impl Damage {
    /// Damages the record; what lies outside it, after another damage, is left undone.
    ///
    /// ```
    /// use chronicle_trial::damage::Damage;
    ///
    /// let mut record = vec![1, 2, 3];
    /// Damage::Write { offset: 1, width: 2, value: 258 }.apply(&mut record);
    /// assert_eq!(record, [1, 2, 1]);
    /// Damage::Cut { length: 1 }.apply(&mut record);
    /// Damage::Swap { first: 0, second: 2 }.apply(&mut record);
    /// assert_eq!(record, [1]);
    /// ```
    pub fn apply(&self, record: &mut Vec<u8>) {
        match *self {
            Damage::Write { offset, width, value } => {
                if let Some(field) = record.get_mut(offset..offset + width) {
                    field.copy_from_slice(&value.to_le_bytes()[..width]);
                }
            }
            Damage::Cut { length } => record.truncate(length),
            Damage::Extend { bytes, with } => record.resize(record.len() + bytes, with),
            Damage::Swap { first, second } => {
                if first.max(second) < record.len() {
                    record.swap(first, second);
                }
            }
        }
    }
}

impl fmt::Display for Damage {
    fn fmt(&self, f: &mut fmt::Formatter<'_>) -> fmt::Result {
        match *self {
            Damage::Write { offset, value, .. } => write!(f, "{value} at {offset}"),
            Damage::Cut { length } => write!(f, "cut to {length}"),
            Damage::Extend { bytes, with } => write!(f, "{bytes} bytes {with} added"),
            Damage::Swap { first, second } => write!(f, "{first} and {second} exchanged"),
        }
    }
}
