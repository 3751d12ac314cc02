//! A record among other values.

use std::fmt;
use std::hash::{Hash, Hasher};

use super::Record;
use crate::Refusal;

/// Without the bytes, which are many.
impl fmt::Debug for Record<'_> {
    fn fmt(&self, f: &mut fmt::Formatter<'_>) -> fmt::Result {
        f.debug_struct("Record")
            .field("bytes", &self.bytes.len())
            .field("start", &self.start)
            .field("current", &self.current)
            .field("counts", &self.counts)
            .finish()
    }
}

impl AsRef<[u8]> for Record<'_> {
    fn as_ref(&self) -> &[u8] {
        self.bytes()
    }
}

/// By their bytes.
impl PartialEq<Record<'_>> for Record<'_> {
    fn eq(&self, other: &Record<'_>) -> bool {
        self.bytes() == other.bytes()
    }
}

impl Eq for Record<'_> {}

impl Hash for Record<'_> {
    fn hash<H: Hasher>(&self, state: &mut H) {
        self.bytes().hash(state);
    }
}

impl<'a> TryFrom<&'a [u8]> for Record<'a> {
    type Error = Refusal;

    fn try_from(bytes: &'a [u8]) -> Result<Record<'a>, Refusal> {
        Record::open(bytes)
    }
}

impl TryFrom<Vec<u8>> for Record<'static> {
    type Error = Refusal;

    fn try_from(bytes: Vec<u8>) -> Result<Record<'static>, Refusal> {
        Record::open(bytes)
    }
}
