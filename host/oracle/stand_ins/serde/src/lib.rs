//! The names of serde that the compared Rust mentions, with the signatures it relies on.
//!
//! Nobody implements a serializer or a deserializer, so none of this ever runs.

pub use de::{Deserialize, Deserializer};
pub use ser::{Serialize, Serializer};
pub use stand_in_derives::{Deserialize, Serialize};

/// serde's `ser`.
pub mod ser {
    /// A value that can be written.
    pub trait Serialize {
        /// Writes it.
        fn serialize<S: Serializer>(&self, serializer: S) -> Result<S::Ok, S::Error>;
    }

    /// What values are written to.
    pub trait Serializer {
        /// What a successful write gives.
        type Ok;
        /// What a failed write gives.
        type Error;
        /// Writes a text.
        fn serialize_str(self, text: &str) -> Result<Self::Ok, Self::Error>;
    }
}

/// serde's `de`.
pub mod de {
    use std::fmt::{Display, Formatter};

    /// A value that can be read.
    pub trait Deserialize<'de>: Sized {
        /// Reads it.
        fn deserialize<D: Deserializer<'de>>(deserializer: D) -> Result<Self, D::Error>;
    }

    /// What values are read from.
    pub trait Deserializer<'de> {
        /// What a failed read gives.
        type Error: Error;
        /// Reads a text.
        fn deserialize_str<V: Visitor<'de>>(self, visitor: V) -> Result<V::Value, Self::Error>;
    }

    /// What a deserializer hands its pieces to.
    pub trait Visitor<'de>: Sized {
        /// What the pieces make.
        type Value;
        /// Says what was expected.
        fn expecting(&self, formatter: &mut Formatter) -> std::fmt::Result;
        /// Takes a text.
        fn visit_str<E: Error>(self, text: &str) -> Result<Self::Value, E>;
    }

    /// Why a read failed.
    pub trait Error: Sized {
        /// An error with this message.
        fn custom<T: Display>(message: T) -> Self;

        /// An error for a value of the right kind but out of range.
        fn invalid_value(unexpected: Unexpected<'_>, expected: &dyn Display) -> Self {
            let Unexpected::Str(found) = unexpected;
            Self::custom(format!("{found} in place of {expected}"))
        }
    }

    /// What was found in place of what was expected.
    pub enum Unexpected<'a> {
        /// A text.
        Str(&'a str),
    }
}
