//! The names of jomini that the compared Rust mentions.
//!
//! Only [`common::Date`] takes part in answers. The errors are types to build errors.rs with;
//! none is ever made.

pub use stand_in_derives::JominiDeserialize;

pub mod common;

/// jomini's error.
#[derive(Debug)]
pub struct Error(ErrorKind);

impl Error {
    /// What went wrong.
    pub fn kind(&self) -> &ErrorKind {
        &self.0
    }

    /// What went wrong, taken out.
    pub fn into_kind(self) -> ErrorKind {
        self.0
    }
}

/// What can go wrong.
#[derive(Debug)]
pub enum ErrorKind {
    /// A save could not be read.
    Deserialize(DeserializeError),
    /// A binary save could not be read.
    Reader(binary::ReaderError),
}

/// Why a save could not be read.
#[derive(Debug)]
pub struct DeserializeError(DeserializeErrorKind);

impl DeserializeError {
    /// What was wrong with it.
    pub fn kind(&self) -> &DeserializeErrorKind {
        &self.0
    }
}

/// What can be wrong with a save.
#[derive(Debug)]
pub enum DeserializeErrorKind {
    /// A token without a name.
    UnknownToken {
        /// Its number.
        token_id: u32,
    },
}

/// jomini's `binary`.
pub mod binary {
    /// Why a binary save could not be read.
    #[derive(Debug)]
    pub struct ReaderError;
}

impl From<binary::ReaderError> for Error {
    fn from(error: binary::ReaderError) -> Error {
        Error(ErrorKind::Reader(error))
    }
}
