//! query.rs, tag_resolver.rs and what they stand on, unchanged: each is a module of this crate,
//! built from where it lies (see build/main.rs). This file is the crate root that they expect.

// What stands in those files is not ours to tidy.
#![allow(warnings, clippy::all)]

#[cfg(debug_assertions)]
compile_error!("the reference is a release build: its debug assertions must be off");

#[cfg(found)]
include!(concat!(env!("OUT_DIR"), "/modules.rs"));

/// eu4save's module of deserializers. models.rs names them in attributes only.
pub mod de {}

/// The part of eu4save that opens save files. errors.rs names one type of it.
pub mod file {
    /// A file inside a zipped save.
    #[derive(Debug)]
    pub enum Eu4FileEntryName {}
}

// errors.rs names rawzip's `Error`; any type of that name will do, and jomini has one.
extern crate jomini as rawzip;

#[cfg(found)]
mod root {
    pub use crate::country_tag::*;
    pub use crate::errors::*;
    pub use crate::eu4date::*;
    pub use crate::province_id::*;
    pub use crate::tag_resolver::*;

    /// thiserror's `#[from]`, where errors.rs relies on it.
    impl From<std::io::Error> for Eu4ErrorKind {
        fn from(error: std::io::Error) -> Eu4ErrorKind {
            Eu4ErrorKind::Io(error)
        }
    }
}

#[cfg(found)]
pub use root::*;
