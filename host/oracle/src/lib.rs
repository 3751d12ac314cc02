//! Holds the campaign chronicle against the Rust it was ported from.
//!
//! The Rust is query.rs, tag_resolver.rs and their types, unchanged (package eu4save). [`save`]
//! gives it a campaign, [`rust`] turns its answers into the rows of the rules, and [`compare`]
//! holds them against the independent model and against the proved functions.
//!
//! All of this is there only if the Rust was found when this was built (see eu4save/build). The
//! programs then still build, say that nothing was compared, and end with [`NOT_FOUND`].

#[cfg(found)]
pub mod compare;
#[cfg(found)]
pub mod ledgers;
#[cfg(found)]
pub mod lent_vectors;
#[cfg(found)]
pub mod paging;
#[cfg(found)]
pub mod playing;
#[cfg(found)]
pub mod resolving;
#[cfg(found)]
pub mod rust;
#[cfg(found)]
pub mod save;
#[cfg(found)]
pub mod seen;
#[cfg(found)]
pub mod side_by_side;
pub mod timed;
#[cfg(found)]
pub mod vectors;

/// How a program ends that could not compare because the Rust is missing.
pub const NOT_FOUND: u8 = 3;

/// Says that the Rust is missing, so that no run looks like a comparison that went well.
///
/// ```
/// use std::process::ExitCode;
///
/// assert_eq!(chronicle_oracle::not_found(), ExitCode::from(chronicle_oracle::NOT_FOUND));
/// ```
pub fn not_found() -> std::process::ExitCode {
    eprintln!(
        "NOT COMPARED: the Rust was not found when this was built; set CHRONICLE_RUST_SRC to the \
         folder that holds crates/eu4save/src and build again"
    );
    std::process::ExitCode::from(NOT_FOUND)
}
