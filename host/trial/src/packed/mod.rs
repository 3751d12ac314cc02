//! The packed record: its calendar, its writer, its reader and its independent checker.

pub mod calendar;
pub mod pack;
pub mod reference;
pub mod unpack;
