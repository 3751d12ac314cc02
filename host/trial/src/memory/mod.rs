//! Memory to lend, and the program that is given a folder.

pub mod guard;
pub mod program;
pub mod seal;
