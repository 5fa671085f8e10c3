//! The second program: the house core of documents 01 and 02, written again from these papers alone and in plain Rust.
//! It shares no table and no code with the proved crates, so that a slip in one is not repeated in the other.

pub mod assembler;
pub mod float;
pub mod hex;
pub mod image;
pub mod listing;
pub mod machine;
pub mod night;
pub mod run;
pub mod sources;
pub mod trace;
pub mod word;
