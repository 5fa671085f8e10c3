//! What the comparisons share: random programs, machines and float operands by fixed seeds, and the report of what was met.

pub mod floats;
pub mod machines;
pub mod random;
pub mod report;
