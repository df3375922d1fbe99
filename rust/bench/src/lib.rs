//! The proved calls measured against two peers, document 01 in plain Rust with 128-bit numbers and
//! as an expert writes it: the same file or journal, the same run.

mod callgrind;
mod cases;
pub mod expert;
mod instructions;
pub mod plain;
mod row;
mod times;

pub use instructions::{asked_to_count, count, instructions, Instructions};
pub use row::{ratios, rows, Row, HEAD};
pub use times::ROUNDS;
