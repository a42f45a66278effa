//! Drives asm, dis, check and run with texts, sheets and files that are
//! changed by chance, and holds them to properties. docs/FUZZING.md says how
//! it is used.
//!
//! A seed and the number of a round decide what the round drives. [`properties`]
//! has the tables of what must hold.

mod change_bytes;
mod change_text;
mod corpus;
pub mod counts;
pub mod drive;
mod editions;
pub mod failure;
mod lent;
mod process;
mod progress;
mod properties;
mod records;
pub mod round;
mod scratch;
