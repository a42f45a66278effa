//! Worksheets for the tests: random ones, deterministic from a seed, and
//! hand-written ones.
//!
//! The families, from the least to the most regular:
//! - [`damage::random_bytes`]: bytes without any order, or with right marks;
//! - [`damage::damaged`]: valid sheets with bits, bytes, lengths or fields
//!   changed;
//! - [`wellformed::wellformed`]: layout right, access rules left to chance;
//! - [`accepted::accepted`]: sheets that keep every rule;
//! - [`breach`]: accepted sheets with exactly one rule broken.
//!
//! All come in both editions; [`second_edition`] makes the sheets of the later
//! one.
//!
//! Those above are for check; [`runs`] has the sheets that are made to be run,
//! and what each run is lent. [`bounds`] goes through every limit of document
//! 01, for check and for runs.

pub mod accepted;
pub mod body;
pub mod bounds;
pub mod breach;
pub mod damage;
pub mod handwritten;
pub mod large;
pub mod limits;
pub mod loops;
pub mod operations;
pub mod random;
pub mod reading;
pub mod records;
pub mod runs;
pub mod second_edition;
pub mod sheet;
pub mod showcase;
pub mod typing;
pub mod wellformed;

pub use random::Random;
pub use sheet::{At, Procedure, Sheet, SheetBuilder};
