//! A straightforward version of the whole library, written from document 01 and the requests of document 02 that have landed: what the proved one is compared with.
pub mod cases;
pub mod counts;
pub mod label;
pub mod lineages;
pub mod plain;
pub mod reader;
pub mod report;
pub mod roster;
pub mod search;
pub mod seeded;
pub mod sheet;
pub mod shelf;
pub mod stand;
pub mod trees;
pub mod writer;

/// A refusal: 01's number and place.
pub type Refusal = (u32, usize);

/// 01's limits.
pub const SPECIES: usize = 16;
pub const GENES: usize = 4096;
pub const TEXT: usize = 65_536;
pub const NAME: usize = 15;
pub const NUMBER: usize = 12;
pub const OPEN: usize = 15;

/// The limits of a stand (02, #110).
pub const INDIVIDUALS: usize = 32;
pub const OPEN_ON_A_STAND: usize = 31;
