//! The checks, one file each.

pub mod bad_lines;
pub mod codes;
pub mod exhaustive;
pub mod far;
pub mod fill;
pub mod group3_writers;
pub mod limits;
pub mod lines;
pub mod listed_pages;
pub mod long_runs;
pub mod other_decoder;
pub mod random_pages;
pub mod sheets;
pub mod writers;
