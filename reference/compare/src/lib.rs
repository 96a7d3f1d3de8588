//! The proved core's static library beside the independent program.

pub mod asking;
pub mod core;
pub mod kinds;
pub mod limits;
pub mod listing;
pub mod mosaic;
pub mod questions;
pub mod tally;
pub mod times;
