//! An independent reference for document 01, "From stored DNG samples to
//! developed values", with half-size colour (T-01), the greatest black (T-02),
//! the crop (T-03), GainMap (T-05), the chain behind a spot (T-06), denormal
//! numbers (T-07), the 64-bit layout (T-09) and windows by tables (T-10) of
//! document 02. The modules follow document 01's sections; each rule stands once,
//! beside the words of the document that demand it.

#![forbid(unsafe_code)]

pub mod answer;
pub mod bytes;
pub mod calls;
pub mod chain;
pub mod colour;
pub mod develop;
pub mod directory;
pub mod gain_map;
pub mod levels;
pub mod listing;
pub mod opcodes;
pub mod pattern;
pub mod raw_tags;
pub mod tables;
pub mod tag_test;

pub mod blocks;
pub mod builder;
pub mod cases;
pub mod chain_kinds;
pub mod chains;
pub mod denormals;
pub mod fractions;
pub mod generate;
pub mod index;
pub mod random;

pub use answer::{Answer, Card, Chain, Crop, LevelNumbers};
pub use calls::{card, chain, colour_window, half_window, spot, table_window, window};
pub use listing::{listing, write_listing};
