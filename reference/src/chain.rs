//! "For a spot, show the chain behind the answer" (document 02, T-06): the numbers
//! of its level, the opcodes that cover it, those that are skipped, and the five
//! slices that take them.

use crate::answer::{Answer, LevelNumbers};
use crate::develop::Accepted;
use crate::opcodes::Opcode;

/// "14 if any of the five slices has fewer than 32 places"
pub const LEAST_PLACES: usize = 32;

/// An opcode whose grid covers the spot: its place in the whole list, skipped ones
/// counted, its id, and the values before and after it.
#[derive(Clone, Copy, Debug, PartialEq)]
pub struct Link {
    pub place: u64,
    pub id: u64,
    pub before: f64,
    pub after: f64,
}

impl Accepted<'_> {
    /// "Eight numbers", the first "from the stored bytes".
    pub fn level_numbers(&self, row: u64, column: u64, plane: u64) -> LevelNumbers {
        let levels = &self.raw.levels;
        let stored = self.stored(row, column, plane);
        let table = self.raw.linear(stored);
        LevelNumbers {
            stored: narrow(stored.into()),
            table: narrow(table.into()),
            cell: narrow(levels.cell_at(row, column, plane)),
            column_delta: narrow(levels.column_delta(column)),
            row_delta: narrow(levels.row_delta(row)),
            black: narrow(levels.black_at(row, column, plane)),
            greatest_black: narrow(levels.greatest_black(plane)),
            level: narrow(levels.level(table, row, column, plane)),
        }
    }

    /// "Each value follows from the one before, the first from L"; "the chain names
    /// exactly the covering corrections in list order".
    pub fn links(&self, row: u64, column: u64, plane: u64) -> impl Iterator<Item = Link> + '_ {
        self.links_from(self.scaled(row, column, plane), row, column, plane)
    }

    /// The same from a number that stands there before the list.
    fn links_from(&self, mut x: f64, row: u64, column: u64, plane: u64) -> impl Iterator<Item = Link> + '_ {
        (0..).zip(&self.opcodes).filter_map(move |(place, opcode)| {
            let Opcode::Kept(grid, action) = opcode else {
                return None;
            };
            let on_grid = grid.place_of(row, column, plane)?;
            let before = x;
            x = action.apply(on_grid, before);
            Some(Link { place, id: action.id(), before, after: x })
        })
    }

    /// What the list makes of a number that stands there before it.
    pub fn corrected(&self, x: f64, row: u64, column: u64, plane: u64) -> f64 {
        self.links_from(x, row, column, plane).last().map_or(x, |link| link.after)
    }

    /// "The places of exactly the skipped corrections, in list order."
    pub fn skipped_places(&self) -> impl Iterator<Item = u64> + '_ {
        let all = (0..).zip(&self.opcodes);
        all.filter(|(_, opcode)| matches!(opcode, Opcode::Skipped)).map(|(place, _)| place)
    }
}

/// A sum of three levels, in 256ths, has 27 bits.
fn narrow(number: i128) -> i64 {
    number.try_into().expect("a sum of levels is small")
}

/// The five slices that a chain is lent.
pub struct Slices<'a> {
    pub places: &'a mut [u64],
    pub ids: &'a mut [u64],
    pub before: &'a mut [f64],
    pub after: &'a mut [f64],
    pub skipped: &'a mut [u64],
}

impl Slices<'_> {
    pub fn test(&self) -> Result<(), Answer> {
        let Slices { places, ids, before, after, skipped } = self;
        let lengths = [places.len(), ids.len(), before.len(), after.len(), skipped.len()];
        if lengths.iter().any(|length| *length < LEAST_PLACES) {
            return Err(Answer::SLICE);
        }
        Ok(())
    }

    /// "Unused places keep what they held."
    pub fn fill(self, links: &[Link], skipped: &[u64]) {
        for (i, link) in links.iter().enumerate() {
            self.places[i] = link.place;
            self.ids[i] = link.id;
            self.before[i] = link.before;
            self.after[i] = link.after;
        }
        self.skipped[..skipped.len()].copy_from_slice(skipped);
    }
}
