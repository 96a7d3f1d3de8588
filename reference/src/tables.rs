//! "Table engine for 8-bit frames" (document 02, T-10): "For each black cell, work
//! out the scaled value of all 256 stored bytes once and look the rest up".

use std::ops::Range;

use crate::develop::Accepted;

/// The scaled value of every stored byte under one black cell.
pub type Table = [f64; 256];

/// "8-bit mosaics without row or column deltas": a tag of deltas that is there is
/// not absent, whatever its deltas.
const DELTAS: [u16; 2] = [50715, 50716];

impl Accepted<'_> {
    /// Do the samples of this file come from tables? "Other files go the window
    /// call's way."
    pub fn takes_tables(&self) -> bool {
        let without_deltas = DELTAS.iter().all(|tag| self.raw_ifd.find(*tag).is_none());
        self.raw.stored.bits == 8 && self.raw.stored.samples == 1 && without_deltas
    }

    /// "Place s of a cell's table holds, in every bit, the scaled value of stored
    /// byte s under that cell's black." The cell is given by its row and column in
    /// the repeat.
    pub fn table(&self, [row, column]: [u64; 2]) -> Table {
        let levels = &self.raw.levels;
        let black = levels.cell(row, column, 0);
        let mut table = [0.0; 256];
        for (s, place) in (0..).zip(&mut table) {
            *place = levels.scaled_under(black, self.raw.linear(s), 0);
        }
        table
    }
}

/// The tables of the black cells that a window meets.
pub struct Tables<'a> {
    accepted: &'a Accepted<'a>,
    /// Cells of the repeat, row by row; none of a cell that the window does not meet.
    tables: Vec<Option<Table>>,
}

impl<'a> Tables<'a> {
    /// Of a window of these active rows and columns.
    pub fn new(accepted: &'a Accepted<'a>, rows: Range<u64>, columns: Range<u64>) -> Tables<'a> {
        let [repeat_rows, repeat_columns] = accepted.raw.levels.repeat();
        let cells = (0..repeat_rows).flat_map(|row| (0..repeat_columns).map(move |column| [row, column]));
        let met = |[row, column]: [u64; 2]| {
            meets(rows.clone(), repeat_rows, row) && meets(columns.clone(), repeat_columns, column)
        };
        let tables = cells.map(|cell| met(cell).then(|| accepted.table(cell))).collect();
        Tables { accepted, tables }
    }

    /// How many there are.
    pub fn count(&self) -> usize {
        self.tables.iter().flatten().count()
    }

    /// The scaled value of an active sample of the window, looked up.
    fn scaled(&self, row: u64, column: u64) -> f64 {
        let [repeat_rows, repeat_columns] = self.accepted.raw.levels.repeat();
        let cell = row % repeat_rows * repeat_columns + column % repeat_columns;
        let table = self.tables[cell as usize].as_ref().expect("the window meets its samples' cells");
        table[self.accepted.stored(row, column, 0) as usize]
    }

    /// The same after the opcodes that cover it.
    pub fn developed(&self, row: u64, column: u64) -> f64 {
        self.accepted.corrected(self.scaled(row, column), row, column, 0)
    }
}

/// Is one of these lines at this place of the repeat?
fn meets(mut lines: Range<u64>, repeat: u64, place: u64) -> bool {
    lines.any(|line| line % repeat == place)
}
