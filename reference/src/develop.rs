//! From an accepted file to developed values, in two ways that must agree:
//! the whole frame, which is the definition, and sample by sample.

use crate::answer::Answer;
use crate::bytes::File;
use crate::directory::{walk, Directory};
use crate::opcodes::{read_list, FrameSize, OnGrid, Opcode};
use crate::raw_tags::{self, RawTags};

/// A file that has passed every test up to the opcode list.
pub struct Accepted<'a> {
    pub file: File<'a>,
    /// IFD 0.
    pub first: Directory,
    pub raw_ifd: Directory,
    pub raw: RawTags<'a>,
    pub opcodes: Vec<Opcode>,
}

/// "Order: 1, 2, the tree, the raw tags, 9, the lists"
pub fn accept(bytes: &[u8]) -> Result<Accepted<'_>, Answer> {
    let file = File::open(bytes)?;
    let tree = walk(&file)?;
    let raw = raw_tags::read(&file, &tree.raw)?;
    if !raw.levels.white_above_black() {
        return Err(Answer::WHITE);
    }
    let opcodes = match raw.opcode_list {
        Some(list) => read_list(list, raw.frame_size())?,
        None => Vec::new(),
    };
    Ok(Accepted { file, first: tree.first, raw_ifd: tree.raw, raw, opcodes })
}

impl RawTags<'_> {
    pub fn frame_size(&self) -> FrameSize {
        FrameSize { rows: self.active.rows(), columns: self.active.columns(), samples: self.stored.samples }
    }
}

impl Accepted<'_> {
    pub fn size(&self) -> FrameSize {
        self.raw.frame_size()
    }

    /// The stored sample of an active one: its row and column are found through
    /// the corner of the active area.
    pub fn stored(&self, row: u64, column: u64, plane: u64) -> u64 {
        let stored_row = self.raw.active.top + row;
        let stored_column = self.raw.active.left + column;
        self.raw.stored.sample(&self.file, stored_row, stored_column, plane)
    }

    /// The scaled value of an active sample; the levels count from the corner of
    /// the active area.
    pub fn scaled(&self, row: u64, column: u64, plane: u64) -> f64 {
        let stored = self.stored(row, column, plane);
        self.raw.levels.scaled(self.raw.linear(stored), row, column, plane)
    }

    /// "The frame holds one f64 per active sample, at first its scaled value.
    /// Each correction gets the frame as the one before left it."
    pub fn whole_frame(&self) -> Vec<f64> {
        let FrameSize { rows, columns, samples } = self.size();
        let mut frame = Vec::with_capacity((rows * columns * samples) as usize);
        for row in 0..rows {
            for column in 0..columns {
                for plane in 0..samples {
                    frame.push(self.scaled(row, column, plane));
                }
            }
        }
        for opcode in &self.opcodes {
            self.correct(&mut frame, opcode);
        }
        frame
    }

    /// "At every sample of its grid the number x that stands there is replaced
    /// by the clipped result; all other numbers stay."
    fn correct(&self, frame: &mut [f64], opcode: &Opcode) {
        let Opcode::Kept(grid, action) = opcode else {
            return;
        };
        let rows = (grid.top..grid.bottom).step_by(grid.row_pitch as usize);
        for (grid_row, row) in rows.enumerate() {
            let columns = (grid.left..grid.right).step_by(grid.column_pitch as usize);
            for (grid_column, column) in columns.enumerate() {
                for plane in grid.plane..grid.plane + grid.planes {
                    let grid_plane = plane - grid.plane;
                    let x = &mut frame[self.index(row, column, plane)];
                    *x = action.apply(OnGrid { row, column, grid_row, grid_column, grid_plane }, *x);
                }
            }
        }
    }

    /// Where a sample stands in the whole frame.
    pub fn index(&self, row: u64, column: u64, plane: u64) -> usize {
        let size = self.size();
        ((row * size.columns + column) * size.samples + plane) as usize
    }

    /// One developed value, without a frame: the last of its chain.
    pub fn one_sample(&self, row: u64, column: u64, plane: u64) -> f64 {
        self.corrected(self.scaled(row, column, plane), row, column, plane)
    }
}

/// Above this many active samples the whole frame would cost too much
/// (a small file with overlapping strips may have 16,384 x 16,384 pixels), so
/// the public calls then go sample by sample.
const GREATEST_WHOLE_FRAME: u64 = 1 << 16;

/// The developed values of an accepted file, by whichever way is affordable.
pub struct Developed<'a> {
    accepted: &'a Accepted<'a>,
    frame: Option<Vec<f64>>,
}

impl<'a> Developed<'a> {
    pub fn new(accepted: &'a Accepted<'a>) -> Developed<'a> {
        let FrameSize { rows, columns, samples } = accepted.size();
        let affordable = rows * columns * samples <= GREATEST_WHOLE_FRAME;
        Developed { accepted, frame: affordable.then(|| accepted.whole_frame()) }
    }

    pub fn value(&self, row: u64, column: u64, plane: u64) -> f64 {
        match &self.frame {
            Some(frame) => frame[self.accepted.index(row, column, plane)],
            None => self.accepted.one_sample(row, column, plane),
        }
    }
}
