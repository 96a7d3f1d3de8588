//! "Corrections": reading OpcodeList2 and what one opcode does to one number.

use std::num::FpCategory;

use crate::answer::Answer;
use crate::bytes::ByteOrder;
use crate::gain_map::{self, GainMap};

const GREATEST_COUNT: u64 = 32;
const CARRIED_VERSION: u64 = 0x0107_0100;
const HEADER: usize = 16;
/// GainMap's parameters are read in a module of its own.
const GAIN_MAP: u64 = 9;
const FIXED_PARAMETERS: usize = 36;

/// "The grid is every pitch-th row from Top, column from Left, on those planes."
#[derive(Clone, Debug, PartialEq, Eq)]
pub struct Grid {
    pub top: u64,
    pub left: u64,
    pub bottom: u64,
    pub right: u64,
    pub plane: u64,
    pub planes: u64,
    pub row_pitch: u64,
    pub column_pitch: u64,
}

#[derive(Clone, Debug, PartialEq)]
pub enum Action {
    MapTable(Vec<u16>),
    /// Constant first.
    MapPolynomial(Vec<f64>),
    GainMap(GainMap),
    DeltaPerRow(Vec<f64>),
    DeltaPerColumn(Vec<f64>),
    ScalePerRow(Vec<f64>),
    ScalePerColumn(Vec<f64>),
}

/// One opcode of the list, in its place.
#[derive(Clone, Debug, PartialEq)]
pub enum Opcode {
    Kept(Grid, Action),
    /// "a skipped one has no grid"
    Skipped,
}

/// The active rows and columns and the samples per pixel.
#[derive(Clone, Copy, Debug)]
pub struct FrameSize {
    pub rows: u64,
    pub columns: u64,
    pub samples: u64,
}

/// "OpcodeList2 is big-endian in every file."
pub fn long(bytes: &[u8], place: usize) -> u64 {
    ByteOrder::Big.number(&bytes[place..place + 4])
}

/// Reads a list of four bytes or more.
pub fn read_list(list: &[u8], frame: FrameSize) -> Result<Vec<Opcode>, Answer> {
    let count = long(list, 0);
    if count > GREATEST_COUNT {
        return Err(Answer::TOO_MANY_OPCODES);
    }
    let mut rest = &list[4..];
    let mut opcodes = Vec::new();
    for place in 0..count as u32 {
        let (opcode, after) = read_opcode(rest, place, frame)?;
        opcodes.push(opcode);
        rest = after;
    }
    // "Bytes left at the end: 10, place = count."
    if !rest.is_empty() {
        return Err(Answer::malformed(count as u32));
    }
    Ok(opcodes)
}

/// Reads one opcode from the front; also gives the bytes after it.
fn read_opcode(bytes: &[u8], place: u32, frame: FrameSize) -> Result<(Opcode, &[u8]), Answer> {
    // "header and parameters inside the tag (10)"
    if bytes.len() < HEADER {
        return Err(Answer::malformed(place));
    }
    let [id, version, flags, length] = [0, 4, 8, 12].map(|at| long(bytes, at));
    if length > (bytes.len() - HEADER) as u64 {
        return Err(Answer::malformed(place));
    }
    let (parameters, after) = bytes[HEADER..].split_at(length as usize);
    // "an id below not listed, or a version above 1.7.1.0, is skipped if flag
    // bit 0 is set and refused by 11 if not"
    let listed = [7, 8, GAIN_MAP, 10, 11, 12, 13].contains(&id);
    if !listed || version > CARRIED_VERSION {
        return if flags & 1 == 1 { Ok((Opcode::Skipped, after)) } else { Err(Answer::compulsory(place)) };
    }
    let grid = read_grid(parameters, frame).ok_or(Answer::malformed(place))?;
    let action = if id == GAIN_MAP {
        read_gain_map(parameters, place, frame)?
    } else {
        read_action(id, parameters, place, &grid)?
    };
    Ok((Opcode::Kept(grid, action), after))
}

/// "then the parameters (10), then their numbers (12)"
fn read_gain_map(parameters: &[u8], place: u32, frame: FrameSize) -> Result<Action, Answer> {
    let map = gain_map::read(parameters, frame).ok_or(Answer::malformed(place))?;
    if !map.has_good_numbers() {
        return Err(Answer::bad_number(place));
    }
    Ok(Action::GainMap(map))
}

/// The same of the other kinds.
fn read_action(id: u64, parameters: &[u8], place: u32, grid: &Grid) -> Result<Action, Answer> {
    let numbers = read_numbers(id, parameters, grid).ok_or(Answer::malformed(place))?;
    if !numbers.iter().all(|bits| good_number(id, *bits)) {
        return Err(Answer::bad_number(place));
    }
    Ok(action(id, &numbers))
}

/// The first eight LONGs, or nothing if they are malformed.
fn read_grid(parameters: &[u8], frame: FrameSize) -> Option<Grid> {
    if parameters.len() < FIXED_PARAMETERS {
        return None;
    }
    let [top, left, bottom, right, plane, planes, row_pitch, column_pitch] =
        [0, 4, 8, 12, 16, 20, 24, 28].map(|at| long(parameters, at));
    let well_formed = top < bottom
        && bottom <= frame.rows
        && left < right
        && right <= frame.columns
        && planes >= 1
        && plane + planes <= frame.samples
        && row_pitch >= 1
        && column_pitch >= 1;
    well_formed.then_some(Grid { top, left, bottom, right, plane, planes, row_pitch, column_pitch })
}

/// The ninth LONG and the numbers it counts, as bits, or nothing if they are
/// malformed. "The byte length must be exact."
fn read_numbers(id: u64, parameters: &[u8], grid: &Grid) -> Option<Vec<u64>> {
    let stated = long(parameters, 32);
    let (count, size, well_formed) = match id {
        7 => (stated, 2, (1..=65_536).contains(&stated)),
        8 => (stated + 1, 8, stated <= 8),
        10 | 12 => (stated, 4, stated == grid.rows()),
        _ => (stated, 4, stated == grid.columns()),
    };
    let bytes = &parameters[FIXED_PARAMETERS..];
    if !well_formed || bytes.len() as u64 != count * size {
        return None;
    }
    Some(bytes.chunks_exact(size as usize).map(|number| ByteOrder::Big.number(number)).collect())
}

/// Of a FLOAT or DOUBLE by its bits; a table has no such numbers.
fn good_number(id: u64, bits: u64) -> bool {
    match id {
        7 => true,
        8 => good_category(f64::from_bits(bits).classify()),
        _ => good_category(f32::from_bits(bits as u32).classify()),
    }
}

/// Refusal 12, as document 02's T-07 narrows it: "infinite and NaN". Zero of
/// either sign and a denormal are good.
pub fn good_category(category: FpCategory) -> bool {
    !matches!(category, FpCategory::Infinite | FpCategory::Nan)
}

fn action(id: u64, numbers: &[u64]) -> Action {
    // "A FLOAT becomes the f64 of equal value", a denormal among them.
    let floats = || numbers.iter().map(|bits| f64::from(f32::from_bits(*bits as u32))).collect();
    match id {
        7 => Action::MapTable(numbers.iter().map(|entry| *entry as u16).collect()),
        8 => Action::MapPolynomial(numbers.iter().map(|bits| f64::from_bits(*bits)).collect()),
        10 => Action::DeltaPerRow(floats()),
        11 => Action::DeltaPerColumn(floats()),
        12 => Action::ScalePerRow(floats()),
        _ => Action::ScalePerColumn(floats()),
    }
}

/// A sample on a grid: its active row and column, and which row, column and
/// plane of the grid these are.
#[derive(Clone, Copy, Debug, PartialEq, Eq)]
pub struct OnGrid {
    pub row: u64,
    pub column: u64,
    pub grid_row: usize,
    pub grid_column: usize,
    pub grid_plane: u64,
}

impl Grid {
    pub fn rows(&self) -> u64 {
        (self.bottom - self.top).div_ceil(self.row_pitch)
    }

    pub fn columns(&self) -> u64 {
        (self.right - self.left).div_ceil(self.column_pitch)
    }

    /// Where on the grid a sample stands, if it does.
    pub fn place_of(&self, row: u64, column: u64, plane: u64) -> Option<OnGrid> {
        let inside = (self.top..self.bottom).contains(&row)
            && (self.left..self.right).contains(&column)
            && (self.plane..self.plane + self.planes).contains(&plane);
        if !inside {
            return None;
        }
        let (below_top, past_left) = (row - self.top, column - self.left);
        let on_grid = below_top.is_multiple_of(self.row_pitch) && past_left.is_multiple_of(self.column_pitch);
        on_grid.then(|| OnGrid {
            row,
            column,
            grid_row: (below_top / self.row_pitch) as usize,
            grid_column: (past_left / self.column_pitch) as usize,
            grid_plane: plane - self.plane,
        })
    }
}

impl Action {
    /// The id of its header.
    pub fn id(&self) -> u64 {
        match self {
            Action::MapTable(_) => 7,
            Action::MapPolynomial(_) => 8,
            Action::GainMap(_) => GAIN_MAP,
            Action::DeltaPerRow(_) => 10,
            Action::DeltaPerColumn(_) => 11,
            Action::ScalePerRow(_) => 12,
            Action::ScalePerColumn(_) => 13,
        }
    }

    /// The clipped result for the number x at a sample of the grid.
    pub fn apply(&self, at: OnGrid, x: f64) -> f64 {
        clip(match self {
            Action::MapTable(table) => f64::from(table[table_index(x).min(table.len() - 1)]) / 65535.0,
            Action::MapPolynomial(coefficients) => polynomial(coefficients, x),
            Action::GainMap(map) => x * map.gain(at.row, at.column, at.grid_plane),
            Action::DeltaPerRow(deltas) => x + deltas[at.grid_row],
            Action::DeltaPerColumn(deltas) => x + deltas[at.grid_column],
            Action::ScalePerRow(scales) => x * scales[at.grid_row],
            Action::ScalePerColumn(scales) => x * scales[at.grid_column],
        })
    }
}

/// "Start with the highest; multiply by x, add the next lower."
fn polynomial(coefficients: &[f64], x: f64) -> f64 {
    let mut sum = coefficients[coefficients.len() - 1];
    for lower in coefficients.iter().rev().skip(1) {
        let product = sum * x;
        sum = product + lower;
    }
    sum
}

/// k: "the greatest whole number <= x * 65535.0 + 0.5", for x from 0 to 1.
fn table_index(x: f64) -> usize {
    let product = x * 65535.0;
    floor_by_bits(product + 0.5) as usize
}

/// The greatest whole number not above y, for y from 0 to below 2^52, taken
/// from the bits of y: the fraction's bits are shifted out.
fn floor_by_bits(y: f64) -> u64 {
    let bits = y.to_bits();
    let exponent = (bits >> 52) as i64 - 1023;
    let significand = (bits & ((1 << 52) - 1)) | (1 << 52);
    let whole = if exponent < 0 { 0 } else { significand >> (52 - exponent) };
    debug_assert_eq!(whole, y as u64);
    whole
}

/// "itself if above 0 and below 1; 1.0 if at least 1; +0.0 otherwise"
pub fn clip(result: f64) -> f64 {
    if result > 0.0 && result < 1.0 {
        result
    } else if result >= 1.0 {
        1.0
    } else {
        0.0
    }
}
