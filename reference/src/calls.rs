//! "The four calls", the one of half-size colour (document 02, T-01), the one of
//! the chain behind a spot (T-06) and the one by tables (T-10).

use std::ops::Range;

use crate::answer::{Answer, Card, Chain};
use crate::chain::{Link, Slices};
use crate::develop::{accept, Accepted, Developed};
use crate::opcodes::FrameSize;
use crate::raw_tags::inside;
use crate::tables::Tables;
use crate::{colour, pattern};

/// "file in; active rows, active columns, samples per pixel, corrections
/// kept, corrections skipped"; and the crop (document 02, T-03).
pub fn card(file: &[u8]) -> Card {
    let accepted = match accept(file) {
        Ok(accepted) => accepted,
        Err(refusal) => return Card::refused(refusal),
    };
    let FrameSize { rows, columns, samples } = accepted.size();
    let skipped = accepted.skipped_places().count() as u64;
    let kept = accepted.opcodes.len() as u64 - skipped;
    Card { number: 0, detail: 0, rows, columns, samples, kept, skipped, crop: accepted.raw.crop }
}

/// Fills the slice "row by row, planes together"; refused, it "leaves its
/// slice untouched".
pub fn window(file: &[u8], top: u64, left: u64, height: u64, width: u64, out: &mut [f64]) -> Answer {
    let wanted = Rectangle { top, left, height, width };
    either(window_or_refusal(file, wanted, out))
}

/// "as window, three XYZ D50 values per pixel"
pub fn colour_window(file: &[u8], top: u64, left: u64, height: u64, width: u64, out: &mut [f64]) -> Answer {
    let wanted = Rectangle { top, left, height, width };
    either(colour_window_or_refusal(file, wanted, out))
}

/// As colour window, of a mosaic: "Windows of this new call count in blocks."
pub fn half_window(file: &[u8], top: u64, left: u64, height: u64, width: u64, out: &mut [f64]) -> Answer {
    let wanted = Rectangle { top, left, height, width };
    either(half_window_or_refusal(file, wanted, out))
}

/// "The call equals the window call in number, detail and slice for every input."
pub fn table_window(file: &[u8], top: u64, left: u64, height: u64, width: u64, out: &mut [f64]) -> Answer {
    let wanted = Rectangle { top, left, height, width };
    either(table_window_or_refusal(file, wanted, out))
}

/// "file, row, column, plane; one f64"; "a refused spot +0.0"
pub fn spot(file: &[u8], row: u64, column: u64, plane: u64) -> (Answer, f64) {
    match spot_or_refusal(file, row, column, plane) {
        Ok(value) => (Answer::DONE, value),
        Err(refusal) => (refusal, 0.0),
    }
}

/// The spot with the chain behind it. "Four lent slices take the place, id, value
/// before and value after of each covering correction", a fifth "the places of
/// exactly the skipped corrections"; refused, it "leaves the slices unchanged".
#[allow(clippy::too_many_arguments)]
pub fn chain(
    file: &[u8],
    row: u64,
    column: u64,
    plane: u64,
    places: &mut [u64],
    ids: &mut [u64],
    before: &mut [f64],
    after: &mut [f64],
    skipped: &mut [u64],
) -> Chain {
    let slices = Slices { places, ids, before, after, skipped };
    chain_or_refusal(file, row, column, plane, slices).unwrap_or_else(Chain::refused)
}

/// In active rows and columns, "from the corner of ActiveArea", or in blocks
/// from there.
#[derive(Clone, Copy)]
struct Rectangle {
    top: u64,
    left: u64,
    height: u64,
    width: u64,
}

fn either(outcome: Result<(), Answer>) -> Answer {
    outcome.err().unwrap_or(Answer::DONE)
}

fn window_or_refusal(file: &[u8], wanted: Rectangle, out: &mut [f64]) -> Result<(), Answer> {
    window_of(&accept(file)?, wanted, out)
}

fn window_of(accepted: &Accepted, wanted: Rectangle, out: &mut [f64]) -> Result<(), Answer> {
    let FrameSize { rows, columns, samples } = accepted.size();
    wanted.test(rows, columns, samples, out.len())?;
    let developed = &Developed::new(accepted);
    wanted.fill(out, |row, column| (0..samples).map(move |plane| developed.value(row, column, plane)));
    Ok(())
}

/// "Other files go the window call's way."
fn table_window_or_refusal(file: &[u8], wanted: Rectangle, out: &mut [f64]) -> Result<(), Answer> {
    let accepted = accept(file)?;
    if !accepted.takes_tables() {
        return window_of(&accepted, wanted, out);
    }
    let FrameSize { rows, columns, samples } = accepted.size();
    wanted.test(rows, columns, samples, out.len())?;
    let tables = Tables::new(&accepted, wanted.rows(), wanted.columns());
    wanted.fill(out, |row, column| [tables.developed(row, column)]);
    Ok(())
}

/// "for colour then 15 and the colour tags; then 13, 14"
fn colour_window_or_refusal(file: &[u8], wanted: Rectangle, out: &mut [f64]) -> Result<(), Answer> {
    let accepted = accept(file)?;
    let FrameSize { rows, columns, samples } = accepted.size();
    if samples == 1 {
        return Err(Answer::OTHER_KIND);
    }
    let colour = colour::read(&accepted.file, &accepted.first)?;
    wanted.test(rows, columns, 3, out.len())?;
    let developed = Developed::new(&accepted);
    wanted.fill(out, |row, column| colour.xyz([0, 1, 2].map(|plane| developed.value(row, column, plane))));
    Ok(())
}

/// "the new call gives 15 for LinearRaw", in 15's place; then the colour tags,
/// "5, 4, 8 on each tag in turn, after the colour tags; then 13, 14".
fn half_window_or_refusal(file: &[u8], wanted: Rectangle, out: &mut [f64]) -> Result<(), Answer> {
    let accepted = accept(file)?;
    let FrameSize { rows, columns, samples } = accepted.size();
    if samples != 1 {
        return Err(Answer::OTHER_KIND);
    }
    let colour = colour::read(&accepted.file, &accepted.first)?;
    let pattern = pattern::read(&accepted.file, &accepted.raw_ifd)?;
    wanted.test(rows / pattern::SIDE, columns / pattern::SIDE, 3, out.len())?;
    let developed = Developed::new(&accepted);
    let sample = |row, column| developed.value(row, column, 0);
    wanted.fill(out, |row, column| colour.xyz(pattern.block(row, column, sample)));
    Ok(())
}

fn spot_or_refusal(file: &[u8], row: u64, column: u64, plane: u64) -> Result<f64, Answer> {
    let accepted = accept_spot(file, row, column, plane)?;
    Ok(Developed::new(&accepted).value(row, column, plane))
}

/// 13: "spot outside it or no such plane".
fn accept_spot(file: &[u8], row: u64, column: u64, plane: u64) -> Result<Accepted<'_>, Answer> {
    let accepted = accept(file)?;
    let FrameSize { rows, columns, samples } = accepted.size();
    if row >= rows || column >= columns || plane >= samples {
        return Err(Answer::OUTSIDE);
    }
    Ok(accepted)
}

/// "as spot; then 14 if any of the five slices has fewer than 32 places"
fn chain_or_refusal(file: &[u8], row: u64, column: u64, plane: u64, slices: Slices) -> Result<Chain, Answer> {
    let accepted = accept_spot(file, row, column, plane)?;
    slices.test()?;
    let links: Vec<Link> = accepted.links(row, column, plane).collect();
    let skipped: Vec<u64> = accepted.skipped_places().collect();
    slices.fill(&links, &skipped);
    Ok(Chain {
        number: 0,
        detail: 0,
        value: Developed::new(&accepted).value(row, column, plane),
        level: accepted.level_numbers(row, column, plane),
        covering: links.len() as u64,
        skipped: skipped.len() as u64,
    })
}

impl Rectangle {
    /// 13: "window empty or not inside the active area", which has so many rows
    /// and columns, or blocks of them; then 14: "slice length not height x width
    /// x values per pixel".
    fn test(self, rows: u64, columns: u64, values_per_pixel: u64, slice: usize) -> Result<(), Answer> {
        if !inside(self.top, self.height, rows) || !inside(self.left, self.width, columns) {
            return Err(Answer::OUTSIDE);
        }
        if slice as u64 != self.height * self.width * values_per_pixel {
            return Err(Answer::SLICE);
        }
        Ok(())
    }

    fn rows(self) -> Range<u64> {
        self.top..self.top + self.height
    }

    fn columns(self) -> Range<u64> {
        self.left..self.left + self.width
    }

    /// Fills the slice with the values of each pixel, or block, row by row.
    fn fill<V: IntoIterator<Item = f64>>(self, out: &mut [f64], values: impl Fn(u64, u64) -> V) {
        let columns = self.columns();
        let pixels = self.rows().flat_map(|row| columns.clone().map(move |column| (row, column)));
        let mut all = pixels.flat_map(|(row, column)| values(row, column));
        out.fill_with(|| all.next().expect("the slice's length was tested"));
    }
}
