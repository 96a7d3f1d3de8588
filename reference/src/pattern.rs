//! "Half-size colour from mosaics" (document 02, T-01): the tags of the mosaic's
//! pattern, and the three values of one block.

use crate::answer::Answer;
use crate::bytes::File;
use crate::directory::Directory;
use crate::tag_test::{fine, verdict, Fraction, Tags, Verdict, BYTE, SHORT};

/// The rows, and the columns, of a block.
pub const SIDE: u64 = 2;

const PLACES: usize = (SIDE * SIDE) as usize;
const RED: u64 = 0;
const GREEN: u64 = 1;
const BLUE: u64 = 2;

/// The colours of a block's samples, row by row from its top left one.
#[derive(Clone, Copy, Debug, PartialEq, Eq)]
pub struct Pattern(pub [u64; PLACES]);

/// 33421, 33422, 50710 and 50711 of the raw directory, "each tag in turn".
pub fn read(file: &File, raw: &Directory) -> Result<Pattern, Answer> {
    let tags = Tags { file, directory: raw };
    tags.required(33421, &[SHORT], 2, only(SIDE))?;
    let pattern = read_pattern(&tags)?;
    read_plane_colours(&tags)?;
    tags.one_or(50711, &[SHORT], 1, only(1))?;
    Ok(pattern)
}

/// Every value is legal, and one is carried.
fn only(carried: u64) -> impl Fn(Fraction) -> Verdict {
    move |v| verdict(true, v.whole() == carried)
}

/// "Carried patterns hold one 0, two 1 and one 2."
fn read_pattern(tags: &Tags) -> Result<Pattern, Answer> {
    let values = tags.required(33422, &[BYTE], PLACES as u64, fine)?;
    let pattern = Pattern([0, 1, 2, 3].map(|place: usize| values[place].whole()));
    let held = [RED, GREEN, BLUE].map(|colour| pattern.places(colour).count());
    if held == [1, 2, 1] {
        Ok(pattern)
    } else {
        Err(Answer::not_carried(33422))
    }
}

/// "default 0, 1, 2, only that carried"
fn read_plane_colours(tags: &Tags) -> Result<(), Answer> {
    let carried = [RED, GREEN, BLUE].map(Fraction::from_whole);
    match tags.optional(50710, &[BYTE], 3..=3, fine)? {
        Some(values) if values != carried => Err(Answer::not_carried(50710)),
        _ => Ok(()),
    }
}

impl Pattern {
    /// The row and the column in the block of each sample of a colour, in row
    /// order.
    fn places(&self, colour: u64) -> impl Iterator<Item = (u64, u64)> + '_ {
        let all = (0..).zip(self.0);
        all.filter(move |(_, found)| *found == colour).map(|(place, _)| (place / SIDE, place % SIDE))
    }

    /// "Each whole 2x2 block from the active corner gives developed red, (first
    /// green + second green in row order) * 0.5, blue." Takes the developed
    /// value at an active row and column.
    pub fn block(&self, row: u64, column: u64, developed: impl Fn(u64, u64) -> f64) -> [f64; 3] {
        let of_colour = |colour: u64| -> Vec<f64> {
            let places = self.places(colour);
            places.map(|(down, across)| developed(SIDE * row + down, SIDE * column + across)).collect()
        };
        let greens = of_colour(GREEN);
        let sum = greens[0] + greens[1];
        [of_colour(RED)[0], sum * 0.5, of_colour(BLUE)[0]]
    }
}
