//! "Colour": the tags of IFD 0 and the XYZ D50 values of one pixel.

use crate::answer::Answer;
use crate::bytes::File;
use crate::directory::Directory;
use crate::tag_test::{verdict, Fraction, Tags, RATIONAL, SHORT, SRATIONAL};

#[derive(Clone, Debug)]
pub struct Colour {
    /// The forward matrix, row by row.
    matrix: Vec<f64>,
    neutral: Vec<f64>,
}

/// "IFD 0, tested in this order"
pub fn read(file: &File, first: &Directory) -> Result<Colour, Answer> {
    let tags = Tags { file, directory: first };
    for two_illuminants_or_more in [50723, 50727, 50965] {
        tags.never(two_illuminants_or_more)?;
    }
    let no_zero_below = |v: Fraction| verdict(v.denominator != 0, true);
    let matrix = tags.required(50964, &[SRATIONAL], 9, no_zero_below)?;
    let no_zero = |v: Fraction| verdict(v.numerator != 0 && v.denominator != 0, true);
    let neutral = tags.required(50728, &[SHORT, RATIONAL], 3, no_zero)?;
    Ok(Colour {
        matrix: matrix.into_iter().map(quotient).collect(),
        neutral: neutral.into_iter().map(quotient).collect(),
    })
}

/// "Each fraction is one division."
fn quotient(v: Fraction) -> f64 {
    v.numerator as f64 / v.denominator as f64
}

impl Colour {
    /// "p is sample / neutral; each of X, Y, Z is ((m0 p0) + (m1 p1)) + (m2 p2),
    /// unclipped."
    pub fn xyz(&self, pixel: [f64; 3]) -> [f64; 3] {
        let p = [0, 1, 2].map(|i: usize| pixel[i] / self.neutral[i]);
        [0, 3, 6].map(|row: usize| {
            let m = &self.matrix[row..row + 3];
            let term0 = m[0] * p[0];
            let term1 = m[1] * p[1];
            let term2 = m[2] * p[2];
            (term0 + term1) + term2
        })
    }
}
