//! What the opcodes make of the numbers at their limits: a table's index at
//! each half, both ends of the clip, sums and products that overflow or are
//! denormal.

use reference::builder::Opcode;

use super::lists::{opcodes, whole};
use super::{COLUMNS, DONE, ROWS};
use crate::tally::Tally;

/// Every case of a value; both programs' bits are compared.
pub fn check(tally: &mut Tally) {
    table_indices(tally);
    clips(tally);
    polynomials(tally);
}

/// The least and the greatest denormal.
const DENORMALS: [f64; 2] = [f64::from_bits(1), f64::from_bits((1 << 52) - 1)];

/// The numbers next to x on both sides, and x.
fn around(x: f64) -> [f64; 3] {
    [-1, 0, 1].map(|step| f64::from_bits(x.to_bits().wrapping_add_signed(step)))
}

/// A frame that holds x everywhere.
fn constant(x: f64) -> Opcode {
    Opcode::map_polynomial(whole(), &[x])
}

/// A frame of x through tables that hold their own indices.
fn table_indices(tally: &mut Tally) {
    for size in [1, 2, 4, 300, 65_535, 65_536] {
        let entries: Vec<u16> = (0..size).map(|i| i as u16).collect();
        let table = Opcode::map_table(whole(), &entries);
        let steps =
            [0.0, 0.25, 0.5, 1.0, 1.5, 2.5, 3.0, 3.5, 298.5, 299.5, 65_533.5, 65_534.0, 65_534.5, 65_535.0];
        let near = steps.into_iter().flat_map(|step: f64| around(step.max(1e-300) / 65535.0));
        for x in near.chain(DENORMALS).chain(around(f64::MIN_POSITIVE)) {
            let label = format!("index of {x:e} in a table of {size}");
            opcodes(tally, &label, &[constant(x), table.clone()], DONE);
        }
    }
}

/// Sums and products at 0 and 1 and next to them, and far beyond.
fn clips(tally: &mut Tally) {
    let tiny = f32::from_bits(1);
    let numbers =
        [0.0, -0.0, 1.0, -1.0, 0.5, -0.5, 0.75, 2.0, f32::MIN_POSITIVE, f32::MAX, f32::MIN, tiny, -tiny];
    let xs = [0.5, 1.0, f64::MIN_POSITIVE, DENORMALS[0], tiny.into()];
    for (x, number) in xs.into_iter().flat_map(|x| numbers.map(|n| (x, n))) {
        for x in around(x) {
            for (id, count) in [(10, ROWS), (11, COLUMNS), (12, ROWS), (13, COLUMNS)] {
                let one = Opcode::per_line(id, whole(), &vec![number; count as usize]);
                let label = format!("opcode {id}, {number:e} on {x:e}");
                opcodes(tally, &label, &[constant(x), one.clone()], DONE);
                opcodes(tally, &format!("opcode {id}, {number:e}"), &[one], DONE);
            }
        }
    }
}

/// Every degree, with sums that overflow, cancel, are denormal and come to no
/// number.
fn polynomials(tally: &mut Tally) {
    let [least, greatest] = DENORMALS;
    let rows = [
        [least, least],
        [least, -least],
        [greatest, least],
        [-least, greatest],
        [least, f64::MAX],
        [0.5, -greatest],
        [0.0, 1.0],
        [-0.0, -0.0],
        [1.0, -1.0],
        [f64::MAX, f64::MAX],
        [f64::MAX, f64::MIN],
        [f64::MIN, f64::MAX],
        [f64::MIN_POSITIVE, -f64::MIN_POSITIVE],
        [0.1, 0.3],
        [-0.7, 0.9],
    ];
    for (pair, degree) in rows.into_iter().flat_map(|pair| (0..=8).map(move |degree| (pair, degree))) {
        let coefficients: Vec<f64> = (0..=degree).map(|i| pair[i % 2]).collect();
        opcodes(tally, &format!("{coefficients:?}"), &[Opcode::map_polynomial(whole(), &coefficients)], DONE);
    }
}
