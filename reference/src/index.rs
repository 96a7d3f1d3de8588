//! Document 02, T-04, "Show the index in the bits": a MapTable's index by that
//! rule and by the words of document 01, the numbers beside each place where it
//! changes, and frames that hold them.

use crate::builder::{Area, Dng, Opcode, Picture};
use crate::bytes::{ByteOrder, Widths};

/// x * 65535.0 + 0.5: the product is rounded, and then the sum.
pub fn v(x: f64) -> f64 {
    let product = x * 65535.0;
    product + 0.5
}

/// k of document 01: "the greatest whole number <= x * 65535.0 + 0.5", for x from
/// 0 to 1.
pub fn index(x: f64) -> u64 {
    v(x) as u64
}

/// The exponent field e and the fraction field F of an f64 without a sign.
pub fn fields(v: f64) -> (u64, u64) {
    (v.to_bits() >> 52, v.to_bits() & ((1 << 52) - 1))
}

/// k of T-04: "0 where e is under 1023, else the whole part of (2^52 + F) /
/// 2^(1075 - e)", for v from 0.5 to 65535.5.
pub fn in_the_bits(v: f64) -> u64 {
    let (e, f) = fields(v);
    if e < 1023 {
        0
    } else {
        ((1 << 52) + f) / (1 << (1075 - e))
    }
}

/// The greatest x whose index is k, and the next f64, whose index is k + 1; k is
/// below 65,535. The index never falls as x rises, and x rises with its bits.
pub fn boundary(k: u64) -> [f64; 2] {
    let (mut below, mut above) = (0, 1.0f64.to_bits());
    while above - below > 1 {
        let middle = below + (above - below) / 2;
        if index(f64::from_bits(middle)) <= k {
            below = middle;
        } else {
            above = middle;
        }
    }
    [below, above].map(f64::from_bits)
}

/// The least and the greatest x from 0 to 1 of every index, from 0 to 65,535: 0, then
/// both sides of every boundary, then 1.
pub fn ends() -> Vec<[f64; 2]> {
    let numbers: Vec<f64> = [0.0].into_iter().chain((0..65_535).flat_map(boundary)).chain([1.0]).collect();
    numbers.chunks_exact(2).map(|pair| [pair[0], pair[1]]).collect()
}

/// Entries that hold their own indices.
pub fn own_indices(size: usize) -> Vec<u16> {
    (0..size).map(|i| i as u16).collect()
}

/// 16-bit samples without levels, and opcodes that leave the frame with numbers of
/// one's choice.
pub struct Holding {
    picture: Picture,
    opcodes: Vec<Opcode>,
    /// The whole frame.
    pub area: Area,
}

impl Holding {
    fn new(rows: usize, columns: usize, planes: usize, stored: Vec<u16>) -> Holding {
        let [rows, columns, planes] = [rows, columns, planes].map(|n| n as u32);
        let picture = Picture { stored, ..Picture::counting(columns, rows, planes, 16) };
        Holding { picture, opcodes: Vec::new(), area: Area::whole(rows, columns, planes) }
    }

    /// A row of these numbers, at most 31, and behind them of the scaled values of
    /// these samples. Each number is a polynomial of degree 0.
    pub fn row(numbers: &[f64], samples: &[u16]) -> Holding {
        let stored = [&vec![0; numbers.len()], samples].concat();
        let mut row = Holding::new(1, stored.len(), 1, stored);
        let column = |left: u32| Area { left, right: left + 1, ..row.area };
        let constant = |(left, x): (u32, &f64)| Opcode::map_polynomial(column(left), &[*x]);
        row.opcodes = (0..).zip(numbers).map(constant).collect();
        row
    }

    /// A frame of these numbers, row by row, planes together. Each row and plane has
    /// DeltaPerColumns of its own.
    pub fn frame(numbers: &[f64], rows: usize, planes: usize) -> Holding {
        let columns = numbers.len() / rows / planes;
        let (stored, deltas): (Vec<u16>, Vec<[f32; DELTAS]>) = numbers.iter().copied().map(steps_to).unzip();
        let mut frame = Holding::new(rows, columns, planes, stored);
        for (row, plane) in (0..rows).flat_map(|row| (0..planes).map(move |plane| (row, plane))) {
            let (top, plane_number) = (row as u32, plane as u32);
            let area = Area { top, bottom: top + 1, plane: plane_number, planes: 1, ..frame.area };
            let line = deltas[row * columns * planes..].iter().skip(plane).step_by(planes).take(columns);
            frame.opcodes.extend((0..DELTAS).map(|turn| {
                let deltas: Vec<f32> = line.clone().map(|deltas| deltas[turn]).collect();
                Opcode::per_line(11, area, &deltas)
            }));
        }
        frame
    }

    /// The file with these opcodes behind its own.
    pub fn then(&self, (order, widths): (ByteOrder, Widths), last: &[Opcode]) -> Dng {
        let list = [&self.opcodes, last].concat();
        Dng { widths, ..Dng::new(order, &self.picture).with_opcodes(&list) }
    }
}

/// So many FLOATs, of 24 bits each, make up the half step from a scaled value to a
/// boundary.
const DELTAS: usize = 2;

/// The sample whose scaled value is nearest to x, and the deltas that, added to that
/// value one after another, leave x.
fn steps_to(x: f64) -> (u16, [f32; DELTAS]) {
    let stored = index(x) as u16;
    let mut sum = f64::from(stored) / 65535.0;
    let deltas = [(); DELTAS].map(|()| {
        let delta = (x - sum) as f32;
        sum += f64::from(delta);
        delta
    });
    assert_eq!(sum.to_bits(), x.to_bits(), "{deltas:?}");
    (stored, deltas)
}
