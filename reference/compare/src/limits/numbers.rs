//! The numbers of one opcode: refusal 12, infinite and NaN (document 02, T-07), by
//! bits. Denormals are read as they are.

use reference::builder::{Area, Opcode};

use super::lists::{opcodes, whole};
use super::{COLUMNS, DONE, ROWS};
use crate::tally::Tally;

/// Without their sign: zero, both ends of the denormals and of the normal numbers.
pub const GOOD_FLOATS: [u32; 10] =
    [0, 1, 0x80, 0x0001_0000, 0x0040_0000, 0x007F_FFFF, 0x0080_0000, 0x0080_0001, 0x3F80_0000, 0x7F7F_FFFF];
pub const BAD_FLOATS: [u32; 5] = [0x7F80_0000, 0x7F80_0001, 0x7FBF_FFFF, 0x7FC0_0000, 0x7FFF_FFFF];
pub const FLOAT_SIGN: u32 = 1 << 31;

pub const GOOD_DOUBLES: [u64; 11] = [
    0,
    1,
    0xFFFF_FFFF,
    0x0000_0001_0000_0000,
    0x0008_0000_0000_0000,
    0x000F_FFFF_0000_0000,
    0x000F_FFFF_FFFF_FFFF,
    0x0010_0000_0000_0000,
    0x0010_0000_0000_0001,
    0x3FF0_0000_0000_0000,
    0x7FEF_FFFF_FFFF_FFFF,
];
pub const BAD_DOUBLES: [u64; 7] = [
    0x7FF0_0000_0000_0000,
    0x7FF0_0000_0000_0001,
    0x7FF0_0001_0000_0000,
    0x7FF7_FFFF_FFFF_FFFF,
    0x7FF8_0000_0000_0000,
    0x7FFF_FFFF_0000_0000,
    0x7FFF_FFFF_FFFF_FFFF,
];
pub const DOUBLE_SIGN: u64 = 1 << 63;

/// Every case of an opcode's numbers.
pub fn check(tally: &mut Tally) {
    floats(tally);
    doubles(tally);
    shorts(tally);
}

/// A row of numbers, good (DONE) and bad (12), with both signs.
pub fn signed<T: Copy + std::ops::BitOr<Output = T>>(good: &[T], bad: &[T], sign: T) -> Vec<(T, u32)> {
    let good = good.iter().map(|bits| (*bits, 0));
    let numbers: Vec<(T, u32)> = good.chain(bad.iter().map(|bits| (*bits, 12))).collect();
    numbers.iter().flat_map(|(bits, number)| [(*bits, *number), (*bits | sign, *number)]).collect()
}

/// Every FLOAT at every place alone, and at the first and the last.
fn floats(tally: &mut Tally) {
    for (id, count) in [(10, ROWS), (11, COLUMNS), (12, ROWS), (13, COLUMNS)] {
        let last = count as usize - 1;
        for (bits, number) in signed(&GOOD_FLOATS, &BAD_FLOATS, FLOAT_SIGN) {
            for places in (0..=last).map(|place| [place; 2]).chain([[0, last]]) {
                let mut values = vec![0.5f32; count as usize];
                places.into_iter().for_each(|place| values[place] = f32::from_bits(bits));
                let one = Opcode::per_line(id, whole(), &values);
                opcodes(tally, &format!("opcode {id}, {bits:08x} at {places:?}"), &[one], (number, 0));
            }
        }
    }
}

/// Every DOUBLE at every place of a polynomial of each degree.
fn doubles(tally: &mut Tally) {
    for (count, (bits, number)) in (1..=9).flat_map(|count| {
        signed(&GOOD_DOUBLES, &BAD_DOUBLES, DOUBLE_SIGN).into_iter().map(move |n| (count, n))
    }) {
        for place in 0..count {
            let mut values = vec![0.5f64; count];
            values[place] = f64::from_bits(bits);
            let one = Opcode::map_polynomial(whole(), &values);
            let list = [Opcode::per_line(10, Area { bottom: 1, ..whole() }, &[0.25]), one];
            let label = format!("{bits:016x} at {place} of {count}");
            opcodes(tally, &label, &list, if number == 0 { DONE } else { (number, 1) });
        }
    }
}

/// A table's entries and a skipped opcode's bytes are no such numbers.
fn shorts(tally: &mut Tally) {
    let table = Opcode::map_table(whole(), &[0x7F80, 0, 0x7FF0, 0, 0, 1, 0x8000, 1, 0xFFFF, 0xFFFF]);
    opcodes(tally, "a table of any entries", &[table], DONE);
    let skipped = Opcode::map_polynomial(whole(), &[f64::NAN]).with_version(u32::MAX).with_flags(1);
    opcodes(tally, "a skipped NaN", &[skipped], DONE);
}
