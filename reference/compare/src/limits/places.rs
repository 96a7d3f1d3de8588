//! 13 and 14: windows, colour windows, half windows, spots and chains at every edge
//! of the active area, and as far away as 64 bits reach.

use reference::builder::{Opcode, Tag};
use reference::cases::Call;

use super::lists::{good, whole};
use super::{each_way, framed, LINEAR, MOSAIC};
use crate::questions::{chain, colour_window, half_window, window};
use crate::tally::Tally;

const ROWS: u64 = super::ROWS as u64;
const COLUMNS: u64 = super::COLUMNS as u64;
const MAX: u64 = u64::MAX;
const HALF: u64 = 1 << 63;
const PAST_LONG: u64 = 1 << 32;

/// A first line and a number of lines, not inside seven lines or fewer. In many
/// of them the sum or one of the two is inside but for 2^64 or 2^32.
const ASTRAY: [[u64; 2]; 24] = [
    [0, MAX],
    [1, MAX],
    [2, MAX],
    [3, MAX - 1],
    [5, MAX],
    [6, MAX],
    [MAX, 1],
    [MAX, 2],
    [MAX - 1, 2],
    [MAX - 1, 3],
    [MAX, MAX],
    [MAX, 0],
    [HALF, HALF],
    [HALF, HALF + 1],
    [HALF + 1, HALF],
    [HALF, 1],
    [0, HALF],
    [PAST_LONG, 1],
    [PAST_LONG, 0],
    [PAST_LONG - 1, 1],
    [PAST_LONG - 1, 2],
    [0, PAST_LONG],
    [0, PAST_LONG + 1],
    [1, PAST_LONG - 1],
];

/// Height and width whose product, times 1 or 3, is 0, 1 or 3 but for 2^64.
const WRAPPING: [[u64; 2]; 8] = [
    [PAST_LONG, PAST_LONG],
    [HALF, 2],
    [2, HALF],
    [MAX, MAX],
    [1, 0xAAAA_AAAA_AAAA_AAAB],
    [0xAAAA_AAAA_AAAA_AAAB, 1],
    [HALF, 6],
    [1 << 60, 16],
];

/// Every case of 13 and 14.
pub fn check(tally: &mut Tally) {
    for (base, samples) in [(MOSAIC, 1), (LINEAR, 3)] {
        let list = [good(8, whole()), Opcode::new(99, 1, vec![]), good(9, whole()), good(13, whole())];
        let dng = framed(base)
            .with_opcodes(&list)
            .with_pattern([1, 0, 2, 1])
            .with_first(Tag::srationals(50964, &[(1, 3); 9]))
            .with_first(Tag::rationals(50728, &[(1, 2); 3]));
        for dng in each_way(&dng) {
            tally.files += 1;
            let file = dng.file();
            let label = format!("places, base {base}, {:?}, {:?}", dng.order, dng.widths);
            let mut ask = |call, number| {
                tally.ask(&label, &file, &call, Some((number, 0)));
            };
            spots(samples, &mut ask);
            windows([ROWS, COLUMNS, samples], window, &mut ask);
            if samples == 3 {
                windows([ROWS, COLUMNS, 3], colour_window, &mut ask);
            } else {
                windows([ROWS / 2, COLUMNS / 2, 3], half_window, &mut ask);
            }
        }
    }
}

fn spots(samples: u64, ask: &mut impl FnMut(Call, u32)) {
    let far = [HALF, PAST_LONG, PAST_LONG + 1, MAX - 1, MAX, 256, 65_536];
    let places = |whole: u64| (0..=whole + 1).chain(far);
    let all = places(ROWS)
        .flat_map(|row| places(COLUMNS).map(move |column| (row, column)))
        .flat_map(|(row, column)| places(samples).map(move |plane| (row, column, plane)));
    for (row, column, plane) in all {
        let inside = row < ROWS && column < COLUMNS && plane < samples;
        let number = if inside { 0 } else { 13 };
        ask(Call::Spot { row, column, plane }, number);
        ask(chain([row, column, plane]), number);
    }
}

/// Windows of so many rows and columns, or blocks, and values for each.
pub fn windows(
    [rows, columns, values]: [u64; 3],
    kind: fn([u64; 4], usize) -> Call,
    ask: &mut impl FnMut(Call, u32),
) {
    let mut ask = |rectangle, slice: usize, number| ask(kind(rectangle, slice), number);
    near(rows, columns, values, &mut ask);
    far(rows, columns, values, &mut ask);
    let right = (rows * columns * values) as usize;
    let other = (rows * columns * (4 - values)) as usize;
    for slice in [2 * right, other, right + 65_536, (rows * columns) as usize + 1, values as usize] {
        ask([0, 0, rows, columns], slice, 14);
    }
}

/// Every window up to one past each edge, with slices around the right one.
fn near(rows: u64, columns: u64, values: u64, ask: &mut impl FnMut([u64; 4], usize, u32)) {
    let lines =
        |whole: u64| (0..=whole + 1).flat_map(move |from| (0..=whole + 1).map(move |count| (from, count)));
    for (top, height) in lines(rows) {
        for (left, width) in lines(columns) {
            let empty = height == 0 || width == 0;
            let inside = top + height <= rows && left + width <= columns;
            let refused = empty || !inside;
            let rectangle = [top, left, height, width];
            let right = (height * width * values) as usize;
            ask(rectangle, right, if refused { 13 } else { 0 });
            for slice in [right + 1, right.saturating_sub(1), 0] {
                if slice != right {
                    ask(rectangle, slice, if refused { 13 } else { 14 });
                }
            }
        }
    }
}

/// Windows far away, or whose sums and products wrap.
fn far(rows: u64, columns: u64, values: u64, ask: &mut impl FnMut([u64; 4], usize, u32)) {
    for [from, count] in ASTRAY {
        for slice in [0, 1, values as usize, (rows * columns * values) as usize] {
            ask([from, 0, count, 1], slice, 13);
            ask([0, from, 1, count], slice, 13);
            ask([from, from, count, count], slice, 13);
            ask([from, 0, count, columns], slice, 13);
            ask([0, from, rows, count], slice, 13);
        }
    }
    for ([height, width], slice) in
        WRAPPING.into_iter().flat_map(|sides| [0, 1, 3].map(|slice| (sides, slice)))
    {
        ask([0, 0, height, width], slice, 13);
        ask([1, 1, height, width], slice, 13);
    }
}
