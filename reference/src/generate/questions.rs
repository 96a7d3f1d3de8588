//! Calls inside, at the edge, outside, empty, huge, and with wrong slices.

use crate::calls::card;
use crate::cases::{Call, SLICES};
use crate::chain::LEAST_PLACES;
use crate::develop::accept;
use crate::opcodes::{Grid, Opcode};
use crate::random::Random;

const GREATEST_SLICE: u64 = 3_000;
const CHAINS: usize = 4;

/// Of a table window.
const GREATEST_LONG_SLICE: u64 = 20_000;

pub fn questions(random: &mut Random, file: &[u8]) -> Vec<Call> {
    let card = card(file);
    // A refused file is asked about a small frame that it has not.
    let rows = card.rows.max(1);
    let columns = card.columns.max(1);
    let samples = card.samples.max(1);
    let mut calls = vec![Call::Card];
    if rows * columns * samples <= GREATEST_SLICE {
        calls.push(Call::Window {
            top: 0,
            left: 0,
            height: rows,
            width: columns,
            slice: (rows * columns * samples) as usize,
        });
    }
    for _ in 0..2 {
        calls.push(window(random, rows, columns, samples));
    }
    for _ in 0..3 {
        calls.push(spot(random, rows, columns, samples));
    }
    if card.samples == 3 || random.one_in(3) {
        for _ in 0..2 {
            calls.push(colour_window(random, rows, columns));
        }
    }
    calls.extend(half_windows(random, rows / 2, columns / 2));
    calls.extend(chains(random, file, [rows, columns, samples]));
    calls.extend(table_windows(random, file, &calls, [rows, columns, samples]));
    calls
}

/// The same as the windows and one more; of a great frame that goes by tables five more,
/// of many samples.
fn table_windows(random: &mut Random, file: &[u8], calls: &[Call], sides: [u64; 3]) -> Vec<Call> {
    let same = calls.iter().filter_map(|call| match *call {
        Call::Window { top, left, height, width, slice } => {
            Some(Call::TableWindow { top, left, height, width, slice })
        }
        _ => None,
    });
    let by_tables = accept(file).is_ok_and(|accepted| accepted.takes_tables());
    let great = sides.into_iter().product::<u64>() > GREATEST_SLICE;
    let (count, greatest) = match (by_tables, great) {
        (true, true) => (5, GREATEST_LONG_SLICE),
        _ => (1, GREATEST_SLICE),
    };
    same.chain((0..count).map(|_| long_window(random, sides, greatest))).collect()
}

/// Inside the frame: a few rows or columns and as many of the others as there are,
/// or many of both.
fn long_window(random: &mut Random, [rows, columns, samples]: [u64; 3], greatest: u64) -> Call {
    let (few, greatest) = (random.pick(&[9, 40, 140, 140]), greatest / samples);
    let wide = random.one_in(2);
    let [first, second] = if wide { [rows, columns] } else { [columns, rows] };
    let one = long_stretch(random, first, few);
    let other = long_stretch(random, second, greatest / one.1);
    let [(top, height), (left, width)] = if wide { [one, other] } else { [other, one] };
    let right = (height * width * samples) as usize;
    let slice = random.pick(&[right, right, right, right, right, right, right + 1, right - 1]);
    Call::TableWindow { top, left, height, width, slice }
}

/// As a rule so many lines as there may be.
fn long_stretch(random: &mut Random, whole: u64, greatest: u64) -> (u64, u64) {
    let greatest = greatest.min(whole);
    let length = if random.one_in(4) { random.any() % greatest + 1 } else { greatest };
    (random.any() % (whole - length + 1), length)
}

/// Chains of spots on the grids of the file's opcodes, next to these, anywhere in
/// the frame and outside it.
fn chains(random: &mut Random, file: &[u8], sides: [u64; 3]) -> Vec<Call> {
    let opcodes = accept(file).map(|accepted| accepted.opcodes).unwrap_or_default();
    let grids: Vec<Grid> = opcodes.into_iter().filter_map(grid_of).collect();
    (0..CHAINS)
        .map(|_| {
            let [row, column, plane] = match random.index(16) {
                0..=7 if !grids.is_empty() => {
                    let grid = random.index(grids.len());
                    near_grid(random, &grids[grid])
                }
                8 | 9 => outside(random, sides),
                _ => sides.map(|whole| random.any() % whole),
            };
            Call::Chain { row, column, plane, slices: chain_slices(random) }
        })
        .collect()
}

fn grid_of(opcode: Opcode) -> Option<Grid> {
    match opcode {
        Opcode::Kept(grid, _) => Some(grid),
        Opcode::Skipped => None,
    }
}

/// A sample of the grid, or one beside it in one direction.
fn near_grid(random: &mut Random, grid: &Grid) -> [u64; 3] {
    let mut place = [
        grid.top + random.any() % grid.rows() * grid.row_pitch,
        grid.left + random.any() % grid.columns() * grid.column_pitch,
        grid.plane + random.any() % grid.planes,
    ];
    if random.one_in(2) {
        let beside = [
            [grid.top.wrapping_sub(1), grid.bottom, place[0] + 1],
            [grid.left.wrapping_sub(1), grid.right, place[1] + 1],
            [grid.plane.wrapping_sub(1), grid.plane + grid.planes, place[2] + 1],
        ];
        let axis = random.index(3);
        place[axis] = random.pick(&beside[axis]);
    }
    place
}

/// One past an edge, or as far away as 64 bits reach, in one direction or in all.
fn outside(random: &mut Random, sides: [u64; 3]) -> [u64; 3] {
    let mut far = |whole: u64| random.pick(&[whole, whole, u64::MAX, 1 << 63, (1 << 32) + whole - 1]);
    let all = sides.map(&mut far);
    let mut place = sides.map(|whole| random.any() % whole);
    let axis = random.index(3);
    place[axis] = all[axis];
    if random.one_in(4) {
        all
    } else {
        place
    }
}

/// As a rule the least that will do; now and then longer ones, or one that is too
/// short.
fn chain_slices(random: &mut Random) -> [usize; SLICES] {
    let mut lengths = [LEAST_PLACES; SLICES];
    match random.index(12) {
        0 => lengths[random.index(SLICES)] = random.pick(&[LEAST_PLACES - 1, LEAST_PLACES - 1, 0, 1, 16]),
        1 | 2 => lengths = lengths.map(|length| length + random.index(4)),
        3 => lengths[random.index(SLICES)] = random.pick(&[LEAST_PLACES + 1, 64, 100]),
        _ => {}
    }
    lengths
}

/// All blocks, where they are not too many, and two windows of them. An area
/// without a block is asked about one.
fn half_windows(random: &mut Random, rows: u64, columns: u64) -> Vec<Call> {
    let (rows, columns) = (rows.max(1), columns.max(1));
    let mut calls = Vec::new();
    if rows * columns * 3 <= GREATEST_SLICE {
        let slice = (rows * columns * 3) as usize;
        calls.push(Call::HalfWindow { top: 0, left: 0, height: rows, width: columns, slice });
    }
    for _ in 0..2 {
        let (top, height) = stretch(random, rows);
        let (left, width) = stretch(random, columns);
        calls.push(Call::HalfWindow { top, left, height, width, slice: slice(random, height, width, 3) });
    }
    calls
}

fn window(random: &mut Random, rows: u64, columns: u64, samples: u64) -> Call {
    let (top, height) = stretch(random, rows);
    let (left, width) = stretch(random, columns);
    Call::Window { top, left, height, width, slice: slice(random, height, width, samples) }
}

fn colour_window(random: &mut Random, rows: u64, columns: u64) -> Call {
    let (top, height) = stretch(random, rows);
    let (left, width) = stretch(random, columns);
    Call::ColourWindow { top, left, height, width, slice: slice(random, height, width, 3) }
}

fn spot(random: &mut Random, rows: u64, columns: u64, samples: u64) -> Call {
    let mut place = |whole: u64| match random.index(20) {
        0 => whole,
        1 => random.any(),
        2 => whole - 1,
        _ => random.any() % whole,
    };
    Call::Spot { row: place(rows), column: place(columns), plane: place(samples) }
}

/// A start and a length on one side of the frame.
fn stretch(random: &mut Random, whole: u64) -> (u64, u64) {
    let inside = |random: &mut Random| {
        let start = random.any() % whole;
        (start, random.any() % (whole - start).min(30) + 1)
    };
    match random.index(40) {
        0 => (random.any() % (whole + 1), 0),
        1 => (whole, 1),
        2 => (random.any(), random.any()),
        3 => (u64::MAX, random.pick(&[1, 2, u64::MAX])),
        4 => (random.pick(&[0, 1]), u64::MAX),
        5 => {
            let start = random.any() % whole;
            (start, whole - start + 1)
        }
        6..=8 => {
            let start = random.any() % whole;
            (start, whole - start)
        }
        _ => inside(random),
    }
}

/// The right length if it is affordable, and now and then another.
fn slice(random: &mut Random, height: u64, width: u64, values: u64) -> usize {
    let right = height.saturating_mul(width).saturating_mul(values);
    let right = right.min(GREATEST_SLICE) as usize;
    match random.index(12) {
        0 => right + 1,
        1 => right.saturating_sub(1),
        2 => random.index(20),
        _ => right,
    }
}
