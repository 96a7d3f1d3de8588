//! The parameters of one opcode: refusal 10 at each of the nine LONGs, and by
//! the byte length.

use reference::builder::{Area, Opcode};

use super::lists::{good, opcodes, whole, LISTED};
use super::{both, framed, COLUMNS, DONE, LINEAR, MAX, MOSAIC, ROWS};
use crate::tally::Tally;

/// Top, left, bottom, right in an active area of 6 x 7 (stored: 8 x 10).
const INSIDE: [[u32; 4]; 9] = [
    [0, 0, 6, 7],
    [5, 0, 6, 7],
    [0, 6, 6, 7],
    [0, 0, 1, 7],
    [0, 0, 6, 1],
    [0, 0, 1, 1],
    [5, 6, 6, 7],
    [2, 3, 4, 5],
    [4, 1, 5, 6],
];
const OUTSIDE: [[u32; 4]; 32] = [
    // Bottom and Right past the active area.
    [0, 0, 7, 7],
    [0, 0, 6, 8],
    [0, 0, 8, 7],
    [0, 0, 6, 10],
    [5, 0, 7, 7],
    [0, 6, 6, 8],
    [6, 0, 7, 7],
    [0, 7, 6, 8],
    [0, 0, 65_536 + 6, 7],
    [0, 0, 6, 65_536 + 7],
    [0, 0, 6 << 24, 7],
    [0, 0, 6, 7 << 24],
    [0, 0, 1 << 31, 7],
    [0, 0, 6, 1 << 31],
    [0, 0, MAX, 7],
    [0, 0, 6, MAX],
    // Top not above Bottom, Left not before Right.
    [6, 0, 6, 7],
    [0, 7, 6, 7],
    [3, 0, 3, 7],
    [0, 3, 6, 3],
    [0, 0, 0, 7],
    [0, 0, 6, 0],
    [4, 0, 3, 7],
    [0, 4, 6, 3],
    [5, 0, 0, 7],
    [0, 6, 6, 0],
    [1 << 31, 0, 6, 7],
    [0, 1 << 31, 6, 7],
    [MAX, 0, 6, 7],
    [0, MAX, 6, 7],
    [MAX - 1, 0, MAX, 7],
    [0, MAX - 1, 6, MAX],
];

/// Plane and planes that are there, of one sample and of three.
const PLANES: [&[[u32; 2]]; 2] = [&[[0, 1]], &[[0, 1], [0, 2], [0, 3], [1, 1], [1, 2], [2, 1]]];
/// Some are there but for 2^32.
const NO_PLANES: [&[[u32; 2]]; 2] = [
    &[[0, 0], [0, 2], [0, 3], [1, 0], [1, 1], [2, 1], [MAX, 1], [MAX, 2], [1, MAX], [2, MAX], [0, MAX]],
    &[
        [0, 0],
        [0, 4],
        [1, 3],
        [2, 2],
        [3, 1],
        [3, 0],
        [2, 0],
        [MAX, 1],
        [MAX, 2],
        [MAX, 4],
        [1, MAX],
        [4, MAX],
    ],
];
const WRAPPING_PLANES: [[u32; 2]; 8] = [
    [1 << 31, 1 << 31],
    [1 << 31, (1 << 31) + 1],
    [MAX, MAX],
    [2, MAX - 1],
    [3, MAX - 1],
    [MAX - 1, 3],
    [0, 1 << 24],
    [65_536, 1],
];

/// First line, line past the last, pitch, lines of the grid.
const LINES: [(u32, u32, u32, u32); 20] = [
    (0, 6, 1, 6),
    (0, 6, 2, 3),
    (0, 6, 3, 2),
    (0, 6, 4, 2),
    (0, 6, 5, 2),
    (0, 6, 6, 1),
    (0, 6, 7, 1),
    (0, 5, 2, 3),
    (1, 6, 2, 3),
    (1, 5, 2, 2),
    (2, 6, 3, 2),
    (3, 6, 3, 1),
    (5, 6, 1, 1),
    (5, 6, 2, 1),
    (0, 6, 65_536, 1),
    (0, 6, 1 << 31, 1),
    (0, 6, MAX - 5, 1),
    (0, 6, MAX - 1, 1),
    (0, 6, MAX, 1),
    (5, 6, MAX, 1),
];

/// Every case of an opcode's parameters but for its numbers.
pub fn check(tally: &mut Tally) {
    areas(tally);
    planes(tally);
    pitches_and_counts(tally);
    sizes(tally);
    byte_lengths(tally);
}

fn areas(tally: &mut Tally) {
    let area = |[top, left, bottom, right]: [u32; 4]| Area { top, left, bottom, right, ..whole() };
    for id in LISTED {
        for corners in INSIDE {
            opcodes(tally, &format!("opcode {id} on {corners:?}"), &[good(id, area(corners))], DONE);
        }
        for corners in OUTSIDE {
            opcodes(tally, &format!("opcode {id} on {corners:?}"), &[good(id, area(corners))], (10, 0));
        }
    }
}

fn planes(tally: &mut Tally) {
    for (id, base) in LISTED.into_iter().flat_map(|id| [(id, MOSAIC), (id, LINEAR)]) {
        let no_planes = NO_PLANES[base].iter().chain(&WRAPPING_PLANES).map(|planes| (planes, (10, 1)));
        for ([plane, planes], answer) in PLANES[base].iter().map(|planes| (planes, DONE)).chain(no_planes) {
            let area = Area { plane: *plane, planes: *planes, ..whole() };
            let dng = framed(base).with_opcodes(&[good(8, whole()), good(id, area)]);
            both(tally, &format!("opcode {id}, planes {planes} from {plane}, base {base}"), &dng, answer);
        }
    }
}

/// The same lines as rows and as columns; of a count, one less and one more,
/// with as many bytes as it says and with as many as it should.
fn pitches_and_counts(tally: &mut Tally) {
    for ((from, to, pitch, lines), id) in LINES.into_iter().flat_map(|line| LISTED.map(|id| (line, id))) {
        let rows = Area { top: from, bottom: to, row_pitch: pitch, column_pitch: 3, ..whole() };
        let columns = Area { left: from, right: to, row_pitch: 4, column_pitch: pitch, ..whole() };
        for (area, counted) in [(rows, [10, 12]), (columns, [11, 13])] {
            let label = format!("opcode {id} on {area:?}");
            let one = good(id, area);
            opcodes(tally, &label, std::slice::from_ref(&one), DONE);
            if !counted.contains(&id) {
                continue;
            }
            for (stated, there) in [
                (lines, lines),
                (lines - 1, lines - 1),
                (lines + 1, lines + 1),
                (lines - 1, lines),
                (lines + 1, lines),
            ] {
                let mut one = one.clone().with_long(8, stated);
                one.parameters.resize(36 + 4 * there as usize, 0);
                let answer = if (stated, there) == (lines, lines) { DONE } else { (10, 0) };
                opcodes(tally, &format!("{label}, {stated} stated, {there} there"), &[one], answer);
            }
        }
    }
    for id in LISTED {
        for (row_pitch, column_pitch) in [(0, 1), (1, 0), (0, 0), (0, MAX), (MAX, 0)] {
            let area = Area { row_pitch, column_pitch, ..whole() };
            for count in [1, ROWS, COLUMNS] {
                let mut one = good(id, area);
                if id > 9 {
                    one = one.with_long(8, count);
                    one.parameters.resize(36 + 4 * count as usize, 0);
                }
                opcodes(tally, &format!("opcode {id}, pitches {row_pitch}, {column_pitch}"), &[one], (10, 0));
            }
        }
    }
}

/// Table sizes and degrees, each with as many bytes as it says. Some say none
/// but for 2^32.
fn sizes(tally: &mut Tally) {
    let tables = [
        (0, 0, 10),
        (1, 2, 0),
        (2, 4, 0),
        (65_535, 131_070, 0),
        (65_536, 131_072, 0),
        (65_537, 131_074, 10),
        (131_072, 262_144, 10),
        (1 << 31, 0, 10),
        ((1 << 31) + 1, 2, 10),
        (MAX, 0, 10),
    ];
    let mut degrees: Vec<(u32, usize, u32)> = (0..=8).map(|n| (n, 8 * (n as usize + 1), 0)).collect();
    degrees.extend([(9, 80, 10), (10, 88, 10), (255, 2048, 10), (256, 2056, 10), (65_536, 524_296, 10)]);
    degrees.extend([
        ((1 << 29) - 1, 0, 10),
        (1 << 29, 8, 10),
        (1 << 31, 8, 10),
        (MAX - 1, 0, 10),
        (MAX, 0, 10),
    ]);
    let counts =
        [(0, 0, 10), (1 << 30, 0, 10), ((1 << 30) + 6, 24, 10), ((1 << 30) + 7, 28, 10), (MAX, 0, 10)];
    for (id, (stated, bytes, number)) in LISTED.into_iter().flat_map(|id| {
        let rows = match id {
            7 => tables.to_vec(),
            8 => degrees.clone(),
            // A GainMap's points and planes stand with its other limits.
            9 => Vec::new(),
            _ => counts.to_vec(),
        };
        rows.into_iter().map(move |row| (id, row))
    }) {
        let mut one = good(id, whole()).with_long(8, stated);
        one.parameters.resize(36, 0);
        one.parameters.resize(36 + bytes, 63);
        opcodes(tally, &format!("opcode {id}, {stated} in {bytes} bytes"), &[one], (number, 0));
    }
}

/// "The byte length must be exact": parameters cut at every byte, and longer.
fn byte_lengths(tally: &mut Tally) {
    for id in LISTED {
        let one = good(id, whole());
        let exact = one.parameters.len();
        for length in (0..=exact + 9).chain([2 * exact, 1000]) {
            let mut one: Opcode = one.clone();
            one.parameters.resize(length, 0);
            let answer = if length == exact { DONE } else { (10, 1) };
            let list = [good(7, whole()), one, good(8, whole())];
            opcodes(tally, &format!("opcode {id}, {length} bytes for {exact}"), &list, answer);
        }
    }
}
