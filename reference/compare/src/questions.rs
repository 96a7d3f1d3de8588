//! The calls to make of one file: the whole frame, inside, one pixel or block,
//! empty, one past each edge, sums and products that wrap, and slices of the
//! right length, one short, one long and empty.

use reference::cases::{Call, SLICES};
use reference::chain::LEAST_PLACES;
use reference::Card;

/// Of a greater frame no whole window is asked.
const GREATEST_WHOLE: u64 = 3_000;
const MAX: u64 = u64::MAX;
const HALF: u64 = 1 << 63;
const PAST_LONG: u64 = 1 << 32;
const OUTSIDE_TURNS: usize = 3;

/// Top, left, height, width.
type Rectangle = [u64; 4];

/// Window, colour window, half window or table window.
type Kind = fn(Rectangle, usize) -> Call;

pub fn window([top, left, height, width]: Rectangle, slice: usize) -> Call {
    Call::Window { top, left, height, width, slice }
}

pub fn colour_window([top, left, height, width]: Rectangle, slice: usize) -> Call {
    Call::ColourWindow { top, left, height, width, slice }
}

/// In blocks.
pub fn half_window([top, left, height, width]: Rectangle, slice: usize) -> Call {
    Call::HalfWindow { top, left, height, width, slice }
}

pub fn table_window([top, left, height, width]: Rectangle, slice: usize) -> Call {
    Call::TableWindow { top, left, height, width, slice }
}

/// A chain with the shortest slices that will do.
pub fn chain([row, column, plane]: [u64; 3]) -> Call {
    Call::Chain { row, column, plane, slices: [LEAST_PLACES; SLICES] }
}

/// A chain of which one slice has so many places.
pub fn chain_with([row, column, plane]: [u64; 3], slice: usize, length: usize) -> Call {
    let mut slices = [LEAST_PLACES; SLICES];
    slices[slice] = length;
    Call::Chain { row, column, plane, slices }
}

/// The spot that stands at this place of the window of a whole frame.
pub fn spot_of(place: u64, columns: u64, planes: u64) -> Call {
    let (pixel, plane) = (place / planes, place % planes);
    Call::Spot { row: pixel / columns, column: pixel % columns, plane }
}

/// All calls but the card; the card is the independent program's. Of those
/// that lie outside, every third is asked, and at the next turn the next one.
pub fn questions(card: &Card, turn: u64) -> Vec<Call> {
    if card.number != 0 {
        return of_refused(turn as usize);
    }
    let (of_chains, parity) = (chains(card, turn as usize), turn as usize % 2);
    let turn = (turn % OUTSIDE_TURNS as u64) as usize;
    let (rows, columns) = (card.rows, card.columns);
    let mut calls = windows(window, rows, columns, card.samples, turn);
    calls.extend(every_second(windows(table_window, rows, columns, card.samples, turn), parity));
    calls.extend(spots(card, turn));
    calls.extend(of_chains);
    if card.samples == 3 {
        calls.extend(windows(colour_window, rows, columns, 3, turn));
        calls.extend(either_window(half_window));
    } else {
        calls.extend(either_window(colour_window));
        // An area without a block is asked as if it had one; all is 13.
        calls.extend(windows(half_window, (rows / 2).max(1), (columns / 2).max(1), 3, turn));
    }
    calls
}

/// The first of these calls, and every second of the others; at the next turn the
/// rest.
fn every_second(calls: Vec<Call>, turn: usize) -> impl Iterator<Item = Call> {
    calls.into_iter().enumerate().filter(move |(i, _)| *i == 0 || i % 2 == turn).map(|(_, call)| call)
}

/// Whatever is asked of it, a refused file answers the same. Of three table windows
/// it is asked one, and at the next turn the next.
fn of_refused(turn: usize) -> Vec<Call> {
    let spots = [0, MAX].map(|n| Call::Spot { row: n, column: n, plane: n });
    let windows = [window as Kind, colour_window, half_window].into_iter().flat_map(either_window);
    let windows = windows.chain([either_window(table_window)[turn % 3]]);
    let chains = [chain([0; 3]), chain_with([MAX; 3], 0, 0)];
    windows.chain(spots).chain(chains).collect()
}

/// A window of one pixel or block, one that is empty, and one as far away as can be.
fn either_window(kind: Kind) -> [Call; 3] {
    [kind([0, 0, 1, 1], 3), kind([0; 4], 0), kind([MAX; 4], 1)]
}

fn windows(kind: Kind, rows: u64, columns: u64, values: u64, turn: usize) -> Vec<Call> {
    let mut calls = Vec::new();
    if rows * columns * values <= GREATEST_WHOLE {
        let right = (rows * columns * values) as usize;
        let lengths = [right, right - 1, right + 1, 0];
        calls.extend(lengths.map(|slice| kind([0, 0, rows, columns], slice)));
    }
    let outside = outside(rows, columns).into_iter().skip(turn).step_by(OUTSIDE_TURNS);
    calls.extend(
        inside(rows, columns)
            .into_iter()
            .chain(outside)
            .map(|rectangle| kind(rectangle, fitting(rectangle, values))),
    );
    calls.push(kind([0, 0, 1, 1], values as usize + 1));
    calls.push(kind([0, 0, 1, 1], values as usize - 1));
    calls.push(kind([rows, columns, 1, 1], values as usize + 1));
    calls
}

/// The corners, a pixel, a row, a column, and the middle.
fn inside(rows: u64, columns: u64) -> Vec<Rectangle> {
    let (high, wide) = (rows.min(20), columns.min(20));
    vec![
        [rows - 1, columns - 1, 1, 1],
        [rows / 2, columns / 3, 1, 1],
        [rows - 1, columns - wide, 1, wide],
        [rows - high, columns - 1, high, 1],
        [rows / 3, columns / 2, (rows - rows / 3).min(9), (columns - columns / 2).min(9)],
    ]
}

/// Each of them is refused by 13.
fn outside(rows: u64, columns: u64) -> Vec<Rectangle> {
    vec![
        // Empty.
        [0, 0, 0, columns],
        [0, 0, rows, 0],
        [rows, columns, 0, 0],
        // One past each edge.
        [rows - 1, 0, 2, 1],
        [rows, 0, 1, 1],
        [0, columns - 1, 1, 2],
        [0, columns, 1, 1],
        [0, 0, rows + 1, 1],
        [0, 0, 1, columns + 1],
        // Sums of 0 and 1 but for 2^64.
        [MAX, 0, 1, 1],
        [MAX, 0, 2, 1],
        [1, 0, MAX, 1],
        [2, 0, MAX, 1],
        [HALF, 0, HALF, 1],
        [0, MAX, 1, 1],
        [0, MAX, 1, 2],
        [0, 1, 1, MAX],
        [0, 2, 1, MAX],
        [0, HALF, 1, HALF],
        // 0 and 1 but for 2^32.
        [PAST_LONG, 0, 1, 1],
        [0, PAST_LONG, 1, 1],
        [0, 0, PAST_LONG + 1, 1],
        [0, 0, 1, PAST_LONG + 1],
        // Products of 0 but for 2^64.
        [0, 0, PAST_LONG, PAST_LONG],
        [0, 0, HALF, 2],
    ]
}

/// height x width x values, as it is or as it wraps, where it is affordable.
fn fitting([_, _, height, width]: Rectangle, values: u64) -> usize {
    let wrapped = height.wrapping_mul(width).wrapping_mul(values);
    if wrapped <= GREATEST_WHOLE {
        wrapped as usize
    } else {
        1
    }
}

fn spots(card: &Card, turn: usize) -> Vec<Call> {
    let outside = spots_outside(card).into_iter().skip(turn).step_by(OUTSIDE_TURNS);
    let places = spots_inside(card).into_iter().chain(outside);
    places.map(|[row, column, plane]| Call::Spot { row, column, plane }).collect()
}

fn spots_inside(card: &Card) -> [[u64; 3]; 3] {
    let &Card { rows, columns, samples, .. } = card;
    [[0; 3], [rows - 1, columns - 1, samples - 1], [rows / 2, columns / 2, samples / 2]]
}

/// Each of them is refused by 13.
fn spots_outside(card: &Card) -> Vec<[u64; 3]> {
    let &Card { rows, columns, samples, .. } = card;
    let last = [rows - 1, columns - 1, samples - 1];
    let mut outside = vec![[rows, columns, samples]];
    for (axis, whole) in [rows, columns, samples].into_iter().enumerate() {
        for far in [whole, MAX, HALF, PAST_LONG, PAST_LONG + whole - 1] {
            let mut place = last;
            place[axis] = far;
            outside.push(place);
        }
    }
    outside
}

/// Three spots inside, of which one has a longer slice; the same with one that is too
/// short; one outside, with slices that will do and with one that will not. At the
/// next turn it is the next slice and the next spot outside.
fn chains(card: &Card, turn: usize) -> Vec<Call> {
    let [first, last, middle] = spots_inside(card);
    let outside = spots_outside(card);
    let outside = outside[turn % outside.len()];
    let slice = turn % SLICES;
    let [long, short] = [[33, 40, 100], [31, 0, 1]].map(|lengths| lengths[turn / SLICES % 3]);
    vec![
        chain(first),
        chain(last),
        chain_with(middle, slice, long),
        chain_with(middle, slice, short),
        chain(outside),
        chain_with(outside, slice, short),
    ]
}
