//! A MapTable's index (document 02, T-04; the answers are document 01's): the least and
//! the greatest number of every index, the scaled value between them, and the ends of
//! tables. Every value is stated.

use reference::builder::{Area, Dng, Opcode, Picture, Tag};
use reference::index::{self, own_indices, Holding};

use super::colour::{MATRIX, NEUTRAL};
use super::{DONE, WAYS};
use crate::questions::{colour_window, half_window, spot_of, window};
use crate::tally::Tally;

/// The entries of the greatest table.
const WHOLE: usize = 65_536;

/// Every case of the index.
pub fn check(tally: &mut Tally) {
    let ends = index::ends();
    rows(tally, &ends);
    sizes(tally, &ends);
    frames(tally, &ends.concat());
    scaled_values(tally);
}

/// Entries that rise from 0, or fall from 65,535, by 1 each.
fn table(falling: bool, size: usize) -> Vec<u16> {
    let rising = own_indices(size);
    if falling {
        rising.into_iter().map(|entry| 65_535 - entry).collect()
    } else {
        rising
    }
}

/// "the entry at k, or the last if k is past it, divided by 65535.0"
fn value(entries: &[u16], k: u64) -> f64 {
    f64::from(entries[(k as usize).min(entries.len() - 1)]) / 65535.0
}

/// A whole frame by the window, and the spot of every so many places.
fn ask_all(tally: &mut Tally, label: &str, file: &[u8], size: [usize; 2], step: usize, stated: &[f64]) {
    let [rows, columns] = size.map(|lines| lines as u64);
    let planes = stated.len() as u64 / rows / columns;
    tally.files += 1;
    tally.ask_values(label, file, &window([0, 0, rows, columns], stated.len()), stated);
    for (place, value) in (0..).zip(stated).step_by(step) {
        tally.ask_values(label, file, &spot_of(place, columns, planes), std::slice::from_ref(value));
    }
}

/// A row with every spot.
fn ask_row(tally: &mut Tally, label: &str, dng: &Dng, stated: &[f64]) {
    ask_all(tally, label, &dng.file(), [1, stated.len()], 1, stated);
}

/// Both ends of 15 indices and, behind these numbers, their scaled values. As a rule
/// the table ends one entry past the last of them: no other index has their entries.
fn rows(tally: &mut Tally, ends: &[[f64; 2]]) {
    let all = own_indices(WHOLE);
    for (turn, (ends, indices)) in ends.chunks(15).zip(all.chunks(15)).enumerate() {
        let last = usize::from(indices[indices.len() - 1]);
        let size = if turn % 37 == 0 { WHOLE } else { WHOLE.min(last + 2) };
        let entries = table(turn / 4 % 2 == 1, size);
        let row = Holding::row(&ends.concat(), indices);
        let dng = row.then(WAYS[turn % 4], &[Opcode::map_table(row.area, &entries)]);
        let twice = indices.iter().flat_map(|k| [k; 2]);
        let stated: Vec<f64> = twice.chain(indices).map(|k| value(&entries, (*k).into())).collect();
        ask_row(tally, &format!("indices up to {last}, {size} entries"), &dng, &stated);
    }
}

/// The least numbers, 1 and its neighbour, and the ends of the first indices, of the
/// last that a table has and of those past it.
fn sizes(tally: &mut Tally, ends: &[[f64; 2]]) {
    let below_1 = 1.0f64.next_down();
    let least = [0, 1, (1 << 52) - 1, 1 << 52, (1 << 52) + 1].map(f64::from_bits);
    for size in [1, 2, 3, 4, 300, 32_768, 32_769, 65_535, WHOLE] {
        let last = (size.saturating_sub(2)..size + 2).filter(|k| *k < WHOLE);
        let of_indices = [0, 1, 2].into_iter().chain(last).map(|k| ends[k]);
        let numbers = [&least[..], &of_indices.collect::<Vec<_>>().concat(), &[below_1, 1.0]].concat();
        for (way, falling) in WAYS.into_iter().flat_map(|way| [(way, false), (way, true)]) {
            let entries = table(falling, size);
            let row = Holding::row(&numbers, &[]);
            let dng = row.then(way, &[Opcode::map_table(row.area, &entries)]);
            let stated: Vec<f64> = numbers.iter().map(|x| value(&entries, index::index(*x))).collect();
            ask_row(tally, &format!("numbers in a table of {size}"), &dng, &stated);
        }
    }
}

/// Areas that share no sample and make up a frame, and which of them a column and a
/// plane are in.
type Split = (Vec<Area>, fn(usize, usize) -> usize);

/// The whole frame, every second column, and of LinearRaw each plane.
fn splits(area: Area) -> Vec<Split> {
    let columns = [0, 1].map(|left| Area { left, column_pitch: 2, ..area });
    let planes = (0..area.planes).map(|plane| Area { plane, planes: 1, ..area });
    let mut splits: Vec<Split> = vec![(vec![area], |_, _| 0), (columns.into(), |column, _| column % 2)];
    if area.planes > 1 {
        splits.push((planes.collect(), |_, plane| plane));
    }
    splits
}

/// All of these numbers in one frame, a mosaic and LinearRaw, through a rising, a
/// falling and a short table by turns.
fn frames(tally: &mut Tally, numbers: &[f64]) {
    let tables = [table(false, WHOLE), table(true, WHOLE), table(true, WHOLE / 2 + 1)];
    for (rows, planes) in [(8, 1), (3, 3)] {
        let mut numbers = numbers.to_vec();
        numbers.resize(numbers.len().next_multiple_of(rows * planes), 1.0);
        let indices: Vec<u64> = numbers.iter().copied().map(index::index).collect();
        let columns = numbers.len() / rows / planes;
        let frame = Holding::frame(&numbers, rows, planes);
        for (split, (areas, part)) in splits(frame.area).into_iter().enumerate() {
            for turn in 0..tables.len() {
                let of_part = |part: usize| &tables[(part + turn) % tables.len()];
                let last = (0..).zip(&areas).map(|(part, area)| Opcode::map_table(*area, of_part(part)));
                let dng = frame.then(WAYS[(split + turn) % 4], &last.collect::<Vec<Opcode>>());
                let stated = (0..).zip(&indices).map(|(place, k)| {
                    let (pixel, plane) = (place / planes, place % planes);
                    value(of_part(part(pixel % columns, plane)), *k)
                });
                let label = format!("every index, {planes} planes, split {split}, table {turn}");
                ask_frame(tally, &label, dng, [rows, columns], &stated.collect::<Vec<f64>>());
            }
        }
    }
}

/// The same of a frame, and its blocks or its colours: by these tags X, Y and Z are the
/// planes' values.
fn ask_frame(tally: &mut Tally, label: &str, dng: Dng, size: [usize; 2], stated: &[f64]) {
    let identity = [1, 0, 0, 0, 1, 0, 0, 0, 1].map(|value| (value, 1));
    let dng = dng.with_pattern([0, 1, 1, 2]).with_first(Tag::srationals(MATRIX, &identity));
    let file = dng.with_first(Tag::shorts(NEUTRAL, &[1; 3])).file();
    ask_all(tally, label, &file, size, 6_553, stated);
    let [rows, columns] = size.map(|lines| lines as u64);
    if stated.len() as u64 == 3 * rows * columns {
        tally.ask_values(label, &file, &colour_window([0, 0, rows, columns], stated.len()), stated);
    } else {
        let [height, width] = [rows / 2, columns / 2];
        let blocks = half_window([0, 0, height, width], (3 * height * width) as usize);
        tally.ask(label, &file, &blocks, Some(DONE));
    }
}

/// Every scaled value, through a table alone.
fn scaled_values(tally: &mut Tally) {
    let size = [4, 16_384];
    let [rows, columns] = size.map(|lines| lines as u32);
    let picture = Picture::counting(columns, rows, 1, 16);
    for (falling, (order, widths)) in [false, true].into_iter().flat_map(|f| WAYS.map(|way| (f, way))) {
        let entries = table(falling, WHOLE);
        let map = Opcode::map_table(Area::whole(rows, columns, 1), &entries);
        let dng = Dng { widths, ..Dng::new(order, &picture).with_opcodes(&[map]) };
        let stated: Vec<f64> = (0..).map(|k| value(&entries, k)).take(WHOLE).collect();
        ask_frame(tally, "every scaled value", dng, size, &stated);
    }
}
