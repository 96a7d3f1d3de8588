//! Table windows (document 02, T-10): 8-bit mosaics with repeats of every size, in
//! which every stored byte stands at every black cell, and windows of far more samples
//! than their tables have places, of all cells or of some. Where there is no list the
//! values are stated. Then files that have no tables, and 13 and 14.

use std::array;

use reference::builder::{Area, Dng, GainMap, Opcode, Picture, Tag};
use reference::bytes::{ByteOrder, Widths};
use reference::random::Random;

use super::blacks::{every_repeat, Levels};
use super::chain::refused;
use super::{each_way, framed, places, DONE, MOSAIC, WAYS};
use crate::mosaic::scaled;
use crate::questions::{table_window, window};
use crate::tally::Tally;

/// Rows and columns of an active area: in each there are 1,024 samples or more to
/// every one of 64 cells, in the wide one in any number of rows, in the high one in
/// any number of columns.
const SQUARE: [u32; 2] = [301, 303];
const WIDE: [u32; 2] = [11, 9_001];
const HIGH: [u32; 2] = [9_001, 11];
const SHAPES: [[u32; 2]; 3] = [SQUARE, WIDE, HIGH];

/// So many samples to a cell, and some more.
const TO_A_CELL: u32 = 1_100;

/// Entries of a linearization table.
const TABLES: [usize; 8] = [1, 3, 100, 255, 256, 257, 300, 65_536];

/// How far the white level stands above the greatest black, where that is whole. By
/// 2 x a divisor of 65535, 65535 D / S has a half at every odd value.
const ABOVE: [i64; 6] = [170, 255, 30, 102, 1, 222];

/// Every case of a table window.
pub fn check(tally: &mut Tally) {
    for (turn, repeat) in every_repeat().enumerate() {
        levels_only(tally, turn, repeat);
        with_table(tally, turn, repeat);
        with_list(tally, turn, repeat);
        with_deltas(tally, turn, repeat);
    }
    other_files(tally);
    outside(tally);
    order(tally);
}

/// An 8-bit mosaic, all but its opcodes.
struct Frame {
    levels: Levels,
    table: Option<Vec<u16>>,
    rows_per_strip: u32,
    way: (ByteOrder, Widths),
}

impl Frame {
    /// All cells are apart, whole or in 256ths; the active corner is as a rule no
    /// multiple of the repeat.
    fn new(turn: usize, area: [u32; 2], repeat: [u32; 2], whole: bool) -> Frame {
        let cells = i64::from(repeat[0] * repeat[1]);
        let cell = |i: i64| if whole { (29 * i + 7) % 64 * 256 } else { (4_001 * i + 100) % 15_361 };
        let mut levels = Levels::new(area, repeat, 1);
        levels.corner = [5, 7].map(|step| ((step * turn + 3) % 10) as u32);
        levels.cells = (0..cells).map(|i| cell(i + turn as i64)).collect();
        let greatest = levels.cells.iter().copied().max().unwrap_or(0);
        levels.white = vec![(greatest / 256 + ABOVE[turn % ABOVE.len()] + i64::from(!whole)) as u32];
        let rows_per_strip = [u32::MAX, 64, 7][turn % 3];
        Frame { levels, table: None, rows_per_strip, way: WAYS[turn % WAYS.len()] }
    }

    /// Through a linearization table that rises and falls.
    fn with_table(mut self, turn: usize) -> Frame {
        let entry = |i: usize| ((37 * i + 99) % 241 + i / 241) as u16;
        self.table = Some((0..TABLES[turn % TABLES.len()]).map(entry).collect());
        self
    }

    fn cell(&self, [row, column]: [u32; 2]) -> usize {
        let [rows, columns] = self.levels.repeat;
        (row % rows * columns + column % columns) as usize
    }

    /// One cell's samples go through all bytes, in a long row and in a long column.
    fn byte(&self, [row, column]: [u32; 2]) -> u8 {
        let [rows, columns] = self.levels.repeat;
        (77 * (row / rows) + 45 * (column / columns) + 31 * self.cell([row, column]) as u32) as u8
    }

    /// The file, whose stored frame is greater than the active area.
    fn dng(&self) -> Dng {
        let Levels { corner: [top, left], area: [rows, columns], .. } = self.levels;
        let (width, length) = (left + columns + 1, top + rows + 2);
        let stored_at = |row: u32, column: u32| match [row.checked_sub(top), column.checked_sub(left)] {
            [Some(row), Some(column)] => self.byte([row, column]),
            _ => (row + column) as u8,
        };
        let stored = (0..length).flat_map(|row| (0..width).map(move |column| (row, column)));
        let stored = stored.map(|(row, column)| stored_at(row, column).into()).collect();
        let picture =
            Picture { width, length, samples: 1, bits: 8, rows_per_strip: self.rows_per_strip, stored };
        let dng =
            Dng::new(self.way.0, &picture).with(Tag::longs(50829, &[top, left, top + rows, left + columns]));
        let dng = Dng { widths: self.way.1, ..self.levels.set(dng) };
        match &self.table {
            Some(entries) => dng.with(Tag::shorts(50712, entries)),
            None => dng,
        }
    }

    /// What each cell's table must hold.
    fn tables(&self) -> Vec<[f64; 256]> {
        let cells = &self.levels.cells;
        let s = 256 * i64::from(self.levels.white[0]) - cells.iter().copied().max().unwrap_or(0);
        let value = |stored: usize| match &self.table {
            Some(entries) => i64::from(entries[stored.min(entries.len() - 1)]),
            None => stored as i64,
        };
        let table = |cell: &i64| array::from_fn(|stored| scaled(256 * value(stored), *cell, s));
        cells.iter().map(table).collect()
    }

    /// Asks for windows with stated values; all bytes must stand at all cells.
    fn ask(&self, tally: &mut Tally, label: &str, rectangles: &[[u32; 4]]) {
        tally.files += 1;
        let (file, tables) = (self.dng().file(), self.tables());
        let mut met = vec![[false; 256]; tables.len()];
        for [top, left, height, width] in rectangles.iter().copied() {
            let columns = left..left + width;
            let places = (top..top + height).flat_map(|row| columns.clone().map(move |column| [row, column]));
            let value = |place: [u32; 2]| {
                let (cell, byte) = (self.cell(place), usize::from(self.byte(place)));
                met[cell][byte] = true;
                tables[cell][byte]
            };
            let stated: Vec<f64> = places.map(value).collect();
            let call = table_window([top, left, height, width].map(u64::from), stated.len());
            tally.ask_values(label, &file, &call, &stated);
        }
        assert!(met.concat().into_iter().all(|met| met), "{label}: every byte stands at every cell");
    }
}

/// The window with this top and left, as square as the area allows, that has so many
/// samples to every cell of the repeat.
fn from_corner([top, left]: [u32; 2], [rows, columns]: [u32; 2], repeat: [u32; 2]) -> [u32; 4] {
    let samples = TO_A_CELL * repeat[0] * repeat[1];
    let height = samples.isqrt().min(rows - top);
    let width = (samples / height + 1).min(columns - left);
    [top, left, (samples / width + 1).min(rows - top), width]
}

/// From every row and every column of the repeat; from every place of a small one.
fn from_every_place(turn: usize, area: [u32; 2], repeat: [u32; 2]) -> Vec<[u32; 4]> {
    let [rows, columns] = repeat;
    let corners: Vec<[u32; 2]> = if rows * columns <= 9 {
        (0..rows).flat_map(|top| (0..columns).map(move |left| [top, left])).collect()
    } else {
        let shift = turn as u32;
        (0..rows.max(columns)).map(|i| [i % rows, (i + shift) % columns]).collect()
    };
    corners.into_iter().map(|corner| from_corner(corner, area, repeat)).collect()
}

/// Few rows in the whole width of the wide area, or few columns in the whole height of
/// the high one: fewer than the repeat has, as many, and one more.
fn of_few_lines(turn: usize, area: [u32; 2], repeat: [u32; 2]) -> Vec<[u32; 4]> {
    let ([rows, columns], [repeat_rows, repeat_columns]) = (area, repeat);
    let first = |count: u32, lines: u32| (turn as u32 + 3 * count) % (lines - count + 1);
    if area == WIDE {
        let window = |height| [first(height, rows), height % 5, height, columns - height % 5];
        (1..=repeat_rows + 1).map(window).collect()
    } else {
        let window = |width| [width % 5, first(width, columns), rows - width % 5, width];
        (1..=repeat_columns + 1).map(window).collect()
    }
}

/// Of any size and place.
fn anywhere(turn: usize, [rows, columns]: [u32; 2]) -> Vec<[u32; 4]> {
    let random = &mut Random::new(turn as u64);
    let mut window = || {
        let ([top, bottom], [left, right]) = (random.stretch(rows), random.stretch(columns));
        [top, left, bottom - top, right - left]
    };
    (0..2).map(|_| window()).collect()
}

fn whole([rows, columns]: [u32; 2]) -> [u32; 4] {
    [0, 0, rows, columns]
}

/// The square area with whole blacks, and one of the others with blacks in 256ths.
fn levels_only(tally: &mut Tally, turn: usize, repeat: [u32; 2]) {
    let label = format!("tables, {repeat:?}, levels only");
    let square = [vec![whole(SQUARE)], from_every_place(turn, SQUARE, repeat), anywhere(turn, SQUARE)];
    Frame::new(turn, SQUARE, repeat, true).ask(tally, &label, &square.concat());
    let area = SHAPES[1 + turn % 2];
    let lines = of_few_lines(turn, area, repeat);
    Frame::new(turn, area, repeat, false).ask(tally, &format!("{label}, 256ths"), &lines);
}

/// The other one, through a linearization table.
fn with_table(tally: &mut Tally, turn: usize, repeat: [u32; 2]) {
    let area = SHAPES[1 + (turn + 1) % 2];
    let corner = [0, 1].map(|axis: usize| (turn / 8) as u32 % repeat[axis]);
    let all = [of_few_lines(turn, area, repeat), vec![from_corner(corner, area, repeat)]];
    let frame = Frame::new(turn, area, repeat, turn % 4 < 2).with_table(turn);
    frame.ask(tally, &format!("tables, {repeat:?}, through a table"), &all.concat());
}

/// Opcodes of every kind, on the whole frame and on a grid.
fn opcodes([rows, columns]: [u32; 2]) -> [Opcode; 5] {
    let area = Area::whole(rows, columns, 1);
    let grid = Area { top: 1, left: 2, row_pitch: 2, column_pitch: 3, ..area };
    let number = |line: u32| (line * 7 % 101) as f32 / 2_048.0;
    let of_rows: Vec<f32> = (0..rows).map(number).collect();
    let of_columns: Vec<f32> = (2..columns).step_by(3).map(|column| number(column) + 0.9).collect();
    let entries: Vec<u16> = (0..3_000).map(|i| (i * 21) as u16).collect();
    [
        Opcode::per_line(10, area, &of_rows),
        Opcode::map_polynomial(area, &[0.0, 0.9, 0.05, 0.05]),
        Opcode::per_line(13, grid, &of_columns),
        Opcode::map_table(Area { row_pitch: 5, ..grid }, &entries),
        Opcode::gain_map(grid, &GainMap::spread(&[[0.9, 1.5, 0.7], [1.1, 0.6, 1.2]])),
    ]
}

/// A great window and one sample, without a linearization table and with one.
fn with_list(tally: &mut Tally, turn: usize, repeat: [u32; 2]) {
    let area = SHAPES[turn % 3];
    let frame = Frame::new(turn, area, repeat, false);
    let frame = if turn % 2 == 0 { frame } else { frame.with_table(turn) };
    let dng = frame.dng().with_opcodes(&opcodes(area));
    let corner = [turn as u32 % repeat[0], (turn as u32 / 3) % repeat[1]];
    let rectangles = [from_corner(corner, area, repeat), [1, 1, 1, 1]];
    same_as_window(tally, &format!("tables, {repeat:?}, with a list"), &dng, 1, &rectangles);
}

/// Deltas of columns, of rows, of both, and of 0.
fn with_deltas(tally: &mut Tally, turn: usize, repeat: [u32; 2]) {
    let area = SHAPES[turn % 3];
    let mut frame = Frame::new(turn, area, repeat, false);
    let delta = |line: u32| if turn % 5 > 2 { 0 } else { -i64::from(41 * line % 509) };
    let [rows, columns] = area.map(|lines| Some((0..lines).map(delta).collect()));
    (frame.levels.columns, frame.levels.rows) = match turn % 5 {
        0 | 3 => (columns, None),
        1 | 4 => (None, rows),
        _ => (columns, rows),
    };
    let rectangles = [from_corner([0, 0], area, repeat)];
    same_as_window(tally, &format!("tables, {repeat:?}, with deltas"), &frame.dng(), 1, &rectangles);
}

/// The same windows by tables and not, of so many planes.
fn same_as_window(tally: &mut Tally, label: &str, dng: &Dng, planes: u32, rectangles: &[[u32; 4]]) {
    tally.files += 1;
    let file = dng.file();
    for rectangle in rectangles {
        let slice = (rectangle[2] * rectangle[3] * planes) as usize;
        let [by_tables, by_window] = [table_window, window]
            .map(|kind| tally.ask(label, &file, &kind(rectangle.map(u64::from), slice), Some(DONE)));
        if by_tables != by_window {
            tally.differs(&format!("{label}: {rectangle:?} by tables and not"));
        }
    }
}

/// 16 bits, and 8 bits of three planes.
fn other_files(tally: &mut Tally) {
    for (samples, bits) in [(1, 16), (3, 8), (3, 16)] {
        let cells: Vec<u16> = (0..4 * samples as u16).map(|cell| 5 * cell % 31).collect();
        let dng = Dng::new(ByteOrder::Little, &Picture::counting(101, 97, samples, bits))
            .with(Tag::shorts(50713, &[2, 2]))
            .with(Tag::shorts(50714, &cells))
            .with(Tag::shorts(50712, &(0..200).map(|i| 300 * i).collect::<Vec<u16>>()))
            .with(Tag::longs(50717, &vec![60_000; samples as usize]));
        for dng in [dng.clone(), dng.without(50712)].iter().flat_map(each_way) {
            let label = format!("no tables, {samples} of {bits} bits");
            same_as_window(tally, &label, &dng, samples, &[[0, 0, 97, 101], [3, 5, 90, 91]]);
        }
    }
}

/// `framed` without its deltas.
fn without_deltas(base: usize) -> Dng {
    framed(base).without(50715).without(50716)
}

/// 13 and 14 at every edge of a small frame, and at those of great ones.
fn outside(tally: &mut Tally) {
    let [rows, columns] = [super::ROWS, super::COLUMNS].map(u64::from);
    for dng in each_way(&without_deltas(MOSAIC)).step_by(3) {
        tally.files += 1;
        let file = dng.file();
        places::windows([rows, columns, 1], table_window, &mut |call, number| {
            tally.ask("tables, places", &file, &call, Some((number, 0)));
        });
    }
    for (turn, area) in SHAPES.into_iter().enumerate() {
        tally.files += 1;
        let file = Frame::new(turn, area, [2, 2], true).dng().file();
        let [rows, columns] = area.map(u64::from);
        let right = (rows * columns) as usize;
        let mut ask = |rectangle: [u64; 4], slice: usize, number| {
            tally.ask("tables, great", &file, &table_window(rectangle, slice), Some((number, 0)));
        };
        for slice in [right - 1, right + 1, 0, 3 * right] {
            ask([0, 0, rows, columns], slice, 14);
        }
        for rectangle in [[1, 0, rows, columns], [0, 1, rows, columns], [0, 0, rows + 1, columns]] {
            for slice in [right, (rectangle[2] * columns) as usize, 0] {
                ask(rectangle, slice, 13);
            }
        }
        for far in [u64::MAX, 1 << 63, 1 << 32] {
            ask([far, 0, rows, columns], right, 13);
            ask([0, far, rows, columns], right, 13);
            ask([rows.wrapping_sub(far), 0, far, columns], right, 13);
        }
    }
}

/// What the file refuses comes before 13, and 13 before 14, in every combination.
fn order(tally: &mut Tally) {
    let (rows, columns) = (u64::from(super::ROWS), u64::from(super::COLUMNS));
    let inside = [[0, 0, 1, 1], [rows - 1, columns - 1, 1, 1]].map(|rectangle| (DONE, rectangle));
    let outside = [[0; 4], [rows, 0, 1, 1], [0, columns, 1, 1], [0, 0, rows + 1, 1], [u64::MAX; 4]];
    let outside = outside.map(|rectangle| ((13, 0), rectangle));
    for (answer, file) in refused(without_deltas) {
        tally.files += 1;
        for (of_place, rectangle) in inside.into_iter().chain(outside) {
            // A pixel has one value or three.
            for slice in [0, 2, 4] {
                let stated = [answer, of_place, (14, 0)].into_iter().find(|answer| *answer != DONE);
                tally.ask("tables, order", &file, &table_window(rectangle, slice), stated);
            }
        }
    }
}
