//! The greatest black that occurs (9): "the greatest B over all active samples
//! of the plane". A cell, a row's and a column's delta count where they meet.

use reference::builder::{Area, Data, Dng, Opcode, OpcodeList, Picture, Place, Tag};
use reference::bytes::ByteOrder;
use reference::tag_test::SHORT;

use super::tags::full;
use super::{answer, both, check_file, each_way, entry, everywhere, plain, Answer, DONE, LINEAR, MOSAIC};
use crate::questions::window;
use crate::tally::Tally;

/// 65,535 and 1 in 256ths.
pub const FULL: i64 = 65_535 * 256;
const ONE: i64 = 256;

/// A white level; in 256ths, the greatest column delta, the greatest row delta
/// and the black level that add up to just as much.
const LEVEL: [(u32, &[[i64; 3]]); 4] = [
    (0, &[[-1, 0, 1], [0, -1, 1], [1, -2, 1], [-FULL, FULL - 1, 1]]),
    (1, &[[0, 0, 256], [255, 0, 1], [0, 255, 1], [100, 56, 100], [-1, 0, 257], [0, -1, 257]]),
    (1, &[[-1, -1, 258], [FULL, -FULL, 256], [-FULL, FULL, 256]]),
    (65_535, &[[1, 0, FULL - 1], [0, 1, FULL - 1], [FULL - 1, 0, 1], [1 - FULL, FULL, FULL - 1]]),
];

/// Every case of the greatest black.
pub fn check(tally: &mut Tally) {
    one_cell_for_all(tally);
    cells(tally);
    cells_of_planes(tally);
    corners(tally);
    one_line_each_way(tally);
    one_line_one_way(tally);
    sums(tally);
    white_levels(tally);
    unmet_values(tally);
    order_of_tests(tally);
    great_frames(tally);
    example_4(tally);
}

/// Black levels, deltas and white levels over an active area; all but the
/// white levels in 256ths.
#[derive(Clone)]
pub struct Levels {
    /// Stored rows and columns before the area. Where there are any, one of
    /// each stands behind it too.
    pub corner: [u32; 2],
    pub area: [u32; 2],
    pub repeat: [u32; 2],
    /// In row, column, plane order.
    pub cells: Vec<i64>,
    pub columns: Option<Vec<i64>>,
    pub rows: Option<Vec<i64>>,
    /// One for each plane.
    pub white: Vec<u32>,
}

impl Levels {
    /// Black 0 everywhere, no deltas, and white 1 on each plane.
    pub fn new(area: [u32; 2], repeat: [u32; 2], planes: usize) -> Levels {
        let cells = vec![0; (repeat[0] * repeat[1]) as usize * planes];
        Levels { corner: [0, 0], area, repeat, cells, columns: None, rows: None, white: vec![1; planes] }
    }

    fn with_cell(mut self, [row, column]: [u32; 2], plane: usize, black: i64) -> Levels {
        let cell = (row * self.repeat[1] + column) as usize * self.white.len() + plane;
        self.cells[cell] = black;
        self
    }

    /// One column with its own delta among equal ones.
    fn with_column(mut self, place: u32, delta: i64, others: i64) -> Levels {
        self.columns = Some(one_among(self.area[1], place, delta, others));
        self
    }

    fn with_row(mut self, place: u32, delta: i64, others: i64) -> Levels {
        self.rows = Some(one_among(self.area[0], place, delta, others));
        self
    }

    fn dng(&self) -> Dng {
        let Levels { corner: [top, left], area: [rows, columns], .. } = *self;
        let behind = u32::from(top + left > 0);
        let (samples, bits) = [(1, 8), (3, 16)][usize::from(self.white.len() == 3)];
        let picture = Picture::counting(left + columns + behind, top + rows + behind, samples, bits);
        let dng = Dng::new(ByteOrder::Little, &picture);
        if behind == 0 {
            self.set(dng)
        } else {
            self.set(dng.with(Tag::longs(50829, &[top, left, top + rows, left + columns])))
        }
    }

    /// Puts the levels into a file whose active area is as great.
    pub fn set(&self, mut dng: Dng) -> Dng {
        let cells: Vec<(u32, u32)> = self.cells.iter().map(|black| (*black as u32, 256)).collect();
        let raw = dng.raw_ifd();
        if self.repeat != [1, 1] {
            raw.set(Tag::shorts(50713, &self.repeat.map(|side| side as u16)));
        }
        raw.set(Tag::rationals(50714, &cells));
        for (tag, deltas) in [(50715, &self.columns), (50716, &self.rows)] {
            if let Some(deltas) = deltas {
                let deltas: Vec<(i32, i32)> = deltas.iter().map(|delta| (*delta as i32, 256)).collect();
                raw.set(Tag::srationals(tag, &deltas));
            }
        }
        raw.set(Tag::longs(50717, &self.white));
        dng
    }

    /// Accepted, or refused by 9.
    fn ask(&self, tally: &mut Tally, label: &str, refused: bool) {
        let Levels { area, repeat, corner, .. } = self;
        let label = format!("{label}; area {area:?} at {corner:?}, repeat {repeat:?}");
        both(tally, &label, &self.dng(), nine(refused));
    }
}

fn nine(refused: bool) -> Answer {
    if refused {
        (9, 0)
    } else {
        DONE
    }
}

fn one_among(count: u32, place: u32, value: i64, others: i64) -> Vec<i64> {
    (0..count).map(|i| if i == place { value } else { others }).collect()
}

/// Every row of some lines with every column.
pub fn places([rows, columns]: [u32; 2]) -> impl Iterator<Item = [u32; 2]> {
    (0..rows).flat_map(move |row| (0..columns).map(move |column| [row, column]))
}

/// Does a sample of the area take the cell?
fn meets(cell: [u32; 2], area: [u32; 2]) -> bool {
    cell[0] < area[0] && cell[1] < area[1]
}

pub fn every_repeat() -> impl Iterator<Item = [u32; 2]> {
    places([8, 8]).map(|[rows, columns]| [rows + 1, columns + 1])
}

/// S = 1, 0 and -1 with one black for all, and the greatest deltas at every
/// place.
fn one_cell_for_all(tally: &mut Tally) {
    let rows = LEVEL.iter().flat_map(|(white, rows)| rows.iter().map(move |row| (*white, *row)));
    for ((white, [column, row, black]), place) in rows.flat_map(|row| [0, 1, 2].map(|place| (row, place))) {
        let levels = Levels { white: vec![white], ..Levels::new([2, 3], [1, 1], 1) }
            .with_column(place, column, -FULL)
            .with_row(place % 2, row, -FULL);
        for (black, number) in [(black - 1, 0), (black, 9), (black + 1, 9)] {
            let dng = levels.clone().with_cell([0, 0], 0, black).set(plain(MOSAIC));
            let label = format!("white {white}, black {black}, deltas {column} {row} at {place}");
            everywhere(tally, &label, &dng, (number, 0));
        }
    }
}

/// One cell of every repeat at the white level, with areas of one line, and of
/// a line less, just as many, and a line more than the repeat has.
fn cells(tally: &mut Tally) {
    for [rows, columns] in every_repeat() {
        let mut areas = vec![
            [1, 1],
            [1, columns],
            [rows, 1],
            [rows - 1, columns],
            [rows, columns - 1],
            [rows - 1, columns - 1],
            [rows, columns],
            [rows + 1, columns + 1],
        ];
        areas.retain(|area| !area.contains(&0));
        areas.sort_unstable();
        areas.dedup();
        for (area, cell) in areas.iter().flat_map(|area| places([rows, columns]).map(move |at| (*area, at))) {
            let levels = Levels::new(area, [rows, columns], 1);
            let met = meets(cell, area);
            levels.clone().with_cell(cell, 0, ONE).ask(tally, &format!("cell {cell:?}"), met);
            if met {
                levels.with_cell(cell, 0, ONE - 1).ask(tally, &format!("cell {cell:?} less"), false);
            }
        }
    }
}

/// One cell of 8 x 8, or of the repeats next to the area, on one plane of
/// three, and one plane with a lower white level.
fn cells_of_planes(tally: &mut Tally) {
    let area = [2, 3];
    for repeat in [[8, 8], [2, 3], [3, 4], [1, 2]] {
        for (cell, plane) in places(repeat).flat_map(|cell| [0, 1, 2].map(|plane| (cell, plane))) {
            for (low, black) in [0, 1, 2].into_iter().flat_map(|low| [-1, 0, 1].map(|step| (low, ONE + step)))
            {
                let mut levels = Levels::new(area, repeat, 3).with_cell(cell, plane, black);
                levels.white = vec![2; 3];
                levels.white[low] = 1;
                let label = format!("cell {cell:?} of plane {plane}, black {black}, plane {low} lower");
                levels.ask(tally, &label, meets(cell, area) && plane == low && black >= ONE);
            }
        }
    }
}

/// An area at every corner, a line short of the repeat each way: counted from
/// the stored frame, the last cells would meet a sample and others would not.
fn corners(tally: &mut Tally) {
    for (repeat, planes) in [([2, 3], 1), ([3, 2], 3), ([8, 8], 1)] {
        let area = repeat.map(|side| side - 1);
        let last_or_first = |cell: &[u32; 2]| cell.iter().zip(area).any(|(at, last)| *at == last || *at == 0);
        for corner in places(repeat.map(|side| side + 1)) {
            for cell in places(repeat).filter(last_or_first) {
                let levels = Levels { corner, ..Levels::new(area, repeat, planes) };
                let levels = levels.with_cell(cell, planes - 1, ONE);
                levels.ask(tally, &format!("cell {cell:?}"), meets(cell, area));
            }
        }
    }
}

/// One row and one column far above the others, so that only the sample where
/// they cross counts: at every place against every cell of small repeats, and
/// of 8 x 8 against its own cell and some others.
fn one_line_each_way(tally: &mut Tally) {
    let mut case = |levels: Levels, at: [u32; 2], cell: [u32; 2]| {
        let [row, column] = at;
        let levels = levels.with_row(row, 0, -FULL).with_column(column, 0, -FULL);
        let own = [row % levels.repeat[0], column % levels.repeat[1]];
        for step in [-1, 0] {
            let levels = levels.clone().with_cell(cell, 0, ONE + step);
            levels.ask(tally, &format!("crossing at {at:?}, cell {cell:?}"), own == cell && step == 0);
        }
    };
    for (area, repeat) in [([3, 3], [2, 2]), ([3, 5], [2, 3]), ([4, 3], [3, 2]), ([2, 5], [3, 4])] {
        for (at, cell) in places(area).flat_map(|at| places(repeat).map(move |cell| (at, cell))) {
            case(Levels::new(area, repeat, 1), at, cell);
            case(Levels { corner: [1, 1], ..Levels::new(area, repeat, 1) }, at, cell);
        }
    }
    for [row, column] in places([9, 9]) {
        let own = [row % 8, column % 8];
        let beside = [[(own[0] + 1) % 8, own[1]], [own[0], (own[1] + 1) % 8], [own[1], own[0]]];
        for cell in beside.into_iter().chain([own]) {
            case(Levels::new([9, 9], [8, 8], 1), [row, column], cell);
        }
    }
}

/// Deltas one way only, one line of them a step above the others: its cells
/// count where the area has a line for them the other way, whose delta is 0.
fn one_line_one_way(tally: &mut Tally) {
    let shapes = [([3, 3], [2, 2]), ([1, 5], [2, 3]), ([5, 1], [3, 2]), ([2, 3], [8, 8]), ([9, 9], [8, 8])];
    for (area, repeat) in shapes {
        for (cell, line) in places(repeat).flat_map(|cell| (0..9).map(move |line| (cell, line))) {
            let levels = Levels::new(area, repeat, 1).with_cell(cell, 0, ONE);
            if line < area[1] {
                let met = cell[0] < area[0] && line % repeat[1] == cell[1];
                let levels = levels.clone().with_column(line, 0, -1);
                levels.ask(tally, &format!("cell {cell:?}, column {line}"), met);
            }
            if line < area[0] {
                let met = cell[1] < area[1] && line % repeat[0] == cell[0];
                levels.with_row(line, 0, -1).ask(tally, &format!("cell {cell:?}, row {line}"), met);
            }
        }
    }
}

/// A cell of 64, a column of 128, a row of 64, and 0 elsewhere: where the three
/// meet they make 256, and otherwise 192 is the most. With cells of a little or
/// some 64 more, the sum of the three maxima and then the greatest black come
/// to both sides of a white level of 1. Under one of 9 samples lie between. Of
/// three planes, one has that cell.
fn sums(tally: &mut Tally) {
    let mut case = |levels: &Levels, cell: [u32; 2], at: [u32; 2], more: i64| {
        let (repeat, white, planes) = (levels.repeat, levels.white[0], levels.white.len());
        let mut levels = levels.clone().with_column(at[1], 128, 0).with_row(at[0], 64, 0);
        levels.cells.fill(more.max(0));
        let levels = levels.with_cell(cell, (at[0] + at[1]) as usize % planes, 64 + more);
        let met = at[0] % repeat[0] == cell[0] && at[1] % repeat[1] == cell[1];
        let greatest = more + if met { 256 } else { 192 };
        let label = format!("cell {cell:?} of {}, deltas at {at:?}, white {white}", 64 + more);
        levels.ask(tally, &label, greatest >= ONE * i64::from(white));
    };
    for (area, repeat) in [([2, 2], [2, 2]), ([3, 4], [2, 3]), ([4, 3], [3, 2]), ([3, 3], [4, 4])] {
        for (planes, white) in [(1, 1), (1, 9), (3, 1), (3, 9)] {
            let levels = Levels { white: vec![white; planes], ..Levels::new(area, repeat, planes) };
            for (cell, at) in places(repeat).flat_map(|cell| places(area).map(move |at| (cell, at))) {
                [-1, 0, 1, 63, 64, 65].into_iter().for_each(|more| case(&levels, cell, at, more));
            }
        }
    }
}

/// The greatest black at a white level of 0, 1 and 65,535 and a step on either
/// side of it; then the sum of the maxima, which is more by one step up to many.
fn white_levels(tally: &mut Tally) {
    let cases = [(0, 1000), (1, 1000), (65_535, FULL)];
    let mores = [1, 2, 255, 256, 1000];
    for ((white, black), more) in cases.into_iter().flat_map(|case| mores.map(|more| (case, more))) {
        for (step, sum) in [-1, 0, 1].into_iter().flat_map(|step| [(step, 0), (step, more)]) {
            let delta = i64::from(white) * 256 + step - sum - black;
            let label = format!("white {white}, black {black} {delta}, elsewhere {more} more");
            for (planes, plane) in [(1, 0), (3, 0), (3, 1), (3, 2)] {
                let two = |repeat: [u32; 2]| {
                    let mut levels = Levels::new(repeat, repeat, planes).with_cell([0, 0], plane, black);
                    levels.white = vec![65_535; planes];
                    levels.white[plane] = white;
                    levels
                };
                let refused = step >= sum;
                two([1, 2]).with_column(0, delta, delta + more).ask(tally, &label, refused);
                two([2, 1]).with_row(0, delta, delta + more).ask(tally, &label, refused);
                let levels = two([2, 2]).with_row(0, delta.min(0), delta.min(0) + more);
                levels.with_column(0, delta.max(0), delta.max(0)).ask(tally, &label, refused);
            }
        }
    }
}

/// A cell that meets no sample is still tested: legal, then carried.
fn unmet_values(tally: &mut Tally) {
    let rows: [(&[(u32, u32)], u32); 6] = [
        (&[(0, 1), (65_535, 1)], 0),
        (&[(0, 1), (FULL as u32, 256)], 0),
        (&[(0, 1), (1, 0)], 4),
        (&[(0, 1), (1, 3)], 8),
        (&[(0, 1), (65_536, 1)], 8),
        (&[(255, 1), (1, 0)], 4),
    ];
    for (cells, number) in rows {
        for (repeat, area) in [([1, 2], [0, 0, 2, 1]), ([2, 1], [0, 0, 1, 3])] {
            let dng = plain(MOSAIC).with(Tag::shorts(50713, &repeat)).with(Tag::longs(50829, &area));
            let dng = dng.with(Tag::rationals(50714, cells));
            everywhere(tally, &format!("cells {cells:?}, repeat {repeat:?}"), &dng, answer(number, 50714));
        }
    }
    let dng = plain(MOSAIC).with(Tag::shorts(50713, &[8, 8]));
    let cells: Vec<u32> = places([8, 8]).map(|[r, c]| if r < 2 && c < 3 { 254 } else { 65_535 }).collect();
    everywhere(tally, "all unmet cells 65,535", &dng.with(entry(50714, SHORT, &cells)), DONE);
}

/// Faults whose tests stand next to 9, with their answers: those of tags come
/// before it, and those of the list's content behind it.
fn neighbours(planes: usize) -> [(Tag, Answer); 12] {
    let infinite = Opcode::per_line(12, Area::whole(2, 3, 1), &[1.0, f32::INFINITY]);
    [
        (Tag::srationals(50715, &[(0, 1), (1, 0), (0, 1)]), (4, 50715)),
        (Tag::srationals(50716, &[(1, 3), (1, 0)]), (8, 50716)),
        (entry(50717, 14, &[2]), (4, 50717)),
        (Tag::longs(50717, &vec![65_536; planes]), (8, 50717)),
        (Tag::bytes(51008, &[0]), (8, 51008)),
        (Tag::bytes(51022, &[]), (8, 51022)),
        (Tag::undefined(51009, &[255; 3]), (4, 51009)),
        (entry(51009, 1, &[255; 4]), (4, 51009)),
        (Tag::undefined(51009, &[255; 4]), (11, 32)),
        (Tag::undefined(51009, &[0, 0, 0, 1]), (10, 0)),
        (OpcodeList::new(&[Opcode::new(14, 0, vec![])]).tag(), (11, 0)),
        (OpcodeList::new(&[infinite]).tag(), (12, 0)),
    ]
}

/// Each of them with a greatest black at the white level, and with one below it
/// where the sum of the maxima is above it or at it.
fn order_of_tests(tally: &mut Tally) {
    for (base, planes) in [(MOSAIC, 1), (LINEAR, 3)] {
        for (black, refused) in [(2 * ONE, true), (2 * ONE - 1, false), (ONE, false)] {
            let mut levels = Levels::new([2, 3], [1, 2], planes).with_cell([0, 0], planes - 1, black);
            levels.white = vec![2; planes];
            let dng = levels.with_column(1, ONE, 0).set(full(base));
            let label = format!("black {black}, base {base}");
            everywhere(tally, &label, &dng, nine(refused));
            for (tag, alone) in neighbours(planes) {
                let before_nine = [4, 8].contains(&alone.0);
                let first = if refused && !before_nine { (9, 0) } else { alone };
                everywhere(tally, &format!("{label}, {tag:?}"), &dng.clone().with(tag), first);
            }
        }
    }
}

/// One line far above the others among 16,384, at both ends, against the cell
/// that it takes and the next one; then a frame of as many rows and columns.
fn great_frames(tally: &mut Tally) {
    const SIDE: u32 = 16_384;
    for (line, next) in [0, 7, 8, 255, 256, SIDE - 8, SIDE - 1].into_iter().flat_map(|l| [(l, 0), (l, 1)]) {
        let cell = (line + next) % 8;
        let label = format!("line {line}, cell {cell}");
        let wide = Levels::new([3, SIDE], [8, 8], 1).with_cell([2, cell], 0, ONE);
        wide.with_column(line, 0, -FULL).ask(tally, &label, next == 0);
        let long = Levels::new([SIDE, 3], [8, 8], 1).with_cell([cell, 2], 0, ONE);
        long.with_row(line, 0, -FULL).ask(tally, &label, next == 0);
        let levels = Levels::new([SIDE; 2], [8, 8], 1).with_cell([cell, line % 8], 0, ONE);
        let levels = levels.with_column(line, 0, -FULL).with_row(line, 0, -FULL);
        both(tally, &label, &levels.set(one_row_for_all(SIDE)), nine(next == 0));
    }
}

/// A frame of as many rows as columns, all of whose strips are one row.
fn one_row_for_all(side: u32) -> Dng {
    let row = Picture { length: side, rows_per_strip: 1, ..Picture::counting(side, 1, 1, 8) };
    let places = vec![Place::Block(0, 0); side as usize];
    Dng::new(ByteOrder::Little, &row)
        .with(Tag::new(273, SHORT, Data::ShortPlaces(places)))
        .with(Tag::longs(279, &vec![side; side as usize]))
}

/// Board example 4: the greatest black is 40, and 37 at the top left comes to
/// 24030.
fn example_4(tally: &mut Tally) {
    let picture = Picture { stored: vec![37, 0, 0, 0], ..Picture::counting(2, 2, 1, 8) };
    let mut levels = Levels::new([2, 2], [2, 2], 1).with_column(0, 5 * ONE, 0);
    levels.cells = [10, 20, 30, 40].map(|black| black * ONE).to_vec();
    for (white, number) in [(39, 9), (40, 9), (41, 0), (44, 0), (45, 0), (46, 0), (100, 0)] {
        levels.white = vec![white];
        for dng in each_way(&levels.set(Dng::new(ByteOrder::Little, &picture))) {
            let label = format!("example 4, white {white}");
            check_file(tally, &label, &dng.file(), (number, 0));
            if white == 100 {
                let stated = [24_030.0 / 65_535.0, 0.0, 0.0, 0.0];
                tally.ask_values(&label, &dng.file(), &window([0, 0, 2, 2], 4), &stated);
            }
        }
    }
}
