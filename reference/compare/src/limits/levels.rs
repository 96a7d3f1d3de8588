//! Levels that are hard to round: "65535 D / S rounded to nearest, halves up".
//! For many S there are D at a half and a 256th before and behind it, the D that
//! come nearest to a half without being at one, and D at both clips.

use reference::builder::{Data, Dng, Picture, Tag};
use reference::bytes::{ByteOrder, Widths};
use reference::cases::Call;

use super::blacks::{every_repeat, places, Levels, FULL};
use super::{DONE, WAYS};
use crate::questions::{spot_of, table_window, window};
use crate::tally::Tally;

/// The greatest L.
pub const GREATEST: i64 = 65_535;

/// The greatest S: a white level of 65,535 above a cell of 0 with a column's and
/// a row's delta of -65,535.
const GREATEST_S: i64 = 3 * FULL;

/// The least S with a half below 1, and so one above 65534: 65535 D / S is 1/2
/// at D = 1 and 65534 1/2 at D = S - 1.
const HALF_AT_1: i64 = 2 * GREATEST;

/// Every case of a level.
pub fn check(tally: &mut Tally) {
    hard_levels(tally);
    every_level(tally);
    repeats(tally);
}

/// Levels with the value of every sample of their area, row by row, planes
/// together.
pub struct Frame {
    pub levels: Levels,
    pub values: Vec<i64>,
    pub bits: u32,
    /// The values come through a linearization table.
    pub table: bool,
}

impl Frame {
    pub fn dng(&self, way: (ByteOrder, Widths)) -> Dng {
        if self.table {
            let (table, stored) = self.through_table();
            dng_of(&self.levels, self.bits, stored, Some(&table), way)
        } else {
            dng_of(&self.levels, self.bits, self.stored(), None, way)
        }
    }

    fn stored(&self) -> Vec<u16> {
        self.values.iter().map(|value| *value as u16).collect()
    }

    /// The entries of a table, and samples that find their values there. The
    /// last entry's are the greatest sample, past the table's end.
    fn through_table(&self) -> (Vec<u16>, Vec<u16>) {
        let mut table = self.stored();
        table.sort_unstable();
        table.dedup();
        let past_end = ((1 << self.bits) - 1) as u16;
        let index = |value: &u16| match table.binary_search(value).expect("every value has an entry") {
            last if last + 1 == table.len() => past_end,
            index => index as u16,
        };
        let stored = self.stored().iter().map(index).collect();
        (table, stored)
    }
}

/// A file with these samples of the area, row by row, planes together, and this
/// table. In the 64-bit layout fractions stand in lowest terms, in the 32-bit one
/// over 256.
pub fn dng_of(
    levels: &Levels,
    bits: u32,
    stored: Vec<u16>,
    table: Option<&[u16]>,
    (order, widths): (ByteOrder, Widths),
) -> Dng {
    let [rows, columns] = levels.area;
    let picture = Picture { stored, ..Picture::counting(columns, rows, levels.white.len() as u32, bits) };
    let mut dng = Dng { widths, ..levels.set(Dng::new(order, &picture)) };
    if let Some(entries) = table {
        dng = dng.with(Tag::shorts(50712, entries));
    }
    if widths == Widths::BITS_64 {
        in_lowest_terms(&mut dng);
    }
    dng
}

fn in_lowest_terms(dng: &mut Dng) {
    for tag in &mut dng.raw_ifd().tags {
        let twos = |numerator: u32| numerator.trailing_zeros().min(8);
        match &mut tag.data {
            Data::Rationals(cells) => {
                cells.iter_mut().for_each(|(n, d)| (*n, *d) = (*n >> twos(*n), *d >> twos(*n)));
            }
            Data::SRationals(deltas) => {
                deltas
                    .iter_mut()
                    .for_each(|(n, d)| (*n, *d) = (*n >> twos(*n as u32), *d >> twos(*n as u32)));
            }
            _ => {}
        }
    }
}

/// A sample's value, and its black level in 256ths.
#[derive(Clone, Copy)]
struct Sample {
    value: i64,
    black: i64,
}

/// A plane's white level and S, and how far its values and blacks go.
#[derive(Clone, Copy)]
struct Plane {
    white: i64,
    s: i64,
    greatest_value: i64,
    least_black: i64,
}

impl Plane {
    fn greatest_black(self) -> i64 {
        256 * self.white - self.s
    }

    /// A sample that has this D, where there is one: with the greatest black that
    /// its value leaves for it.
    fn sample(self, d: i64) -> Option<Sample> {
        let value = (self.greatest_black() + d).div_euclid(256).min(self.greatest_value);
        let black = 256 * value - d;
        (value >= 0 && black >= self.least_black).then_some(Sample { value, black })
    }

    /// A sample with the greatest black, which makes S what it is, and those with
    /// some D.
    fn samples(self, all_d: &[i64]) -> Vec<Sample> {
        let first = Sample { value: self.white.min(self.greatest_value), black: self.greatest_black() };
        [first].into_iter().chain(all_d.iter().filter_map(|d| self.sample(*d))).collect()
    }

    /// The D that are hard to round, of those that a sample can have, ascending.
    fn hard(self) -> Vec<i64> {
        let mut all_d = self.halves();
        all_d.extend(self.next_to_halves());
        let (lowest, middle) = (self.s / HALF_AT_1, self.s / 2);
        for d in [0, lowest, middle, self.s - lowest, self.s] {
            all_d.extend([d - 1, d, d + 1]);
        }
        all_d.extend([-257, -256, -255, 2, self.s - 2, self.s + 255, self.s + 256, self.s + 257, FULL]);
        all_d.retain(|d| self.sample(*d).is_some());
        ascending(all_d)
    }

    /// Some D with 65535 D mod S = g x part, for the greatest common divisor g of
    /// 65535 and S: so many from the least, from the middle and from the greatest.
    fn with_remainder(self, part: i64, count: usize) -> Vec<i64> {
        let (g, x) = bezout(GREATEST, self.s);
        let step = self.s / g;
        let first = (part * x).rem_euclid(step);
        let found = |i: i64| Some(first + i * step).filter(|d| self.sample(*d).is_some());
        // With a value of 0 and the greatest black D is the least.
        let least = (-self.greatest_black() - first).div_euclid(step).clamp(0, g);
        let from_least = (least..g).filter_map(found).take(count);
        let from_middle = ((least + g) / 2..g).filter_map(found).take(count);
        let from_greatest = (least..g).rev().filter_map(found).take(count);
        ascending(from_least.chain(from_middle).chain(from_greatest).collect())
    }

    /// Some D with 2 x 65535 D mod 2 S = S, the least and the greatest among them,
    /// with their neighbours.
    fn halves(self) -> Vec<i64> {
        let parts = self.s / bezout(GREATEST, self.s).0;
        let exact = if parts % 2 == 0 { self.with_remainder(parts / 2, 3) } else { Vec::new() };
        assert!(exact.iter().all(|d| 2 * GREATEST * d % (2 * self.s) == self.s), "halves of {}", self.s);
        exact.into_iter().flat_map(|d| [d - 1, d, d + 1]).collect()
    }

    /// The D whose remainders are nearest to S / 2 from below and from above, of
    /// some thousand that are looked at.
    fn next_to_halves(self) -> Vec<i64> {
        let (g, _) = bezout(GREATEST, self.s);
        let parts = self.s / g;
        let looked_at = ((1 << 18) / g).max(10) as usize;
        let near = |part: i64| self.with_remainder(part, 1);
        let below = (0..=(parts - 1) / 2).rev().take(looked_at);
        let above = (parts / 2 + 1..parts).take(looked_at);
        below.flat_map(near).take(6).chain(above.flat_map(near).take(6)).collect()
    }
}

fn ascending(mut all: Vec<i64>) -> Vec<i64> {
    all.sort_unstable();
    all.dedup();
    all
}

/// The greatest common divisor g of two numbers, and an x with a x = g but for a
/// multiple of b.
fn bezout(a: i64, b: i64) -> (i64, i64) {
    let (mut last, mut next) = ((a, 1), (b, 0));
    while next.0 != 0 {
        let quotient = last.0 / next.0;
        (last, next) = (next, (last.0 - quotient * next.0, last.1 - quotient * next.1));
    }
    last
}

/// So many of them, both ends among them.
fn spread<T: Copy>(all: &[T], count: usize) -> Vec<T> {
    if all.len() <= count {
        return all.to_vec();
    }
    (0..count).map(|i| all[i * (all.len() - 1) / (count - 1)]).collect()
}

/// What gives every sample of a frame a black of its own.
#[derive(Clone, Copy, Debug)]
enum Blacks {
    Cells,
    Columns,
    Rows,
    Sums,
}

impl Blacks {
    const ALL: [Blacks; 4] = [Blacks::Cells, Blacks::Columns, Blacks::Rows, Blacks::Sums];

    fn least(self) -> i64 {
        match self {
            Blacks::Cells => 0,
            Blacks::Columns | Blacks::Rows => -FULL,
            Blacks::Sums => -2 * FULL,
        }
    }

    /// A frame with these samples of a plane; of cells there are 64 at the most.
    fn frame(self, plane: Plane, samples: &[Sample]) -> (Levels, Vec<i64>) {
        let values = |samples: &[Sample]| samples.iter().map(|sample| sample.value).collect();
        let blacks: Vec<i64> = samples.iter().map(|sample| sample.black).collect();
        let lines = samples.len() as u32;
        let (mut levels, values) = match self {
            Blacks::Cells => {
                let area = [9, 11];
                let cells: Vec<Sample> = (0..64).map(|cell| samples[cell % samples.len()]).collect();
                let at = |[row, column]: [u32; 2]| cells[(row % 8 * 8 + column % 8) as usize];
                let cells = cells.iter().map(|cell| cell.black).collect();
                let levels = Levels { cells, ..Levels::new(area, [8, 8], 1) };
                (levels, values(&places(area).map(at).collect::<Vec<_>>()))
            }
            Blacks::Columns => {
                (Levels { columns: Some(blacks), ..Levels::new([1, lines], [1, 1], 1) }, values(samples))
            }
            Blacks::Rows => {
                let beside =
                    |value: i64| [-1, 0, 1].map(|step| (value + step).clamp(0, plane.greatest_value));
                let values = samples.iter().flat_map(|sample| beside(sample.value)).collect();
                (Levels { rows: Some(blacks), ..Levels::new([lines, 3], [1, 1], 1) }, values)
            }
            Blacks::Sums => (sums(plane.greatest_black(), &blacks), values(samples)),
        };
        levels.white = vec![plane.white as u32];
        (levels, values)
    }
}

/// Blacks of one row as sums of three cells, a delta of each column, and one of
/// the row, which is the least where nothing else reaches so far down.
fn sums(greatest_black: i64, blacks: &[i64]) -> Levels {
    const AMPLE: i64 = 20_000;
    let cells = if greatest_black > AMPLE - 2 * FULL { [3, 500, 7_001] } else { [0; 3] };
    let row = if greatest_black > AMPLE - FULL { 777 } else { -FULL };
    let columns = blacks.iter().zip(cells.iter().cycle()).map(|(black, cell)| black - cell - row);
    Levels {
        cells: cells.to_vec(),
        columns: Some(columns.collect()),
        rows: Some(vec![row]),
        ..Levels::new([1, blacks.len() as u32], [1, 3], 1)
    }
}

/// S from 1 to the greatest: small ones; even ones with many halves; powers of
/// two times divisors of 65535; whole white levels above whole blacks; and
/// numbers around 65,535, 2^24 and 2 and 3 times 65,535.
fn all_s() -> Vec<i64> {
    let mut all: Vec<i64> = (1..=18).chain([30, 31, 32, 34, 100, 126, 128, 254, 510, 514, 1_000]).collect();
    for odd in [1, 3, 17, 257, 21_845, 65_535] {
        all.extend([1, 2, 5, 8, 9, 13, 16, 23].map(|power| odd << power));
    }
    all.extend([1, 2, 3, 64, 127, 128, 129, 255, 383].map(|d| d * HALF_AT_1));
    all.extend([2, 6, 10, 514, 7_710, 26_214, 43_690, 65_534].map(|levels| 256 * levels));
    for near in [256, FULL, 1 << 24, 1 << 25, 2 * FULL] {
        all.extend([-2, -1, 0, 1, 2].map(|step| near + step));
    }
    all.extend(
        [0, 1, 2, 3, 255, 256, 258, 511, 513, 1_001, 2_047, 4_097, 8_191].map(|less| GREATEST_S - less),
    );
    all.retain(|s| *s <= GREATEST_S);
    ascending(all)
}

/// The greatest white level that a sample's value can reach, and the least that
/// leaves room for blacks of every fraction.
fn whites(s: i64, greatest_value: i64) -> Vec<i64> {
    let least = (s + 255).div_euclid(256) + 1;
    [Some(greatest_value), (least < greatest_value).then_some(least)].into_iter().flatten().collect()
}

/// Every S with hard D, with and without a table, by cells and deltas.
fn hard_levels(tally: &mut Tally) {
    let kinds = [(8, false), (16, false), (8, true), (16, true)];
    for (s, (bits, table)) in all_s().into_iter().flat_map(|s| kinds.map(|kind| (s, kind))) {
        let greatest_value = if table { GREATEST } else { (1 << bits) - 1 };
        for (white, blacks) in
            whites(s, greatest_value).into_iter().flat_map(|white| Blacks::ALL.map(|blacks| (white, blacks)))
        {
            let plane = Plane { white, s, greatest_value, least_black: blacks.least() };
            if plane.greatest_black() >= plane.least_black {
                let (levels, values) = blacks.frame(plane, &plane.samples(&spread(&plane.hard(), 63)));
                let label = format!("S {s} by {blacks:?}, white {white}, {bits} bits, table {table}");
                ask_frame(tally, &label, &Frame { levels, values, bits, table });
            }
        }
    }
}

/// Small S with every D, from below 0 to above S.
fn every_level(tally: &mut Tally) {
    for s in (1..=20).chain([254, 255, 256, 257, 258, 510, 512, 514, 768]) {
        let all_d: Vec<i64> = (-3..s + 4).collect();
        for (white, blacks) in [4, 255]
            .into_iter()
            .flat_map(|white| [Blacks::Columns, Blacks::Rows, Blacks::Sums].map(|b| (white, b)))
        {
            let plane = Plane { white, s, greatest_value: 255, least_black: blacks.least() };
            let (levels, values) = blacks.frame(plane, &plane.samples(&all_d));
            for bits in [8, 16] {
                let frame = Frame { levels: levels.clone(), values: values.clone(), bits, table: false };
                ask_frame(tally, &format!("every D of S {s} by {blacks:?}, {bits} bits"), &frame);
            }
        }
    }
}

/// The window of the whole frame and some sixteen spots each way; each of 64
/// samples is one of them.
fn ask_frame(tally: &mut Tally, label: &str, frame: &Frame) {
    let [rows, columns] = frame.levels.area;
    let step = (frame.values.len() / 16).max(WAYS.len());
    for (turn, way) in WAYS.into_iter().enumerate() {
        tally.files += 1;
        let (label, file) = (format!("{label}, {way:?}"), frame.dng(way).file());
        let whole = window([0, 0, rows.into(), columns.into()], frame.values.len());
        tally.ask(&label, &file, &whole, Some(DONE));
        for [row, column] in places(frame.levels.area).skip(turn).step_by(step) {
            let spot = Call::Spot { row: row.into(), column: column.into(), plane: 0 };
            tally.ask(&label, &file, &spot, Some(DONE));
        }
    }
}

/// Three planes' white levels and S, far apart; the second one's S is small.
const PLANES: [(u32, [(i64, i64); 3]); 2] =
    [(8, [(255, 60_002), (20, 510), (200, 2)]), (16, [(65_535, 16_000_000), (300, 514), (40_000, 393_210)])];

/// One and three planes with repeats of every size: windows from every column of
/// the repeat, and spots.
fn repeats(tally: &mut Tally) {
    for (repeat, (bits, planes)) in every_repeat().flat_map(|repeat| PLANES.map(|planes| (repeat, planes))) {
        let mut planes = planes.map(|(white, s)| {
            let greatest_value = (1 << bits) - 1;
            Plane { white, s, greatest_value, least_black: 0 }
        });
        planes.rotate_left((repeat[0] + repeat[1]) as usize % 3);
        for planes in [&planes[..1], &planes] {
            let (levels, values) = repeated(repeat, planes);
            let label = format!("repeat {repeat:?} of {} planes, {bits} bits", planes.len());
            ask_repeat(tally, &label, &Frame { levels, values, bits, table: false });
        }
    }
}

/// Cells of which each makes a hard D with the first sample that takes it. Later
/// ones come as near to other hard D as their cell allows.
fn repeated(repeat: [u32; 2], planes: &[Plane]) -> (Levels, Vec<i64>) {
    let area = [10, 11];
    let mut levels = Levels::new(area, repeat, planes.len());
    levels.white = planes.iter().map(|plane| plane.white as u32).collect();
    let hard: Vec<Vec<i64>> = planes.iter().map(|plane| spread(&plane.hard(), 63)).collect();
    let samples: Vec<Vec<Sample>> = planes.iter().zip(&hard).map(|(plane, d)| plane.samples(d)).collect();
    let cells = (0..(repeat[0] * repeat[1]) as usize)
        .flat_map(|cell| samples.iter().map(move |of| of[cell % of.len()]));
    let cells: Vec<Sample> = cells.collect();
    levels.cells = cells.iter().map(|cell| cell.black).collect();
    let mut values = Vec::new();
    for (place, [row, column]) in places(area).enumerate() {
        let cell = (row % repeat[0] * repeat[1] + column % repeat[1]) as usize;
        for (plane, limits) in planes.iter().enumerate() {
            let own = cells[cell * planes.len() + plane];
            let first = row < repeat[0] && column < repeat[1];
            let d = hard[plane][place % hard[plane].len()];
            let near = (own.black + d).div_euclid(256).clamp(0, limits.greatest_value);
            values.push(if first { own.value } else { near });
        }
    }
    (levels, values)
}

fn ask_repeat(tally: &mut Tally, label: &str, frame: &Frame) {
    let [rows, columns] = frame.levels.area;
    let planes = frame.levels.white.len() as u32;
    let [repeat_rows, repeat_columns] = frame.levels.repeat;
    for (turn, way) in WAYS.into_iter().enumerate() {
        tally.files += 1;
        let (label, file) = (format!("{label}, {way:?}"), frame.dng(way).file());
        for left in 0..repeat_columns {
            let top = (left + turn as u32) % repeat_rows;
            let (height, width) = (rows - top, columns - left);
            let part = [top, left, height, width].map(u64::from);
            let slice = (height * width * planes) as usize;
            tally.ask(&label, &file, &window(part, slice), Some(DONE));
            tally.ask(&label, &file, &table_window(part, slice), Some(DONE));
        }
        for place in (0..rows * columns * planes).skip(turn).step_by(31) {
            let spot = spot_of(place.into(), columns.into(), planes.into());
            tally.ask(&label, &file, &spot, Some(DONE));
        }
    }
}
