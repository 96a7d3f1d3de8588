//! "How far off can a level be?" (document 02, T-11). Every stored number stands
//! at places of equal black, and its table never falls or falls. Of the core's own
//! answers: "where 0 <= D <= S, twice the distance between L x S and 65535 x D is
//! at most S", and "if the LinearizationTable never falls, a larger stored sample
//! never gives a smaller L".

use reference::builder::Dng;
use reference::bytes::{ByteOrder, Widths};

use super::blacks::Levels;
use super::levels::{dng_of, GREATEST};
use super::{DONE, WAYS};
use crate::questions::{spot_of, window};
use crate::tally::Tally;

/// Every case of how far off a level is.
pub fn check(tally: &mut Tally) {
    for (bits, planes) in [(8, 1), (8, 3), (16, 1), (16, 3)] {
        for (turn, table) in tables(bits).iter().enumerate() {
            for (next, way) in WAYS.into_iter().enumerate() {
                let frame = Frame::new(bits, planes, turn + next, table);
                let label = format!("{} table, {bits} bits, {planes} planes, {way:?}", table.name);
                tally.files += 1;
                frame.ask(tally, &label, &frame.dng(way).file());
            }
        }
    }
}

/// Some entries of 50712; none is the identity.
struct Table {
    name: &'static str,
    falls: bool,
    entries: Option<Vec<u16>>,
}

/// Six that never fall, and three that fall from and to entries above 32,768 and
/// below 43,690, which no plane clips.
fn tables(bits: u32) -> [Table; 9] {
    let (size, last) = (1 << bits, (1 << bits) - 1);
    let rise = |i: u64| i * 65_535 / last;
    let table = |falls, name, size, entry: &dyn Fn(u64) -> u64| {
        let entries = Some((0..size).map(|i| entry(i) as u16).collect());
        Table { name, falls, entries }
    };
    [
        Table { name: "no", falls: false, entries: None },
        table(false, "rising", size, &rise),
        table(false, "steeper and steeper", size, &|i| i * i * 65_535 / last / last),
        table(false, "often level", size, &|i| rise(i / 7 * 7)),
        table(false, "short", 200, &|i| 320 * i + 100),
        table(false, "one-entry", 1, &|_| 40_001),
        table(true, "falling", size, &|i| rise(last - i)),
        table(true, "once falling", size, &|i| rise(i) - if i < last * 5 / 8 { 0 } else { 1_000 }),
        table(true, "short and last falling", 200, &|i| if i == 199 { 35_000 } else { 200 * i }),
    ]
}

/// Stored numbers, as many as a power of two, and in 256ths how far the black of
/// each row is below the greatest. Where a row has fewer columns than there are
/// numbers, they go on in the next.
fn numbers(bits: u32, planes: usize) -> (Vec<u16>, &'static [i64]) {
    match (bits, planes) {
        (8, _) => ((0..256).collect(), &[0, 1, 129, 300]),
        (_, 1) => ((0..=65_535).collect(), &[0; 4]),
        // The first and the last 1,024, and every 31st between.
        _ => {
            let between = (0..2_048).map(|i| 1_024 + 31 * i);
            ((0..1_024).chain(between).chain(64_512..=65_535).collect(), &[0, 129])
        }
    }
}

/// The greatest number of columns.
const COLUMNS: usize = 16_384;

/// A plane's white level and, in 256ths, its greatest black.
#[derive(Clone, Copy)]
struct Plane {
    white: u32,
    black: i64,
}

impl Plane {
    fn s(self) -> i64 {
        256 * i64::from(self.white) - self.black
    }
}

/// The stored sample at every place, the table that it goes through, and levels.
struct Frame<'a> {
    planes: Vec<Plane>,
    /// How far the black of each row is below the greatest.
    below: &'static [i64],
    columns: usize,
    bits: u32,
    stored: Vec<u16>,
    table: &'a Table,
}

/// L of a sample, and what it comes from.
#[derive(Clone, Copy, Debug, PartialEq, Eq, PartialOrd, Ord)]
struct Sample {
    plane: usize,
    black: i64,
    stored: u16,
    l: i64,
}

impl<'a> Frame<'a> {
    /// The greatest blacks of three planes are 0, and as far below and above 0 as
    /// half the greatest value; that of one plane is one of these, at the next turn
    /// the next. By the first white level, 65535 D / S has a half at every odd
    /// value; the second S is above all values.
    fn new(bits: u32, planes: usize, turn: usize, table: &'a Table) -> Frame<'a> {
        let (numbers, below) = numbers(bits, planes);
        let greatest = if table.entries.is_some() { 65_535 } else { (1 << bits) - 1 };
        let half = 128 * i64::from(greatest);
        let mut all = [(greatest * 2 / 3, 0), (greatest, -half), (greatest * 11 / 12, half)];
        all.rotate_left(turn % 3);
        let all = all[..planes].iter().map(|(white, black)| Plane { white: *white, black: *black });
        let columns = numbers.len().min(COLUMNS);
        let stored = (0..below.len() * columns)
            .flat_map(|place| (0..planes).map(move |plane| 40_503 * place + 85 * plane))
            .map(|number| numbers[number % numbers.len()])
            .collect();
        Frame { planes: all.collect(), below, columns, bits, stored, table }
    }

    /// A cell is never below 0, so what is below 0 on some plane is the rows'.
    fn dng(&self, way: (ByteOrder, Widths)) -> Dng {
        let least = self.planes.iter().map(|plane| plane.black).fold(0, i64::min);
        let area = [self.below.len(), self.columns].map(|lines| lines as u32);
        let levels = Levels {
            cells: self.planes.iter().map(|plane| plane.black - least).collect(),
            rows: Some(self.below.iter().map(|below| least - below).collect()),
            white: self.planes.iter().map(|plane| plane.white).collect(),
            ..Levels::new(area, [1, 1], self.planes.len())
        };
        dng_of(&levels, self.bits, self.stored.clone(), self.table.entries.as_deref(), way)
    }

    /// v: "the stored sample through the table (past its end, the last entry)".
    fn value(&self, stored: u16) -> i64 {
        let entry = |entries: &Vec<u16>| entries[usize::from(stored).min(entries.len() - 1)];
        self.table.entries.as_ref().map_or(stored, entry).into()
    }

    /// The window of the whole frame and, where it is small, some spots.
    fn ask(&self, tally: &mut Tally, label: &str, file: &[u8]) {
        let (columns, planes) = (self.columns, self.planes.len());
        let whole = window([0, 0, self.below.len() as u64, columns as u64], self.stored.len());
        let found = tally.ask_now(label, file, &whole, Some(DONE));
        self.check(tally, label, found.values(&whole));
        for place in (0..self.stored.len()).step_by(61).filter(|_| columns == 256) {
            let spot = spot_of(place as u64, columns as u64, planes as u64);
            tally.ask(label, file, &spot, Some(DONE));
        }
    }

    /// Both claims, of the values of the whole frame.
    fn check(&self, tally: &mut Tally, label: &str, values: &[u64]) {
        let planes = self.planes.len();
        let mut samples = Vec::with_capacity(values.len());
        for ((place, stored), bits) in self.stored.iter().enumerate().zip(values) {
            let (plane, below) = (place % planes, self.below[place / planes / self.columns]);
            let black = self.planes[plane].black - below;
            let (d, s) = (256 * self.value(*stored) - black, self.planes[plane].s());
            match level(*bits) {
                Some(l) if is_near(l, d, s) => samples.push(Sample { plane, black, stored: *stored, l }),
                _ => tally.differs(&format!("{label}: {bits:016x} of D {d}, S {s}")),
            }
        }
        samples.sort_unstable();
        let fall = samples.windows(2).find(|pair| falls(pair[0], pair[1]));
        if fall.is_some() != self.table.falls {
            tally.differs(&format!("{label}: L falls: {fall:?}"));
        }
    }
}

/// "The scaled value is L as f64 divided by 65535.0": the L that a value rounds to,
/// where it is that L's.
fn level(bits: u64) -> Option<i64> {
    let l = (f64::from_bits(bits) * 65535.0).round() as i64;
    ((0..=GREATEST).contains(&l) && (l as f64 / 65535.0).to_bits() == bits).then_some(l)
}

/// Clipped where D is not from 0 to S.
fn is_near(l: i64, d: i64, s: i64) -> bool {
    if (0..=s).contains(&d) {
        2 * (l * s - GREATEST * d).abs() <= s
    } else {
        l == if d < 0 { 0 } else { GREATEST }
    }
}

/// Does the second of two samples, the larger one, have a smaller L at the same
/// black?
fn falls(one: Sample, other: Sample) -> bool {
    (one.plane, one.black) == (other.plane, other.black) && other.l < one.l
}
