//! `measure_open`: how long the core takes to open a great frame with black
//! levels of 8 x 8 and a delta for every row and column, as ratios to the same
//! numbers read here, in rows + columns + cells steps, and timed in the same
//! run. Run by hand, in a release build.

use std::hint::black_box;

use compare::core;
use compare::times::Times;
use reference::builder::{Data, Dng, Picture, Place, Tag};
use reference::bytes::ByteOrder;
use reference::random::Random;
use reference::tag_test::LONG;

const REPEAT: usize = 8;
const CALLS: usize = 10;
const REPETITIONS: usize = 31;
const ROWS_PER_STRIP: u32 = 64;

/// The greatest side, and what goes with it in a file of 67,108,864 bytes with
/// the deltas behind the samples.
const SIDE: u32 = 16_384;
const SHORT_SIDE: u32 = 4_085;

/// In 256ths.
const GREATEST_CELL: u32 = 60 * 256;
const GREATEST_DELTA: i64 = 6 * 256;

/// An 8-bit mosaic. Its strips stand apart, or all in one place: strips may
/// overlap, so that a file has room for the greatest frame.
fn mosaic(order: ByteOrder, rows: u32, columns: u32, overlap: bool) -> Dng {
    let strips = (0..rows).step_by(ROWS_PER_STRIP as usize).map(|top| ROWS_PER_STRIP.min(rows - top));
    let byte_counts: Vec<u32> = strips.map(|rows| rows * columns).collect();
    let blocks = if overlap { 1 } else { byte_counts.len() };
    let places = (0..byte_counts.len()).map(|strip| Place::Block(strip % blocks, 0)).collect();
    let stored = Vec::new();
    let (width, length, rows_per_strip) = (columns, rows, ROWS_PER_STRIP);
    let picture = Picture { width, length, samples: 1, bits: 8, rows_per_strip, stored };
    let mut dng = Dng::new(order, &picture)
        .with(Tag::new(273, LONG, Data::LongPlaces(places)))
        .with(Tag::longs(279, &byte_counts));
    dng.blocks = byte_counts[..blocks].iter().map(|bytes| vec![0; *bytes as usize]).collect();
    dng
}

/// A file, and where the job in Rust finds its numbers: cells, column deltas,
/// row deltas and the white level.
struct Subject {
    file: Vec<u8>,
    order: ByteOrder,
    cells: usize,
    columns: (usize, usize),
    rows: (usize, usize),
    white: usize,
}

impl Subject {
    fn new(order: ByteOrder, rows: u32, columns: u32, overlap: bool) -> Subject {
        let mut random = Random::new(1);
        let cells: Vec<(u32, u32)> =
            (0..REPEAT * REPEAT).map(|_| (random.small(0, GREATEST_CELL), 256)).collect();
        let mut deltas = |count: u32| -> Vec<(i32, i32)> {
            (0..count).map(|_| (random.between(-GREATEST_DELTA, GREATEST_DELTA) as i32, 256)).collect()
        };
        let layout = mosaic(order, rows, columns, overlap)
            .with(Tag::shorts(50713, &[REPEAT as u16; 2]))
            .with(Tag::rationals(50714, &cells))
            .with(Tag::srationals(50715, &deltas(columns)))
            .with(Tag::srationals(50716, &deltas(rows)))
            .with(Tag::longs(50717, &[65_535]))
            .layout();
        let [cells, columns, rows, white] = [50714, 50715, 50716, 50717].map(|tag| layout.entry(0, tag));
        Subject {
            order,
            cells: cells.value,
            columns: (columns.value, columns.length),
            rows: (rows.value, rows.length),
            white: white.value,
            file: layout.file,
        }
    }

    fn set_white(&mut self, white: i64) {
        let bytes = self.order.spell(white as u64, 4);
        self.file[self.white..self.white + 4].copy_from_slice(&bytes);
    }

    /// The greatest black in 256ths, if every number is carried.
    fn greatest_black(&self) -> Option<i64> {
        match self.order {
            ByteOrder::Little => self.greatest_in::<false>(),
            ByteOrder::Big => self.greatest_in::<true>(),
        }
    }

    #[inline(never)]
    fn greatest_in<const BIG: bool>(&self) -> Option<i64> {
        let stretch = |(from, length): (usize, usize)| &self.file[from..from + length];
        let columns = greatest_of_lines::<BIG>(stretch(self.columns))?;
        let rows = greatest_of_lines::<BIG>(stretch(self.rows))?;
        let mut greatest = i64::MIN;
        for (i, cell) in stretch((self.cells, 8 * REPEAT * REPEAT)).chunks_exact(8).enumerate() {
            let black = in_256ths::<BIG>(cell)?;
            greatest = greatest.max(black + rows[i / REPEAT] + columns[i % REPEAT]);
        }
        Some(greatest)
    }

    /// 9 or 0, for carried numbers.
    fn answer(&self) -> u64 {
        let white = self.order.number(&self.file[self.white..self.white + 4]) as i64;
        match self.greatest_black() {
            Some(greatest) if 256 * white > greatest => 0,
            _ => 9,
        }
    }
}

/// Of the lines that take the same cells, the greatest delta.
#[inline(always)]
fn greatest_of_lines<const BIG: bool>(deltas: &[u8]) -> Option<[i64; REPEAT]> {
    let mut greatest = [i64::MIN / 4; REPEAT];
    for (line, delta) in deltas.chunks_exact(8).enumerate() {
        let of_cells = &mut greatest[line % REPEAT];
        *of_cells = (*of_cells).max(in_256ths::<BIG>(delta)?);
    }
    Some(greatest)
}

/// A fraction of two LONGs, signed; none if it is not carried.
#[inline(always)]
fn in_256ths<const BIG: bool>(fraction: &[u8]) -> Option<i64> {
    let long = |at: usize| {
        let bytes = fraction[at..at + 4].try_into().expect("four bytes");
        i64::from(if BIG { i32::from_be_bytes(bytes) } else { i32::from_le_bytes(bytes) })
    };
    let (numerator, denominator) = (long(0), long(4));
    let carried = (1..=256).contains(&denominator) && denominator.count_ones() == 1;
    let small = numerator.abs() <= 65_535 * denominator;
    (carried && small).then(|| numerator << (8 - denominator.trailing_zeros()))
}

/// The least white level that is accepted, so that both must find the greatest
/// black to answer.
fn at_the_limit(mut subject: Subject) -> Subject {
    let greatest = subject.greatest_black().expect("every number is carried");
    for (white, number) in [(greatest.div_euclid(256), 9), (greatest.div_euclid(256) + 1, 0)] {
        subject.set_white(white);
        assert_eq!((u64::from(core::card(&subject.file).number), subject.answer()), (number, number));
    }
    subject
}

fn compare(name: &str, subject: &Subject) {
    let (mut ours, mut rust) = (Times::default(), Times::default());
    for _ in 0..REPETITIONS {
        rust.run(|| (0..CALLS).for_each(|_| assert_eq!(black_box(subject).answer(), 0)));
        ours.run(|| (0..CALLS).for_each(|_| assert_eq!(core::card(black_box(&subject.file)).number, 0)));
    }
    let each = |seconds: f64| 1e6 * seconds / CALLS as f64;
    println!(
        "{name:<52} best {:6.1}, median {:6.1}; best {:5.2}, median {:5.2} of the same in Rust",
        each(ours.best()),
        each(ours.median()),
        ours.best() / rust.best(),
        ours.median() / rust.median()
    );
}

fn main() {
    println!("opening, microseconds a call; {CALLS} calls, {REPETITIONS} repetitions");
    let shapes = [(SIDE, SIDE, true), (SHORT_SIDE, SIDE, false), (SIDE, SHORT_SIDE, false)];
    for (order, (rows, columns, overlap)) in
        [ByteOrder::Little, ByteOrder::Big].into_iter().flat_map(|order| shapes.map(|shape| (order, shape)))
    {
        let subject = at_the_limit(Subject::new(order, rows, columns, overlap));
        let name = format!("{rows} rows, {columns} columns, {} bytes, {order:?}", subject.file.len());
        compare(&name, &subject);
    }
}
