//! The frames that are measured, the 16-bit mosaic first among them, and what the
//! measurements share: levels, two opcodes and the clip in Rust, plain loops, and
//! the core's windows of a whole frame.

use std::hint::black_box;

use reference::builder::{Area, Data, Dng, Opcode, Picture, Place, Tag};
use reference::bytes::ByteOrder;
use reference::random::Random;
use reference::tag_test::LONG;
use reference::Answer;

use crate::core;

pub const ROWS: usize = 4_000;
pub const COLUMNS: usize = 6_000;
pub const SAMPLES: usize = ROWS * COLUMNS;
const ROWS_PER_STRIP: usize = 64;

/// The black of a 2 x 2 repeat; no sample is at or below one of them, or at
/// the white, so that every sample costs a division.
pub const BLACK: [u16; 4] = [500, 512, 520, 510];
pub const GREATEST_BLACK: u16 = 520;
pub const WHITE: u16 = 16_000;

/// Those of the 8-bit mosaic.
pub const BLACK_8: [u16; 4] = [5, 6, 8, 7];
pub const GREATEST_BLACK_8: u16 = 8;
pub const WHITE_8: u16 = 250;

/// The coefficients of a MapPolynomial, constant first.
pub const CUBIC: [f64; 4] = [0.0, 0.9, 0.05, 0.05];

/// The size of a frame.
#[derive(Clone, Copy)]
pub struct Frame {
    pub rows: usize,
    pub columns: usize,
    /// 1 for a mosaic, 3 for LinearRaw.
    pub planes: usize,
    /// 1 or 2 to a sample.
    pub bytes: usize,
}

impl Frame {
    pub const MOSAIC: Frame = Frame { rows: ROWS, columns: COLUMNS, planes: 1, bytes: 2 };
    pub const MOSAIC_8: Frame = Frame { bytes: 1, ..Frame::MOSAIC };

    /// The samples of a row.
    pub fn across(self) -> usize {
        self.columns * self.planes
    }

    /// A file of these samples, as many as the frame has, or of the first.
    pub fn dng(self, order: ByteOrder, stored: &[u8]) -> Dng {
        let Frame { rows, columns, planes, bytes } = self;
        let [width, length, samples] = [columns, rows, planes].map(|n| n as u32);
        let (bits, rows_per_strip) = (8 * bytes as u32, ROWS_PER_STRIP as u32);
        let picture = Picture { width, length, samples, bits, rows_per_strip, stored: Vec::new() };
        let row_bytes = bytes * self.across();
        let strips = stored[..rows * row_bytes].chunks(ROWS_PER_STRIP * row_bytes);
        let blocks: Vec<Vec<u8>> = strips.map(<[u8]>::to_vec).collect();
        let places = (0..blocks.len()).map(|i| Place::Block(i, 0)).collect();
        let byte_counts: Vec<u32> = blocks.iter().map(|block| block.len() as u32).collect();
        let mut dng = Dng::new(order, &picture)
            .with(Tag::new(273, LONG, Data::LongPlaces(places)))
            .with(Tag::longs(279, &byte_counts));
        dng.blocks = blocks;
        dng
    }

    /// Each row's number and samples, with the place of its values.
    pub fn each_row(self, stored: &[u8], out: &mut [f64], mut row: impl FnMut(usize, &[u8], &mut [f64])) {
        let stored = black_box(stored).chunks_exact(self.bytes * self.across());
        let rows = stored.zip(out.chunks_exact_mut(self.across()));
        rows.enumerate().for_each(|(number, (stored, out))| row(number, stored, out));
    }

    /// The core's window of the whole frame.
    pub fn window(self, file: &[u8], out: &mut [f64]) {
        let answer = core::window(black_box(file), 0, 0, self.rows as u64, self.columns as u64, out);
        assert_eq!(answer, Answer::DONE);
    }

    /// The same by tables.
    pub fn table_window(self, file: &[u8], out: &mut [f64]) {
        let answer = core::table_window(black_box(file), 0, 0, self.rows as u64, self.columns as u64, out);
        assert_eq!(answer, Answer::DONE);
    }
}

/// Samples strictly between black and white, as a little-endian file has them.
pub fn stored() -> Vec<u8> {
    let mut random = Random::new(1);
    let mut sample = || random.small(u32::from(GREATEST_BLACK) + 1, u32::from(WHITE) - 1) as u16;
    (0..SAMPLES).flat_map(|_| sample().to_le_bytes()).collect()
}

/// Those of the 8-bit mosaic.
pub fn stored_8() -> Vec<u8> {
    let mut random = Random::new(3);
    let mut sample = || random.small(u32::from(GREATEST_BLACK_8) + 1, u32::from(WHITE_8) - 1) as u8;
    (0..SAMPLES).map(|_| sample()).collect()
}

/// The file with black levels of a repeat of so many rows and columns, and a white
/// level.
pub fn with_levels(dng: Dng, repeat: u16, black: &[u16], white: u16) -> Dng {
    dng.with(Tag::shorts(50713, &[repeat; 2]))
        .with(Tag::shorts(50714, black))
        .with(Tag::shorts(50717, &[white]))
}

/// The file with the levels of the mosaic.
pub fn with_mosaic_levels(dng: Dng) -> Dng {
    with_levels(dng, 2, &BLACK, WHITE)
}

/// Entries of a linearization table that ascend, all of them between black and
/// white of the mosaic.
pub fn ascending<const ENTRIES: usize>() -> [u16; ENTRIES] {
    let rise = usize::from(WHITE - GREATEST_BLACK) - 2;
    std::array::from_fn(|i| GREATEST_BLACK + 1 + (i * rise / (ENTRIES - 1)) as u16)
}

/// Numbers of lines, all of them small.
pub fn numbers(lines: usize) -> Vec<f32> {
    (0..lines).map(|line| 0.001 * (line % 7) as f32).collect()
}

/// A DeltaPerRow of these numbers and a cubic MapPolynomial over a whole mosaic of
/// so many rows.
pub fn two_opcodes(rows: usize) -> [Opcode; 2] {
    let area = Area::whole(rows as u32, COLUMNS as u32, 1);
    [Opcode::per_line(10, area, &numbers(rows)), Opcode::map_polynomial(area, &CUBIC)]
}

/// A file of the mosaic's first rows.
pub fn mosaic(stored: &[u8], rows: usize) -> Dng {
    with_mosaic_levels(Frame { rows, ..Frame::MOSAIC }.dng(ByteOrder::Little, stored))
}

/// The black levels of a 2 x 2 repeat, row by row, and S, in 256ths, which no
/// compiler knows beforehand.
pub fn black_and_span(black: [u16; 4], greatest: u16, white: u16) -> ([[i64; 2]; 2], i64) {
    let [a, b, c, d] = black.map(|cell| 256 * i64::from(cell));
    (black_box([[a, b], [c, d]]), black_box(256 * i64::from(white - greatest)))
}

/// Those of the mosaic.
pub fn mosaic_black_and_span() -> ([[i64; 2]; 2], i64) {
    black_and_span(BLACK, GREATEST_BLACK, WHITE)
}

/// A little-endian sample in 256ths.
#[inline(always)]
pub fn little_endian(sample: &[u8]) -> i64 {
    256 * i64::from(u16::from_le_bytes([sample[0], sample[1]]))
}

/// The scaled value of a sample, all in 256ths: L is 65535 D / S to the nearest
/// whole number, halves up.
#[inline(always)]
pub fn scaled(sample: i64, black: i64, s: i64) -> f64 {
    let d = sample - black;
    let level = if d <= 0 {
        0
    } else if d >= s {
        65535
    } else {
        (131_070 * d as u64 + s as u64) / (2 * s as u64)
    };
    level as f64 / 65535.0
}

/// One row of scaled values, whose blacks and S come again every so many samples.
#[inline(never)]
pub fn scaled_row<const REPEAT: usize>(
    mut samples: impl Iterator<Item = i64>,
    black: [i64; REPEAT],
    s: [i64; REPEAT],
    out: &mut [f64],
) {
    for repeat in out.chunks_exact_mut(REPEAT) {
        for (i, (value, sample)) in repeat.iter_mut().zip(&mut samples).enumerate() {
            *value = scaled(sample, black[i], s[i]);
        }
    }
}

pub fn same_bits(a: &[f64], b: &[f64]) -> bool {
    a.len() == b.len() && a.iter().zip(b).all(|(x, y)| x.to_bits() == y.to_bits())
}

/// Every sample as an f64, without its level.
#[inline(never)]
pub fn plain(stored: &[u8], out: &mut [f64]) {
    for (value, sample) in out.iter_mut().zip(stored.chunks_exact(2)) {
        *value = f64::from(u16::from_le_bytes([sample[0], sample[1]])) * (1.0 / 65535.0);
    }
}

/// The same of 8-bit samples.
#[inline(never)]
pub fn plain_8(stored: &[u8], out: &mut [f64]) {
    for (value, sample) in out.iter_mut().zip(stored) {
        *value = f64::from(*sample) * (1.0 / 255.0);
    }
}

/// Of results on both sides of 1 at random a branch would be costly: both
/// comparisons choose one of two numbers.
#[inline(always)]
pub fn clip(x: f64) -> f64 {
    let not_below = if x > 0.0 { x } else { 0.0 };
    if not_below < 1.0 {
        not_below
    } else {
        1.0
    }
}

#[inline(never)]
pub fn add(deltas: impl Iterator<Item = f64>, out: &mut [f64]) {
    out.iter_mut().zip(deltas).for_each(|(value, delta)| *value = clip(*value + delta));
}

#[inline(never)]
pub fn cubic([a, b, c, d]: [f64; 4], out: &mut [f64]) {
    out.iter_mut().for_each(|value| *value = clip(((d * *value + c) * *value + b) * *value + a));
}
