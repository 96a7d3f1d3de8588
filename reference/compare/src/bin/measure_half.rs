//! `measure_half`: how long the core takes for half-size colour of a mosaic, as
//! ratios to the same in Rust and to a window of the same file, timed in the
//! same run; then its time for a block and for small windows. Run by hand, in a
//! release build.

use std::hint::black_box;

use compare::core;
use compare::mosaic::{
    little_endian, mosaic, mosaic_black_and_span, same_bits, scaled, stored, Frame, COLUMNS, ROWS, SAMPLES,
};
use compare::times::{print_ratio, Times};
use reference::builder::Tag;
use reference::random::Random;
use reference::Answer;

const REPETITIONS: usize = 9;
const BLOCK_ROWS: usize = ROWS / 2;
const BLOCK_COLUMNS: usize = COLUMNS / 2;

const PATTERN: [u8; 4] = [1, 0, 2, 1];
const MATRIX: [(i32, i32); 9] = [
    (4_360, 10_000),
    (3_851, 10_000),
    (1_431, 10_000),
    (2_225, 10_000),
    (7_169, 10_000),
    (606, 10_000),
    (139, 10_000),
    (971, 10_000),
    (7_141, 10_000),
];
const NEUTRAL: [(u32, u32); 3] = [(473, 1_000), (1, 1), (629, 1_000)];

const SMALL: usize = 64;
const SMALL_WINDOWS: usize = 30;

fn file(stored: &[u8], rows: usize) -> Vec<u8> {
    let dng = mosaic(stored, rows)
        .with_pattern(PATTERN)
        .with_first(Tag::srationals(50964, &MATRIX))
        .with_first(Tag::rationals(50728, &NEUTRAL));
    dng.file()
}

/// What does not change from block to block.
struct Job {
    /// Of red, the first green, the second one and blue, row by row.
    places: [usize; 4],
    black: [[i64; 2]; 2],
    s: i64,
    matrix: [f64; 9],
    neutral: [f64; 3],
}

impl Job {
    fn new() -> Job {
        let (black, s) = mosaic_black_and_span();
        let pattern = black_box(PATTERN);
        let mut places = [0, 1, 2, 3];
        places.sort_by_key(|place| pattern[*place]);
        let matrix = black_box(MATRIX).map(|(n, d)| f64::from(n) / f64::from(d));
        let neutral = black_box(NEUTRAL).map(|(n, d)| f64::from(n) / f64::from(d));
        Job { places, black, s, matrix, neutral }
    }

    fn run(&self, stored: &[u8], out: &mut [f64]) {
        let rows = stored.chunks_exact(4 * COLUMNS).zip(out.chunks_exact_mut(3 * BLOCK_COLUMNS));
        for (stored, out) in rows {
            self.row_of_blocks(stored.split_at(2 * COLUMNS), out);
        }
    }

    #[inline(never)]
    fn row_of_blocks(&self, (upper, lower): (&[u8], &[u8]), out: &mut [f64]) {
        let line = |place: usize| {
            let row = if place < 2 { upper } else { lower };
            let black = self.black[place / 2][place % 2];
            let samples = row[2 * (place % 2)..].chunks(4).map(little_endian);
            samples.map(move |sample| scaled(sample, black, self.s))
        };
        let [red, first, second, blue] = self.places.map(line);
        let blocks = red.zip(first.zip(second)).zip(blue).zip(out.chunks_exact_mut(3));
        for (((red, (first, second)), blue), out) in blocks {
            out.copy_from_slice(&self.colour([red, (first + second) * 0.5, blue]));
        }
    }

    #[inline(always)]
    fn colour(&self, [red, green, blue]: [f64; 3]) -> [f64; 3] {
        let (m, n) = (&self.matrix, &self.neutral);
        let p = [red / n[0], green / n[1], blue / n[2]];
        [0, 3, 6].map(|row: usize| (m[row] * p[0] + m[row + 1] * p[1]) + m[row + 2] * p[2])
    }
}

/// The first block rows, in their whole width.
fn half_window(file: &[u8], rows: usize, out: &mut [f64]) {
    let out = &mut out[..3 * rows * BLOCK_COLUMNS];
    let answer = core::half_window(black_box(file), 0, 0, rows as u64, BLOCK_COLUMNS as u64, out);
    assert_eq!(answer, Answer::DONE);
}

/// Windows of a quarter, a half and all of the rows.
fn print_blocks(file: &[u8], out: &mut [f64]) {
    for rows in [BLOCK_ROWS / 4, BLOCK_ROWS / 2, BLOCK_ROWS] {
        let mut times = Times::default();
        (0..REPETITIONS).for_each(|_| times.run(|| half_window(file, rows, out)));
        let each = |seconds: f64| 1e9 * seconds / (rows * BLOCK_COLUMNS) as f64;
        let (best, median) = (each(times.best()), each(times.median()));
        println!("    {rows:>5} rows of {BLOCK_COLUMNS} blocks: best {best:6.2}, median {median:6.2}");
    }
}

/// Small windows all over a frame of so many block rows, in microseconds.
fn print_small(file: &[u8], rows: usize) {
    let mut random = Random::new(2);
    let mut out = vec![0.0; 3 * SMALL * SMALL];
    let mut times = Times::default();
    for _ in 0..REPETITIONS {
        let mut place = |whole: usize| random.index(whole - SMALL + 1) as u64;
        let places: Vec<(u64, u64)> =
            (0..SMALL_WINDOWS).map(|_| (place(rows), place(BLOCK_COLUMNS))).collect();
        times.run(|| {
            for (top, left) in places {
                let side = SMALL as u64;
                assert_eq!(core::half_window(file, top, left, side, side, &mut out), Answer::DONE);
            }
        });
    }
    let each = |seconds: f64| 1e6 * seconds / SMALL_WINDOWS as f64;
    let (best, median) = (each(times.best()), each(times.median()));
    println!("    a frame of {rows:>5} block rows: best {best:7.1}, median {median:7.1}");
}

fn main() {
    let stored = stored();
    let (whole, quarter) = (file(&stored, ROWS), file(&stored, ROWS / 4));
    let job = Job::new();
    let mut out = vec![1.0; 3 * BLOCK_ROWS * BLOCK_COLUMNS];
    let mut expected = out.clone();
    let mut frame = vec![1.0; SAMPLES];
    let [mut rust, mut half, mut window] = [(); 3].map(|()| Times::default());
    for _ in 0..REPETITIONS {
        rust.run(|| job.run(black_box(&stored), &mut expected));
        half.run(|| half_window(&whole, BLOCK_ROWS, &mut out));
        assert!(same_bits(&out, &expected), "dng_half_window gives the same colours");
        window.run(|| Frame::MOSAIC.window(&whole, &mut frame));
    }
    println!("{BLOCK_ROWS} x {BLOCK_COLUMNS} blocks, {REPETITIONS} repetitions; time: the best");
    print_ratio("(a) half-size colour in Rust", &rust, &rust, "(a)");
    print_ratio("(b) dng_half_window, all blocks", &half, &rust, "(a)");
    print_ratio("(c) dng_window, the whole frame", &window, &rust, "(a)");
    print_ratio("    (b) once more", &half, &window, "(c)");
    println!("(d) dng_half_window, nanoseconds a block");
    print_blocks(&whole, &mut out);
    println!("(e) dng_half_window, {SMALL} x {SMALL} blocks, microseconds a call");
    print_small(&whole, BLOCK_ROWS);
    print_small(&quarter, BLOCK_ROWS / 4);
}
