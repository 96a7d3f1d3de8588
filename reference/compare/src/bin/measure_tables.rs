//! `measure_tables [NAME]`: how long the core's table window takes for 8-bit
//! mosaics, as ratios to its window of the same file, to a plain loop and to the
//! same by tables in Rust, timed in the same run; then small windows. With a NAME,
//! only what has it in its name. Run by hand, in a release build.

use std::hint::black_box;

use compare::core;
use compare::mosaic::{
    add, ascending, cubic, numbers, plain_8, same_bits, scaled, stored_8, two_opcodes, with_levels, Frame,
    BLACK, BLACK_8, CUBIC, GREATEST_BLACK_8, ROWS, SAMPLES, WHITE, WHITE_8,
};
use compare::times::Times;
use reference::builder::{Dng, Tag};
use reference::bytes::ByteOrder;
use reference::random::Random;
use reference::Answer;

const REPETITIONS: usize = 9;
const FRAME: Frame = Frame::MOSAIC_8;

/// The sides of small windows, and how many samples are asked of each side at
/// least in one repetition.
const SIDES: [usize; 9] = [8, 16, 24, 32, 48, 64, 96, 128, 256];
const SMALL_SAMPLES: usize = 1 << 20;

/// They lie in a corner of the frame with so many rows and columns, which the caches
/// hold, so that the first of two calls is not the slower one.
const CORNER: usize = 512;

/// The scaled value of every stored byte under a black cell.
type Table = [f64; 256];

/// The levels of a mosaic whose black levels repeat after so many rows and columns.
#[derive(Clone, Copy)]
struct Levels<const REPEAT: usize> {
    black: [[u16; REPEAT]; REPEAT],
    white: u16,
    /// A linearization table.
    linear: Option<[u16; 256]>,
}

impl<const REPEAT: usize> Levels<REPEAT> {
    /// Of the 8-bit mosaic; the blacks run from 0 to the greatest.
    fn new() -> Levels<REPEAT> {
        let cell = |i: usize| GREATEST_BLACK_8 - (5 * i % 9) as u16;
        let row = |row: usize| std::array::from_fn(|column| cell(REPEAT * row + column));
        Levels { black: std::array::from_fn(row), white: WHITE_8, linear: None }
    }

    fn dng(&self, stored: &[u8]) -> Dng {
        let dng = FRAME.dng(ByteOrder::Little, stored);
        let dng = with_levels(dng, REPEAT as u16, &self.black.concat(), self.white);
        match &self.linear {
            Some(entries) => dng.with(Tag::shorts(50712, entries)),
            None => dng,
        }
    }

    fn tables(&self) -> [[Table; REPEAT]; REPEAT] {
        let in_256ths = |number: u16| 256 * i64::from(number);
        let greatest = self.black.iter().flatten().copied().max().unwrap_or(0);
        let s = in_256ths(self.white - greatest);
        let value = |stored: usize| in_256ths(self.linear.map_or(stored as u16, |entries| entries[stored]));
        let table = |black| std::array::from_fn(|stored| scaled(value(stored), in_256ths(black), s));
        self.black.map(|row| row.map(table))
    }

    /// The whole frame by tables in Rust, each row corrected when it is there.
    fn run(&self, stored: &[u8], out: &mut [f64], correct: impl Fn(usize, &mut [f64])) {
        let tables = black_box(self).tables();
        FRAME.each_row(stored, out, |row, stored, out| {
            look_up(&tables[row % REPEAT], stored, out);
            correct(row, out);
        });
    }
}

/// One row of scaled values.
#[inline(never)]
fn look_up<const REPEAT: usize>(tables: &[Table; REPEAT], stored: &[u8], out: &mut [f64]) {
    for (values, stored) in out.chunks_exact_mut(REPEAT).zip(stored.chunks_exact(REPEAT)) {
        for (i, (value, sample)) in values.iter_mut().zip(stored).enumerate() {
            *value = tables[i][usize::from(*sample)];
        }
    }
}

/// The four that are timed in turn, and where their values stand.
struct Measurement<'a> {
    stored: &'a [u8],
    out: Vec<f64>,
    expected: Vec<f64>,
    wanted: Option<String>,
}

impl Measurement<'_> {
    /// Is what has this name to be measured?
    fn wants(&self, name: &str) -> bool {
        self.wanted.as_ref().is_none_or(|wanted| name.contains(wanted))
    }

    /// Without opcodes.
    fn levels<const REPEAT: usize>(&mut self, name: &str, levels: Levels<REPEAT>) {
        let stored = self.stored;
        self.run(name, || levels.dng(stored), &|out| levels.run(stored, out, |_, _| ()));
    }

    /// With a DeltaPerRow and a cubic.
    fn corrected<const REPEAT: usize>(&mut self, name: &str, levels: Levels<REPEAT>) {
        let (stored, of_rows) = (self.stored, numbers(ROWS));
        let correct = |row: usize, out: &mut [f64]| {
            add(std::iter::repeat(f64::from(of_rows[row])), out);
            cubic(black_box(CUBIC), out);
        };
        let dng = || levels.dng(stored).with_opcodes(&two_opcodes(ROWS));
        self.run(name, dng, &|out| levels.run(stored, out, correct));
    }

    fn run(&mut self, name: &str, dng: impl Fn() -> Dng, rust: &dyn Fn(&mut [f64])) {
        if !self.wants(name) {
            return;
        }
        let file = dng().file();
        let Measurement { stored, out, expected, .. } = self;
        let [mut loops, mut by_tables, mut window, mut table_window] = [(); 4].map(|()| Times::default());
        for _ in 0..REPETITIONS {
            loops.run(|| plain_8(black_box(stored), out));
            by_tables.run(|| rust(expected));
            window.run(|| FRAME.window(&file, out));
            assert!(same_bits(out, expected), "{name}: dng_window gives the same");
            out.fill(-1.0);
            table_window.run(|| FRAME.table_window(&file, out));
            assert!(same_bits(out, expected), "{name}: dng_table_window gives the same");
        }
        println!("{name}");
        print_times("plain loop, u8 to f64", &loops, &[]);
        print_times("by tables in Rust", &by_tables, &[("the loop", &loops)]);
        print_times("dng_window", &window, &[("the loop", &loops)]);
        let bases = [("dng_window", &window), ("the loop", &loops), ("Rust", &by_tables)];
        print_times("dng_table_window", &table_window, &bases);
    }

    /// Square windows.
    fn small<const REPEAT: usize>(&mut self) {
        let name = format!("small windows, {REPEAT} x {REPEAT} black: microseconds a call");
        if !self.wants(&name) {
            return;
        }
        println!("{name}");
        let file = Levels::<REPEAT>::new().dng(self.stored).file();
        SIDES.into_iter().for_each(|side| print_small(&file, side));
    }
}

/// The best and the median, and both as ratios to those of other times.
fn print_times(name: &str, times: &Times, bases: &[(&str, &Times)]) {
    let [best, median] = [times.best(), times.median()].map(|seconds| 1e3 * seconds);
    let ratio = |(of, base): &(&str, &Times)| {
        format!(", {:4.2} {:4.2} of {of}", times.best() / base.best(), times.median() / base.median())
    };
    let ratios: String = bases.iter().map(ratio).collect();
    println!("    {name:<24}best {best:7.2} ms, median {median:7.2} ms{ratios}");
}

fn print_small(file: &[u8], side: usize) {
    let mut random = Random::new(2);
    let mut out = vec![0.0; side * side];
    let [mut window, mut table_window] = [(); 2].map(|()| Times::default());
    let calls = SMALL_SAMPLES.div_ceil(side * side);
    let mut place = || random.index(CORNER - side + 1) as u64;
    let places: Vec<[u64; 2]> = (0..calls).map(|_| [place(), place()]).collect();
    let ask = |call: Window, out: &mut [f64]| {
        for [top, left] in &places {
            assert_eq!(call(file, *top, *left, side as u64, side as u64, out), Answer::DONE);
        }
    };
    ask(core::window, &mut out);
    for _ in 0..REPETITIONS {
        window.run(|| ask(core::window, &mut out));
        let expected = out.clone();
        table_window.run(|| ask(core::table_window, &mut out));
        assert!(same_bits(&out, &expected), "{side} x {side}: dng_table_window gives the same");
    }
    let each = |seconds: f64| 1e6 * seconds / calls as f64;
    println!(
        "    {side:>3} x {side:>3}: dng_window best {:7.2}, median {:7.2}; dng_table_window best {:7.2}, \
         median {:7.2}; ratio {:4.2} {:4.2}",
        each(window.best()),
        each(window.median()),
        each(table_window.best()),
        each(table_window.median()),
        table_window.best() / window.best(),
        table_window.median() / window.median()
    );
}

type Window = fn(&[u8], u64, u64, u64, u64, &mut [f64]) -> Answer;

/// The black of a 2 x 2 repeat, row by row.
fn square([a, b, c, d]: [u16; 4]) -> [[u16; 2]; 2] {
    [[a, b], [c, d]]
}

fn main() {
    let stored = stored_8();
    let [out, expected] = [(); 2].map(|()| vec![1.0; SAMPLES]);
    let wanted = std::env::args().nth(1);
    let mut measurement = Measurement { stored: &stored, out, expected, wanted };
    let levels = Levels { black: square(BLACK_8), white: WHITE_8, linear: None };
    let linear = Levels { black: square(BLACK), white: WHITE, linear: Some(ascending()) };
    println!("{SAMPLES} samples, {REPETITIONS} repetitions; processor time; ratios of best and of median");
    measurement.levels("(a) 2 x 2 black, levels only", levels);
    measurement.corrected("(b) with DeltaPerRow and a cubic", levels);
    measurement.levels("(c) with a linearization table", linear);
    measurement.levels("(d) 1 x 1 black, levels only", Levels::<1>::new());
    measurement.levels("(d) 4 x 4 black, levels only", Levels::<4>::new());
    measurement.levels("(d) 8 x 8 black, levels only", Levels::<8>::new());
    measurement.corrected("(e) with the table, DeltaPerRow and a cubic", linear);
    measurement.small::<1>();
    measurement.small::<2>();
    measurement.small::<4>();
    measurement.small::<8>();
}
