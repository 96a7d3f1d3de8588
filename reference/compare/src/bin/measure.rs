//! `measure [NAME]`: how long the core takes for whole frames, as ratios to plain
//! loops and to the same in Rust with one 64-bit division for each level, timed in
//! the same run; then spots, their chains and small windows. With a NAME, only the frames that have
//! it in theirs. Run by hand, in a release build.

use std::hint::black_box;
use std::iter::repeat;

use compare::core;
use compare::mosaic::{
    add, ascending, black_and_span, clip, cubic, little_endian, mosaic, mosaic_black_and_span, numbers,
    plain, plain_8, same_bits, scaled_row, stored, stored_8, two_opcodes, with_levels, with_mosaic_levels,
    Frame, BLACK_8, COLUMNS, CUBIC, GREATEST_BLACK_8, ROWS, SAMPLES, WHITE, WHITE_8,
};
use compare::times::{print_ratio, Times};
use reference::builder::{Area, Dng, Opcode, Tag};
use reference::bytes::ByteOrder;
use reference::chain::LEAST_PLACES;
use reference::random::Random;
use reference::Answer;

const REPETITIONS: usize = 9;

const MOSAIC: Frame = Frame::MOSAIC;
const LINEAR: Frame = Frame { rows: 1_000, columns: 8_000, planes: 3, bytes: 2 };

/// The blacks of LinearRaw's planes.
const BLACK_OF_PLANES: [u16; 3] = [500, 512, 520];

/// The entries of a linearization table.
const ENTRIES: usize = 4_096;

const SPOTS: usize = 300;
const SMALL: usize = 64;
const SMALL_WINDOWS: usize = 30;

/// A frame to measure, as a file and in Rust.
struct Job<'a> {
    name: &'a str,
    frame: Frame,
    stored: &'a [u8],
    dng: Dng,
    rust: &'a dyn Fn(&mut [f64]),
    /// The ratios that are wanted: at most this to the plain loop, below this to
    /// the same in Rust.
    wanted: [Option<f64>; 2],
}

impl Job<'_> {
    /// Times the plain loop, the same in Rust and the core by turns, and prints
    /// the ratios.
    fn run(self, out: &mut [f64], expected: &mut [f64]) {
        let file = self.dng.file();
        let plain = if self.frame.bytes == 1 { plain_8 } else { plain };
        let [mut loops, mut rust, mut core] = [(); 3].map(|()| Times::default());
        for _ in 0..REPETITIONS {
            loops.run(|| plain(black_box(self.stored), out));
            rust.run(|| (self.rust)(expected));
            core.run(|| self.frame.window(&file, out));
            assert!(same_bits(out, expected), "{}: dng_window gives the same", self.name);
        }
        let [of_plain, of_rust] = self.wanted;
        let of_plain = of_plain.map_or(String::new(), |ratio| format!(", wanted at most {ratio:.1}"));
        let of_rust = of_rust.map_or(String::new(), |ratio| format!(", wanted below {ratio:.1}"));
        println!("{}", self.name);
        print_ratio("    plain loop", &loops, &loops, "(a)");
        print_ratio("    the same in Rust", &rust, &loops, "(a)");
        print_ratio("    dng_window", &core, &loops, &format!("(a){of_plain}"));
        print_ratio("    dng_window", &core, &rust, &format!("the same in Rust{of_rust}"));
    }
}

/// Runs one job after another.
type Run<'a> = &'a mut dyn FnMut(Job);

#[inline(never)]
fn map_table(entries: &[u16], out: &mut [f64]) {
    let last = entries.len() - 1;
    let entry = |x: f64| entries[((x * 65535.0 + 0.5) as usize).min(last)];
    out.iter_mut().for_each(|value| *value = clip(f64::from(entry(*value)) / 65535.0));
}

/// The mosaic's first rows, without opcodes or with a DeltaPerRow and a cubic
/// MapPolynomial over the whole frame.
fn corrected(stored: &[u8], rows: usize, opcodes: bool) -> Dng {
    let dng = mosaic(stored, rows);
    if opcodes {
        dng.with_opcodes(&two_opcodes(rows))
    } else {
        dng
    }
}

/// The 16-bit mosaic, without opcodes and with some.
fn mosaics(stored: &[u8], run: Run) {
    let (black, s) = mosaic_black_and_span();
    let (of_rows, of_columns) = (numbers(ROWS), numbers(COLUMNS));
    let entries: Vec<u16> = (0..=65_535u64).map(|i| (i * i / 65_535) as u16).collect();
    let rust = |out: &mut [f64], opcodes: &dyn Fn(usize, &mut [f64])| {
        MOSAIC.each_row(stored, out, |row, stored, out| {
            scaled_row(stored.chunks_exact(2).map(little_endian), black[row % 2], [s; 2], out);
            opcodes(row, out);
        });
    };
    let mut job = |name: &str, dng: Dng, wanted: [Option<f64>; 2], opcodes: &dyn Fn(usize, &mut [f64])| {
        run(Job { name, frame: MOSAIC, stored, dng, rust: &|out| rust(out, opcodes), wanted });
    };
    let area = Area::whole(ROWS as u32, COLUMNS as u32, 1);
    let with = |opcode: Opcode| mosaic(stored, ROWS).with_opcodes(&[opcode]);
    job("16-bit mosaic, 2 x 2 black", mosaic(stored, ROWS), [Some(2.0), Some(0.6)], &|_, _| ());
    job("with DeltaPerRow and a cubic", corrected(stored, ROWS, true), [Some(3.3), None], &|row, out| {
        add(repeat(f64::from(of_rows[row])), out);
        cubic(black_box(CUBIC), out);
    });
    let small = CUBIC.map(|coefficient| coefficient * 2f64.powi(-1060));
    job("with a cubic of denormals", with(Opcode::map_polynomial(area, &small)), [None; 2], &|_, out| {
        cubic(black_box(small), out);
    });
    job("with a MapTable", with(Opcode::map_table(area, &entries)), [None; 2], &|_, out| {
        map_table(&entries, out);
    });
    job("with DeltaPerColumn", with(Opcode::per_line(11, area, &of_columns)), [None; 2], &|_, out| {
        add(of_columns.iter().copied().map(f64::from), out);
    });
}

/// The same samples in big-endian order.
fn big_endian(little: &[u8], run: Run) {
    let stored: Vec<u8> = little.chunks_exact(2).flat_map(|sample| [sample[1], sample[0]]).collect();
    let (black, s) = mosaic_black_and_span();
    let number = |sample: &[u8]| 256 * i64::from(u16::from_be_bytes([sample[0], sample[1]]));
    let rust = |out: &mut [f64]| {
        MOSAIC.each_row(&stored, out, |row, stored, out| {
            scaled_row(stored.chunks_exact(2).map(number), black[row % 2], [s; 2], out);
        });
    };
    let dng = with_mosaic_levels(MOSAIC.dng(ByteOrder::Big, &stored));
    let wanted = [Some(2.3), Some(0.6)];
    run(Job { name: "big-endian", frame: MOSAIC, stored: &stored, dng, rust: &rust, wanted });
}

/// With a delta of every column (50715), in 256ths. The first one's is the
/// greatest, so that S stays.
fn column_deltas(stored: &[u8], run: Run) {
    let deltas: Vec<i64> = (0..COLUMNS as i64).map(|column| -(13 * column % 509)).collect();
    let (black, s) = mosaic_black_and_span();
    let rust = |out: &mut [f64]| {
        MOSAIC.each_row(stored, out, |row, stored, out| {
            let samples = stored.chunks_exact(2).zip(&deltas);
            let samples = samples.map(|(sample, delta)| little_endian(sample) - delta);
            scaled_row(samples, black[row % 2], [s; 2], out);
        });
    };
    let fractions: Vec<(i32, i32)> = deltas.iter().map(|delta| (*delta as i32, 256)).collect();
    let dng = mosaic(stored, ROWS).with(Tag::srationals(50715, &fractions));
    let wanted = [Some(2.6), Some(0.6)];
    run(Job { name: "with column deltas", frame: MOSAIC, stored, dng, rust: &rust, wanted });
}

/// LinearRaw, without opcodes and with a cubic on all planes.
fn linear(stored: &[u8], run: Run) {
    let black = black_box(BLACK_OF_PLANES).map(|black| 256 * i64::from(black));
    let s = black.map(|black| 256 * i64::from(WHITE) - black);
    let dng = LINEAR
        .dng(ByteOrder::Little, stored)
        .with(Tag::shorts(50714, &BLACK_OF_PLANES))
        .with(Tag::shorts(50717, &[WHITE; 3]));
    let area = Area::whole(LINEAR.rows as u32, LINEAR.columns as u32, 3);
    let corrected = dng.clone().with_opcodes(&[Opcode::map_polynomial(area, &CUBIC)]);
    let scale =
        |stored: &[u8], out: &mut [f64]| scaled_row(stored.chunks_exact(2).map(little_endian), black, s, out);
    let rust = |out: &mut [f64]| LINEAR.each_row(stored, out, |_, stored, out| scale(stored, out));
    let wanted = [Some(2.3), Some(0.6)];
    run(Job { name: "LinearRaw", frame: LINEAR, stored, dng, rust: &rust, wanted });
    let rust = |out: &mut [f64]| {
        LINEAR.each_row(stored, out, |_, stored, out| {
            scale(stored, out);
            cubic(black_box(CUBIC), out);
        });
    };
    let name = "LinearRaw with a cubic on three planes";
    run(Job { name, frame: LINEAR, stored, dng: corrected, rust: &rust, wanted: [None; 2] });
}

fn mosaic_8(run: Run) {
    let (stored, frame) = (stored_8(), Frame::MOSAIC_8);
    let (black, s) = black_and_span(BLACK_8, GREATEST_BLACK_8, WHITE_8);
    let rust = |out: &mut [f64]| {
        frame.each_row(&stored, out, |row, stored, out| {
            let samples = stored.iter().map(|sample| 256 * i64::from(*sample));
            scaled_row(samples, black[row % 2], [s; 2], out);
        });
    };
    let dng = with_levels(frame.dng(ByteOrder::Little, &stored), 2, &BLACK_8, WHITE_8);
    let wanted = [Some(2.0), Some(0.6)];
    run(Job { name: "8-bit mosaic", frame, stored: &stored, dng, rust: &rust, wanted });
}

/// Samples of twelve bits through a linearization table.
fn linearized(samples: &[u8], run: Run) {
    let place = |sample: &[u8]| usize::from(u16::from_le_bytes([sample[0], sample[1]]));
    let of_12_bits = samples.chunks_exact(2).map(|sample| (place(sample) % ENTRIES) as u16);
    let stored: Vec<u8> = of_12_bits.flat_map(u16::to_le_bytes).collect();
    let ((black, s), table) = (mosaic_black_and_span(), black_box(ascending::<ENTRIES>()));
    let rust = |out: &mut [f64]| {
        MOSAIC.each_row(&stored, out, |row, stored, out| {
            let entry = |sample: &[u8]| 256 * i64::from(table[place(sample).min(ENTRIES - 1)]);
            scaled_row(stored.chunks_exact(2).map(entry), black[row % 2], [s; 2], out);
        });
    };
    let dng = mosaic(&stored, ROWS).with(Tag::shorts(50712, &ascending::<ENTRIES>()));
    let wanted = [Some(4.5), Some(0.6)];
    let name = "with a linearization table";
    run(Job { name, frame: MOSAIC, stored: &stored, dng, rust: &rust, wanted });
}

/// Spots and small windows all over a frame of so many rows, in microseconds.
fn print_small(name: &str, file: &[u8], rows: usize) {
    let mut random = Random::new(2);
    let mut out = vec![0.0; SMALL * SMALL];
    let (mut whole, mut reals) = ([[0; LEAST_PLACES]; 3], [[0.0; LEAST_PLACES]; 2]);
    let (mut spots, mut chains, mut windows) = (Times::default(), Times::default(), Times::default());
    for _ in 0..REPETITIONS {
        let mut places = |count: usize, side: usize| -> Vec<(u64, u64)> {
            let mut place = |whole: usize| random.index(whole - side + 1) as u64;
            (0..count).map(|_| (place(rows), place(COLUMNS))).collect()
        };
        let (of_spots, of_windows) = (places(SPOTS, 1), places(SMALL_WINDOWS, SMALL));
        spots.run(|| {
            for (row, column) in of_spots.iter().copied() {
                assert_eq!(core::spot(file, row, column, 0).0, Answer::DONE);
            }
        });
        chains.run(|| {
            for (row, column) in of_spots {
                let ([places, ids, skipped], [before, after]) = (&mut whole, &mut reals);
                let chain = core::chain(file, row, column, 0, places, ids, before, after, skipped);
                assert_eq!(chain.answer(), Answer::DONE);
            }
        });
        windows.run(|| {
            for (top, left) in of_windows {
                let side = SMALL as u64;
                assert_eq!(core::window(file, top, left, side, side, &mut out), Answer::DONE);
            }
        });
    }
    let each = |seconds: f64, calls: usize| 1e6 * seconds / calls as f64;
    println!(
        "{name:<28}{rows:>5} rows: spot best {:7.1}, median {:7.1}; chain best {:7.1}, median {:7.1}; \
         {SMALL} x {SMALL} window best {:7.1}, median {:7.1}",
        each(spots.best(), SPOTS),
        each(spots.median(), SPOTS),
        each(chains.best(), SPOTS),
        each(chains.median(), SPOTS),
        each(windows.best(), SMALL_WINDOWS),
        each(windows.median(), SMALL_WINDOWS)
    );
}

fn main() {
    let name = std::env::args().nth(1);
    let stored = stored();
    let (mut out, mut expected) = (vec![1.0; SAMPLES], vec![1.0; SAMPLES]);
    println!("{SAMPLES} samples, {REPETITIONS} repetitions; processor time: the best; (a) is the plain loop");
    let mut run = |job: Job| {
        if name.as_ref().is_none_or(|name| job.name.contains(name)) {
            job.run(&mut out, &mut expected);
        }
    };
    mosaics(&stored, &mut run);
    big_endian(&stored, &mut run);
    column_deltas(&stored, &mut run);
    linearized(&stored, &mut run);
    mosaic_8(&mut run);
    linear(&stored, &mut run);
    if name.is_some() {
        return;
    }
    println!("microseconds a call");
    for rows in [ROWS, ROWS / 4] {
        print_small("    without opcodes,", &corrected(&stored, rows, false).file(), rows);
        print_small("    with the two opcodes,", &corrected(&stored, rows, true).file(), rows);
    }
}
