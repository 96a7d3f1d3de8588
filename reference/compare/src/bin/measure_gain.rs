//! `measure_gain`: how long the core takes for one GainMap on the whole frame of a
//! mosaic, as ratios to the same in Rust and to a plain loop, timed in the same
//! run. Run by hand, in a release build.

use std::hint::black_box;

use compare::mosaic::{
    clip, little_endian, mosaic, mosaic_black_and_span, plain, same_bits, scaled_row, stored, Frame, COLUMNS,
    ROWS, SAMPLES,
};
use compare::times::{print_ratio, Times};
use reference::builder::{Area, GainMap, Opcode, MAP_GAINS, MAP_ORIGIN, MAP_SPACING};

const REPETITIONS: usize = 9;
const POINTS: [usize; 2] = [17, 13];

/// Gains from 0.5 to 2, none next to its like.
fn gain_map() -> Opcode {
    let count = POINTS[0] * POINTS[1];
    let gains = (0..count).map(|i| 0.5 + 1.5 * (37 * i % count) as f32 / (count - 1) as f32).collect();
    let [points, spacing] = [POINTS, POINTS.map(|points| points - 1)];
    let map = GainMap {
        points: points.map(|points| points as u32),
        spacing: spacing.map(|spaces| 1.0 / spaces as f64),
        origin: [0.0; 2],
        planes: 1,
        gains,
    };
    Opcode::gain_map(Area::whole(ROWS as u32, COLUMNS as u32, 1), &map)
}

/// The points in one direction.
struct Axis {
    lines: f64,
    origin: f64,
    spacing: f64,
    last: u32,
}

impl Axis {
    /// The point at or before a line, and how far the line is on the way from
    /// there to the next one.
    #[inline(always)]
    fn place(&self, line: u32) -> (u32, f64) {
        let place = ((f64::from(line) + 0.5) / self.lines - self.origin) / self.spacing;
        if place <= 0.0 {
            (0, 0.0)
        } else if place >= f64::from(self.last) {
            (self.last, 0.0)
        } else {
            let point = place as u32;
            (point, place - f64::from(point))
        }
    }
}

/// A row of the map: the gain of every point and of the one after it. The last
/// one is its own next.
type MapRow = [[f64; 2]; 64];

/// What does not change from row to row.
struct Job {
    black: [[i64; 2]; 2],
    s: i64,
    vertical: Axis,
    horizontal: Axis,
    gains: Vec<f64>,
}

impl Job {
    /// The map as an opcode's parameters have it.
    fn new(parameters: &[u8]) -> Job {
        let (black, s) = mosaic_black_and_span();
        let double = |at: usize| f64::from_be_bytes(parameters[at..at + 8].try_into().expect("eight bytes"));
        let axis = |axis: usize, lines: usize| Axis {
            lines: lines as f64,
            origin: double(MAP_ORIGIN[axis]),
            spacing: double(MAP_SPACING[axis]),
            last: POINTS[axis] as u32 - 1,
        };
        let gains = parameters[MAP_GAINS..].chunks_exact(4);
        let gain = |bytes: &[u8]| f64::from(f32::from_be_bytes(bytes.try_into().expect("four bytes")));
        Job {
            black,
            s,
            vertical: axis(0, ROWS),
            horizontal: axis(1, COLUMNS),
            gains: gains.map(gain).collect(),
        }
    }

    fn run(&self, stored: &[u8], out: &mut [f64]) {
        Frame::MOSAIC.each_row(stored, out, |row, stored, out| {
            let samples = stored.chunks_exact(2).map(little_endian);
            scaled_row(samples, self.black[row % 2], [self.s; 2], out);
            self.correct_row(row, out);
        });
    }

    #[inline(never)]
    fn correct_row(&self, row: usize, out: &mut [f64]) {
        let (point, down) = self.vertical.place(row as u32);
        let upper = self.map_row(point);
        let lower = self.map_row((point + 1).min(self.vertical.last));
        for (column, value) in (0..).zip(out) {
            let (point, across) = self.horizontal.place(column);
            let [a, b] = upper[point as usize % 64];
            let [c, d] = lower[point as usize % 64];
            let gain = between(down, between(across, a, b), between(across, c, d));
            *value = clip(*value * gain);
        }
    }

    fn map_row(&self, row: u32) -> MapRow {
        let gains = &self.gains[POINTS[1] * row as usize..][..POINTS[1]];
        let mut map_row = [[0.0; 2]; 64];
        for (point, gain) in gains.iter().enumerate() {
            map_row[point] = [*gain, gains[(point + 1).min(POINTS[1] - 1)]];
        }
        map_row
    }
}

#[inline(always)]
fn between(f: f64, a: f64, b: f64) -> f64 {
    (1.0 - f) * a + f * b
}

fn main() {
    let stored = stored();
    let opcode = gain_map();
    let file = mosaic(&stored, ROWS).with_opcodes(std::slice::from_ref(&opcode)).file();
    let job = Job::new(&black_box(opcode).parameters);
    let mut out = vec![1.0; SAMPLES];
    let mut expected = out.clone();
    job.run(&stored, &mut expected);
    Frame::MOSAIC.window(&file, &mut out);
    assert!(same_bits(&out, &expected), "dng_window gives the corrected levels");
    let [mut loops, mut rust, mut core] = [(); 3].map(|()| Times::default());
    println!("{} samples, {} x {} points", SAMPLES, POINTS[0], POINTS[1]);
    println!("run    plain loop      in Rust   dng_window   of Rust   of the loop");
    for run in 1..=REPETITIONS {
        loops.run(|| plain(black_box(&stored), &mut out));
        rust.run(|| job.run(&stored, &mut expected));
        core.run(|| Frame::MOSAIC.window(&file, &mut out));
        assert!(same_bits(&out, &expected), "dng_window gives the corrected levels");
        let [a, b, c] = [&loops, &rust, &core].map(Times::last);
        let [ms_a, ms_b, ms_c] = [a, b, c].map(|seconds| 1e3 * seconds);
        println!("{run:3}   {ms_a:8.2} ms  {ms_b:8.2} ms  {ms_c:8.2} ms  {:8.2}  {:12.2}", c / b, c / a);
    }
    print_ratio("(a) plain loop, u16 to f64", &loops, &loops, "(a)");
    print_ratio("(b) levels and the gain map in Rust", &rust, &loops, "(a)");
    print_ratio("(c) dng_window, the gain map", &core, &rust, "(b)");
    print_ratio("    the same", &core, &loops, "(a)");
}
