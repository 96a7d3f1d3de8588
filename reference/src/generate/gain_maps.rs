//! GainMaps: their points, where these lie, their gains, and their faults.

use crate::builder::{Area, GainMap, Opcode};
use crate::random::Random;

use super::lists;

/// A map for some planes of a frame of so many rows and columns.
pub fn gain_map(random: &mut Random, planes: u32, frame: [u32; 2]) -> GainMap {
    let points = points(random);
    let axes = [0, 1].map(|axis: usize| axis_of(random, points[axis], frame[axis]));
    let mut map = GainMap {
        points,
        spacing: axes.map(|(spacing, _)| spacing),
        origin: axes.map(|(_, origin)| origin),
        planes: random.small(1, planes + 2),
        gains: Vec::new(),
    };
    fill(random, &mut map);
    map
}

/// As many gains as the map's points and planes ask for.
fn fill(random: &mut Random, map: &mut GainMap) {
    let (low, high) = random.pick(&[(0, 2), (0, 2), (0, 1), (1, 4), (-1, 1), (-2, 0)]);
    map.gains = lists::numbers(random, map.points[0] * map.points[1] * map.planes, low, high);
}

fn points(random: &mut Random) -> [u32; 2] {
    let few = [random.small(2, 5), random.small(2, 5)];
    match random.index(80) {
        0 => [64, 64],
        1 => [64, few[1]],
        2 => [few[0], 64],
        3 => [63, 1],
        4 => [1, 63],
        5..=14 => [1, 1],
        15..=24 => [1, few[1]],
        25..=34 => [few[0], 1],
        _ => few,
    }
}

/// Spacing and origin in one direction of a frame.
fn axis_of(random: &mut Random, points: u32, lines: u32) -> (f64, f64) {
    let last = f64::from(points.max(2) - 1);
    let middle = |line: u32| (f64::from(line) + 0.5) / f64::from(lines);
    let first = random.small(0, lines - 1);
    let other = random.small(first, lines - 1);
    let (spacing, origin) = match random.index(16) {
        // From edge to edge.
        0 | 1 => (1.0 / last, 0.0),
        // From the middle of a line, in whole lines.
        2..=5 => (f64::from(random.small(1, 3)) / f64::from(lines), middle(first)),
        // From the middle of one line to that of another.
        6..=8 if first < other => ((middle(other) - middle(first)) / last, middle(first)),
        // Less than a line, and more than the frame.
        9 => {
            let denormal = lists::denormal_double(random).abs();
            (random.pick(&[1e-9, 1e-300, f64::MIN_POSITIVE, 0.01, denormal, denormal]), middle(first))
        }
        10 => (random.pick(&[1.5, 1e9, 1e300, f64::MAX]), middle(first)),
        // Far away.
        11 => (part(random, 1, 4), random.pick(&[-1e300, 1e300, f64::MAX, f64::MIN, -3.0, 3.0, -1e-9])),
        12 => {
            let denormal = lists::denormal_double(random);
            (part(random, 1, 4), random.pick(&[0.0, -0.0, f64::MIN_POSITIVE, 1.0, denormal, denormal]))
        }
        _ => (part(random, 1, 4), part(random, -4, 4)),
    };
    let denormal = lists::denormal_double(random);
    let any = random.pick(&[0.0, -0.0, -1.0, f64::MIN, -f64::MIN_POSITIVE, denormal]);
    (if points == 1 && random.one_in(2) { any } else { spacing }, origin)
}

/// A number between two quarters.
fn part(random: &mut Random, low: i64, high: i64) -> f64 {
    random.between(low << 50, high << 50) as f64 / (1u64 << 52) as f64
}

/// Points and planes whose gains would take as many bytes as the last number
/// says but for 2^32 or 2^64.
const WRAPPING: [([u32; 2], u32, usize); 8] = [
    ([64, 64], 1 << 18, 0),
    ([64, 64], (1 << 18) + 1, 16_384),
    ([1, 1], 1 << 30, 0),
    ([1, 1], (1 << 30) + 1, 4),
    ([2, 1], (1 << 29) + 1, 8),
    ([1 << 31, 1 << 31], 1, 0),
    ([1 << 31, 1 << 31], 4, 0),
    ([u32::MAX, u32::MAX], u32::MAX, 4),
];

/// A GainMap with one or two faults, or numbers next to them.
pub fn faulty(random: &mut Random, area: Area, frame: [u32; 2]) -> Opcode {
    let mut map = gain_map(random, area.planes, frame);
    for _ in 0..random.pick(&[1, 1, 1, 2]) {
        spoil(random, &mut map);
    }
    let mut one = Opcode::gain_map(area, &map);
    if random.one_in(6) {
        let length = one.parameters.len();
        let lengths = [length - 1, length + 1, length.saturating_sub(4), length + 4, 75, 76, 72, 36, 35, 0];
        one.parameters.resize(random.pick(&lengths), 0);
    }
    one
}

fn spoil(random: &mut Random, map: &mut GainMap) {
    let axis = random.index(2);
    match random.index(14) {
        0 => {
            map.points[axis] = random.pick(&[0, 64, 65]);
            map.points[1 - axis] = map.points[1 - axis].min(3);
            map.planes = map.planes.min(2);
            fill(random, map);
        }
        1 => map.points[axis] = random.pick(&[0, 1, 2, 65, u32::MAX]),
        2 => {
            map.planes = 0;
            map.gains.clear();
        }
        3 => map.planes = random.pick(&[0, 1, 2, u32::MAX]),
        4 => {
            let (points, planes, bytes) = random.pick(&WRAPPING);
            (map.points, map.planes, map.gains) = (points, planes, vec![0.5; bytes / 4]);
        }
        5..=7 => map.spacing[axis] = f64::from_bits(random.pick(&lists::DOUBLES)),
        8..=10 => map.origin[axis] = f64::from_bits(random.pick(&lists::DOUBLES)),
        _ if map.gains.is_empty() => (),
        _ => {
            let last = map.gains.len() - 1;
            let place = random.pick(&[0, last, last / 2]);
            map.gains[place] = f32::from_bits(random.pick(&lists::FLOATS));
        }
    }
}
