//! Denormal numbers (document 02, T-07): what opcodes make of them, with the values
//! stated; spacings of a GainMap; colours and blocks; the faults behind them.

use reference::builder::{Area, Dng, GainMap, Opcode, OpcodeList, Picture, Tag};
use reference::cases::Call;
use reference::denormals::{
    self, least, Worked, FLOAT_SIGN, GREATEST, GREATEST_FLOAT, SIGN, TINY, TINY_BITS,
};

use super::colour::{MATRIX, NEUTRAL};
use super::gain_map::{filled, ones, values};
use super::lists::{every_place, good, in_both, opcodes, whole};
use super::{each_way, COLUMNS, DONE, LINEAR, MAX, MOSAIC, ROWS, WAYS};
use crate::questions::{colour_window, half_window, window};
use crate::tally::Tally;

/// Every case of denormal numbers that stands nowhere else.
pub fn check(tally: &mut Tally) {
    worked(tally);
    spacings(tally);
    origins(tally);
    gains_between(tally);
    colours(tally);
    means(tally);
    frames(tally);
    order(tally);
}

/// One sample by the window and the spot, with its value.
fn worked(tally: &mut Tally) {
    for (group, worked) in [
        ("shown", denormals::shown()),
        ("sum", denormals::sums()),
        ("product", denormals::products()),
        ("chain", denormals::chains()),
        ("polynomial", denormals::polynomials()),
        ("table entry", denormals::table_entries()),
    ] {
        for (number, Worked { stored, list, bits }) in worked.into_iter().enumerate() {
            let picture = Picture { stored: vec![stored], ..Picture::counting(1, 1, 1, 16) };
            for (order, widths) in WAYS {
                tally.files += 1;
                let file = Dng { widths, ..Dng::new(order, &picture).with_opcodes(&list) }.file();
                let label = format!("denormal {group} {number}");
                for call in [window([0, 0, 1, 1], 1), Call::Spot { row: 0, column: 0, plane: 0 }] {
                    tally.ask_values(&label, &file, &call, &[f64::from_bits(bits)]);
                }
            }
        }
    }
}

/// A map of one row, or of one column, over as many samples of 1.0 as there are
/// values stated.
fn map_values(tally: &mut Tally, label: &str, spacing: f64, origin: f64, gains: &[f32], stated: &[f64]) {
    let (count, lines) = (gains.len() as u32, stated.len() as u32);
    for (points, rows, columns) in [([1, count], 1, lines), ([count, 1], lines, 1)] {
        let (spacing, origin, gains) = ([spacing; 2], [origin; 2], gains.to_vec());
        let map = GainMap { points, spacing, origin, planes: 1, gains };
        let dng = ones(rows, columns, 1, &[Opcode::gain_map(Area::whole(rows, columns, 1), &map)]);
        values(tally, label, &dng, [0, 0, rows.into(), columns.into()], stated);
    }
}

/// From the middle of three lines the first is far below the points, the second on
/// the first of them, the third far above; a spacing below 0 is 10, and with one
/// point only a number.
fn spacings(tally: &mut Tally) {
    let gains = [0.25, 0.5, 0.75];
    for bits in [1, 2, 0xFFFF_FFFF, 1 << 32, 1 << 51, GREATEST] {
        let (spacing, label) = (f64::from_bits(bits), format!("spacing {bits:016x}"));
        map_values(tally, &label, spacing, 0.5, &gains, &[0.25, 0.25, 0.75]);
        map_values(tally, &label, spacing, 0.0, &gains, &[0.75; 3]);
        map_values(tally, &label, spacing, 1.0, &gains, &[0.25; 3]);
        for (axis, points) in
            [[2, 2], [2, 64], [1, 1], [1, 2], [2, 1]].into_iter().flat_map(|p| [(0, p), (1, p)])
        {
            for sign in [0, SIGN] {
                let mut map = filled(points, 1);
                map.spacing[axis] = f64::from_bits(bits | sign);
                let answer = if sign == 0 || points[axis] == 1 { DONE } else { (10, 1) };
                let list = [good(8, whole()), Opcode::gain_map(whole(), &map)];
                opcodes(tally, &format!("{label} of axis {axis}, sign {sign:x}"), &list, answer);
            }
        }
    }
}

/// Less than any step of a place.
fn origins(tally: &mut Tally) {
    for bits in [1, GREATEST].into_iter().flat_map(|bits| [bits, bits | SIGN]) {
        let label = format!("origin {bits:016x}");
        map_values(tally, &label, 1.0, f64::from_bits(bits), &[0.0, 1.0], &[0.25, 0.75]);
    }
}

/// Places 0.25 and 0.75 between two gains.
fn gains_between(tally: &mut Tally) {
    let tiny = f64::from_bits(TINY_BITS);
    for (gains, stated) in [
        ([TINY, TINY], [1.0, 1.0]),
        ([0.0, TINY], [0.25, 0.75]),
        ([TINY, 0.0], [0.75, 0.25]),
        ([TINY, -TINY], [0.5, 0.0]),
        // 2^23 - 1 of them.
        ([f32::from_bits(GREATEST_FLOAT), TINY], [6_291_455.5, 2_097_152.5]),
    ] {
        let label = format!("gains {gains:?}");
        map_values(tally, &label, 1.0, 0.0, &gains, &stated.map(|times| times * tiny));
    }
}

/// A pixel of 1, 3 and 5 least numbers.
fn colours(tally: &mut Tally) {
    let planes = [1, 3, 5].into_iter().zip(0..).map(|(times, plane)| {
        Opcode::map_polynomial(Area { plane, planes: 1, ..Area::whole(1, 1, 3) }, &[least(times)])
    });
    let dng = ones(1, 1, 3, &planes.collect::<Vec<Opcode>>());
    let of = |values: [i32; 9]| values.map(|value| (value, 4));
    for (matrix, neutral, stated) in [
        (of([4, 0, 0, 0, 4, 0, 0, 0, 4]), [(1, 1); 3], [1, 3, 5]),
        (of([4, 0, 0, 0, 4, 0, 0, 0, 4]), [(2, 1), (2, 1), (1, 2)], [0, 2, 10]),
        (of([2, 0, 0, 0, 2, 0, 0, 0, 2]), [(1, 1); 3], [0, 2, 2]),
        (of([3, 0, 0, 0, 3, 0, 0, 0, 3]), [(1, 1); 3], [1, 2, 4]),
        // -1 + 1.5 + 5, the 1.5 rounded to 2; then below 0, without a clip.
        (of([-4, 2, 4, -4, 0, 0, 0, -4, 2]), [(1, 1); 3], [6, -1, -1]),
    ] {
        let dng = dng.clone().with_first(Tag::srationals(MATRIX, &matrix));
        for dng in each_way(&dng.with_first(Tag::rationals(NEUTRAL, &neutral))) {
            tally.files += 1;
            let call = colour_window([0, 0, 1, 1], 3);
            tally.ask_values("colours of least numbers", &dng.file(), &call, &stated.map(least));
        }
    }
}

/// Red, greens and blue of least numbers; a mean of two is rounded once.
fn means(tally: &mut Tally) {
    let identity = [1, 0, 0, 0, 1, 0, 0, 0, 1].map(|value| (value, 1));
    let most = GREATEST as i64;
    for ([red, first, second, blue], green) in [
        ([3, 1, 4, most], 2),
        ([1, 1, 0, 2], 0),
        ([1, 0, 3, 2], 2),
        ([most, most, most, 1], most),
        ([0, most, most + 1, 0], most + 1),
    ] {
        let list = [(0, 0, red), (0, 1, first), (1, 0, second), (1, 1, blue)].map(|(top, left, times)| {
            let area = Area { top, left, bottom: top + 1, right: left + 1, ..Area::whole(2, 2, 1) };
            Opcode::map_polynomial(area, &[least(times)])
        });
        let dng = ones(2, 2, 1, &list)
            .with_pattern([0, 1, 1, 2])
            .with_first(Tag::srationals(MATRIX, &identity))
            .with_first(Tag::shorts(NEUTRAL, &[1; 3]));
        for dng in each_way(&dng) {
            tally.files += 1;
            let call = half_window([0, 0, 1, 1], 3);
            tally.ask_values("a block of least numbers", &dng.file(), &call, &[red, green, blue].map(least));
        }
    }
}

/// Lists that leave denormals all over a frame, by every call.
fn frames(tally: &mut Tally) {
    for (base, planes) in [(MOSAIC, 1), (LINEAR, 3)] {
        let area = Area { planes, ..whole() };
        let polynomial = |coefficients: &[f64]| Opcode::map_polynomial(area, coefficients);
        let lines = |id: u32, numbers: [f32; 3]| {
            let count = if [10, 12].contains(&id) { ROWS } else { COLUMNS };
            Opcode::per_line(id, area, &numbers.repeat(3)[..count as usize])
        };
        let by = |power: i32| polynomial(&[0.0, 2f64.powi(power)]);
        let greatest = f32::from_bits(GREATEST_FLOAT);
        let map = |gains: [f32; 4]| {
            let [a, b, c, d] = gains;
            Opcode::gain_map(area, &GainMap::spread(&[[a, b], [c, d]]))
        };
        let lists = [
            ("x by 2^-1060", vec![by(-1060)]),
            ("and factors", vec![by(-1070), lines(13, [0.5, 0.75, 1.5]), lines(12, [2.0, 0.25, 1.0])]),
            ("and a map", vec![by(-1068), map([0.5, 1.5, 0.75, 0.25])]),
            ("a sum", vec![polynomial(&[least(1), f64::from_bits(GREATEST), least(-3)])]),
            ("nine", vec![by(-9), polynomial(&[1, 5, -3, 9, 100, -7, 2_000, 1, 90_000].map(least))]),
            (
                "seven",
                [vec![lines(12, [TINY, greatest, TINY]); 7], vec![lines(13, [1.0, 0.001, 9.0])]].concat(),
            ),
            (
                "seven",
                [vec![lines(13, [greatest, TINY, TINY]); 7], vec![lines(12, [1.0, 0.5, 3.0])]].concat(),
            ),
            ("gains", vec![by(-920), map([TINY, greatest, 0.0, TINY])]),
            ("gains below 0", vec![by(-915), map([TINY, -TINY, -greatest, greatest])]),
            (
                "deltas on 0",
                vec![by(-1074), lines(10, [TINY, -TINY, greatest]), lines(11, [-TINY, TINY, 0.0])],
            ),
            (
                "deltas",
                vec![by(-140), lines(11, [-TINY, TINY, -greatest]), lines(10, [TINY, greatest, -0.0])],
            ),
        ];
        for (label, list) in lists {
            every_place(tally, label, base, &list);
        }
    }
}

/// Of each kind an opcode with a FLOAT or a DOUBLE of these bits.
fn of_each_kind(float: u32, double: u64) -> Vec<Opcode> {
    let (float, double) = (f32::from_bits(float), f64::from_bits(double));
    let map = GainMap::spread(&[[0.5]]);
    let maps = [
        GainMap { spacing: [double, 1.0], ..map.clone() },
        GainMap { spacing: [1.0, double], ..map.clone() },
        GainMap { origin: [double, 0.0], ..map.clone() },
        GainMap { origin: [0.0, double], ..map },
        GainMap::spread(&[[0.5, 0.25], [1.5, float]]),
    ];
    let mut all =
        vec![Opcode::map_polynomial(whole(), &[double]), Opcode::map_polynomial(whole(), &[0.5, double])];
    all.extend(maps.map(|map| Opcode::gain_map(whole(), &map)));
    all.extend([(10, ROWS), (11, COLUMNS), (12, ROWS), (13, COLUMNS)].map(|(id, count)| {
        let mut numbers = vec![0.5; count as usize];
        numbers[2] = float;
        Opcode::per_line(id, whole(), &numbers)
    }));
    all
}

/// A denormal is no fault: what stands behind it answers, at its own place; within
/// one opcode 10 and 11 answer as before.
fn order(tally: &mut Tally) {
    let bad = of_each_kind(0x7FC0_0000, 0x7FF8 << 48);
    let infinite = of_each_kind(0xFF80_0000, 0xFFF << 52);
    let mut faults: Vec<(Opcode, u32)> =
        bad.iter().chain(&infinite).map(|opcode| (opcode.clone(), 12)).collect();
    faults.extend([
        (good(8, whole()).with_long(6, 0), 10),
        (good(10, whole()).with_long(8, 5), 10),
        (Opcode::new(14, 0, vec![0; 3]), 11),
        (good(7, whole()).with_version(0x0107_0101), 11),
        (good(8, whole()).with_length(MAX), 10),
    ]);
    let numbers = [
        (1, 1),
        (GREATEST_FLOAT, GREATEST),
        (FLOAT_SIGN | 1, SIGN | 1),
        (FLOAT_SIGN | GREATEST_FLOAT, SIGN | GREATEST),
    ];
    for denormal in numbers.into_iter().flat_map(|(float, double)| of_each_kind(float, double)) {
        opcodes(tally, "a denormal alone", std::slice::from_ref(&denormal), DONE);
        opcodes(tally, "a denormal, malformed", &[denormal.clone().with_long(7, 0)], (10, 0));
        opcodes(tally, "a denormal, later", &[denormal.clone().with_version(MAX)], (11, 0));
        let left = OpcodeList { tail: vec![0; 5], ..OpcodeList::new(&[denormal.clone(), denormal.clone()]) };
        in_both(tally, "bytes left behind denormals", &left, (10, 2));
        for (fault, number) in &faults {
            let behind = [denormal.clone(), fault.clone()];
            opcodes(tally, "a fault behind a denormal", &behind, (*number, 1));
        }
    }
    let denormal = || of_each_kind(1, 1).into_iter();
    for ((first, number), (second, _)) in faults.iter().flat_map(|a| faults.iter().map(move |b| (a, b))) {
        let list: Vec<Opcode> = denormal().chain([first.clone(), second.clone()]).collect();
        opcodes(tally, "two faults behind denormals", &list, (*number, denormal().len() as u32));
    }
}
