//! Document 02, T-07: denormal FLOATs and DOUBLEs are read at their exact value,
//! results may be denormal, and 12 is for infinite and NaN alone. The module
//! `denormals` has the numbers, worked out by hand.

mod common;

use common::*;
use reference::builder::{Area, Dng, GainMap, Opcode, OpcodeList, Picture, Tag, MAP_GAINS, MAP_SPACING};
use reference::bytes::ByteOrder;
use reference::denormals::{
    self, doubles, floats, gain, least, one, Worked, FLOAT_SIGN, FULL, GREATEST, GREATEST_FLOAT, SIGN, TINY,
    TINY_BITS,
};
use reference::develop::accept;
use reference::listing;
use reference::opcodes::{Action, Opcode as Read};

/// What an opcode does on one sample, as the list's reader gives it.
fn read(opcode: Opcode) -> Action {
    let file = row_of(&[0]).with_opcodes(&[opcode]).file();
    match accept(&file).map(|mut accepted| accepted.opcodes.remove(0)) {
        Ok(Read::Kept(_, action)) => action,
        other => panic!("{other:?}"),
    }
}

/// The window, and the spot, of one sample.
#[track_caller]
fn hold(worked: Vec<Worked>) {
    assert!(!worked.is_empty());
    for Worked { stored, list, bits } in worked {
        let file = row_of(&[stored]).with_opcodes(&list).file();
        let [of_window, of_spot] = [frame_of(&file)[0], spot_value(&file, 0, 0, 0)].map(f64::to_bits);
        assert_eq!((of_window, of_spot), (bits, bits), "{list:x?}");
    }
}

// The numbers.

#[test]
fn a_float_is_read_at_its_exact_value() {
    for (bits, value) in floats() {
        for id in 10..=13 {
            let found = match read(Opcode::per_line(id, one(), &[f32::from_bits(bits)])) {
                Action::DeltaPerRow(numbers)
                | Action::DeltaPerColumn(numbers)
                | Action::ScalePerRow(numbers)
                | Action::ScalePerColumn(numbers) => numbers[0],
                other => panic!("{other:?}"),
            };
            assert_eq!(found.to_bits(), value, "{bits:08x} in opcode {id}");
        }
        match read(gain(f32::from_bits(bits))) {
            Action::GainMap(map) => assert_eq!(map.gain(0, 0, 0).to_bits(), value, "{bits:08x}"),
            other => panic!("{other:?}"),
        }
    }
}

#[test]
fn a_double_is_read_at_its_exact_value() {
    for bits in doubles() {
        let number = f64::from_bits(bits);
        for (count, place) in (1..=9).flat_map(|count| (0..count).map(move |place| (count, place))) {
            let mut coefficients = vec![0.5; count];
            coefficients[place] = number;
            match read(Opcode::map_polynomial(one(), &coefficients)) {
                Action::MapPolynomial(found) => assert_eq!(found[place].to_bits(), bits),
                other => panic!("{other:?}"),
            }
        }
        for place in 0..4 {
            let mut numbers = [0.5; 4];
            numbers[place] = number;
            let [v, h, origin_v, origin_h] = numbers;
            let map = GainMap { spacing: [v, h], origin: [origin_v, origin_h], ..GainMap::spread(&[[0.5]]) };
            match read(Opcode::gain_map(one(), &map)) {
                Action::GainMap(map) => {
                    let (v, h) = (map.vertical, map.horizontal);
                    let found = [v.spacing, h.spacing, v.origin, h.origin];
                    assert_eq!(found[place].to_bits(), bits, "{place}");
                }
                other => panic!("{other:?}"),
            }
        }
    }
}

// What the opcodes make of them.

#[test]
fn a_number_shows_at_its_exact_value() {
    hold(denormals::shown());
}

#[test]
fn a_denormal_delta_is_added_and_rounded() {
    hold(denormals::sums());
}

#[test]
fn denormal_products_are_rounded_once() {
    hold(denormals::products());
}

#[test]
fn factors_of_the_least_float_one_after_another() {
    hold(denormals::chains());
}

/// The product is rounded before the sum.
#[test]
fn a_polynomial_of_denormals() {
    hold(denormals::polynomials());
}

#[test]
fn a_table_takes_a_denormal_for_0() {
    hold(denormals::table_entries());
}

// GainMap.

/// A map of one row over a frame of one row; all samples are 1.0.
fn mapped_row(columns: u32, spacing: f64, origin: f64, gains: &[f32]) -> Vec<f64> {
    let points = [1, gains.len() as u32];
    let map =
        GainMap { points, spacing: [1.0, spacing], origin: [0.0, origin], planes: 1, gains: gains.to_vec() };
    let area = Area::whole(1, columns, 1);
    frame(&row_of(&vec![FULL; columns as usize]).with_opcodes(&[Opcode::gain_map(area, &map)]))
}

/// (0.5 / 3 - 0.5), 0 and (2.5 / 3 - 0.5) by it are far below 0, 0 and far above:
/// of the least denormal infinite, of the greatest not.
#[test]
fn a_denormal_spacing_leaves_the_first_and_the_last_point() {
    let gains = [0.25, 0.5, 0.75];
    for bits in [1, 2, 1 << 51, GREATEST] {
        assert_eq!(mapped_row(3, f64::from_bits(bits), 0.5, &gains), [0.25, 0.25, 0.75], "{bits:x}");
        assert_eq!(mapped_row(3, f64::from_bits(bits), 0.0, &gains), [0.75; 3], "{bits:x}");
        assert_eq!(mapped_row(3, f64::from_bits(bits), 1.0, &gains), [0.25; 3], "{bits:x}");
    }
}

/// Above 0 it is carried, below it is 10; with one point it does not matter.
#[test]
fn a_denormal_spacing_has_its_sign() {
    for (bits, axis) in [1, GREATEST].into_iter().flat_map(|bits| [(bits, 0), (bits, 1)]) {
        for (bits, number) in [(bits, 0), (bits | SIGN, 10)] {
            let of = |points: [u32; 2]| {
                let gains = vec![0.5; (points[0] * points[1]) as usize];
                let mut map = GainMap { points, gains, ..GainMap::spread(&[[0.5]]) };
                map.spacing[axis] = f64::from_bits(bits);
                row_of(&[FULL; 4]).with_opcodes(&[Opcode::gain_map(Area::whole(1, 4, 1), &map)])
            };
            refuses(&of([2, 3]), number, 0);
            let (one, two) = if axis == 0 { ([1, 6], [6, 1]) } else { ([6, 1], [1, 6]) };
            refuses(&of(two), number, 0);
            accepts(&of(one));
            assert_eq!(frame(&of(one)), [0.5; 4]);
        }
    }
}

/// A place less a denormal is the place.
#[test]
fn a_denormal_origin_is_as_good_as_0() {
    for bits in [1, GREATEST].into_iter().flat_map(|bits| [bits, bits | SIGN]) {
        assert_eq!(mapped_row(2, 1.0, f64::from_bits(bits), &[0.0, 1.0]), [0.25, 0.75], "{bits:x}");
    }
}

/// Places 0.25 and 0.75 between 2^-149 and a greater gain; every number is exact.
#[test]
fn denormal_gains() {
    let tiny = f64::from_bits(TINY_BITS);
    assert_eq!(mapped_row(2, 1.0, 0.0, &[TINY, TINY]), [tiny; 2]);
    assert_eq!(mapped_row(2, 1.0, 0.0, &[0.0, TINY]), [0.25 * tiny, 0.75 * tiny]);
    assert_eq!(mapped_row(2, 1.0, 0.0, &[TINY, -TINY]), [0.5 * tiny, 0.0]);
    let greatest = f64::from_bits(0x380F_FFFF_C000_0000);
    let between = [0.75 * tiny + 0.25 * greatest, 0.25 * tiny + 0.75 * greatest];
    assert_eq!(mapped_row(2, 1.0, 0.0, &[TINY, f32::from_bits(GREATEST_FLOAT)]), between);
}

// The other calls.

#[test]
fn the_listing_prints_a_denormal() {
    let dng = row_of(&[0, FULL]).with_opcodes(&[
        Opcode::map_polynomial(Area { right: 1, ..Area::whole(1, 2, 1) }, &[least(1)]),
        Opcode::map_polynomial(Area { left: 1, ..Area::whole(1, 2, 1) }, &[f64::from_bits(GREATEST)]),
    ]);
    assert_eq!(listing(&dng.file()), "frame 1 2 1\n0000000000000001 000fffffffffffff\n");
}

/// Fractions of 1, 3 and 5 times the least number.
#[test]
fn colours_of_denormals() {
    let picture = Picture::counting(1, 1, 3, 8);
    let planes = [1, 3, 5].into_iter().enumerate().map(|(plane, times)| {
        Opcode::map_polynomial(
            Area { plane: plane as u32, planes: 1, ..Area::whole(1, 1, 3) },
            &[least(times)],
        )
    });
    let dng = Dng::new(ByteOrder::Little, &picture).with_opcodes(&planes.collect::<Vec<Opcode>>());
    let coloured = |matrix: &[(i32, i32); 9], neutral: [(u32, u32); 3]| {
        let dng = dng.clone().with_first(Tag::srationals(50964, matrix));
        bits(&colours(&dng.with_first(Tag::rationals(50728, &neutral))))
    };
    assert_eq!(coloured(&IDENTITY, [(1, 1); 3]), [1, 3, 5]);
    assert_eq!(coloured(&IDENTITY, [(2, 1), (2, 1), (1, 2)]), [0, 2, 10]);
    // -1 + 3 / 2 + 5: 1.5 is 2, so it is 6; then less than 0, and no clip.
    let matrix = [(-1, 1), (1, 2), (1, 1), (-1, 1), (0, 1), (0, 1), (0, 1), (0, 1), (1, 2)];
    assert_eq!(coloured(&matrix, [(1, 1); 3]), [6, SIGN | 1, 2]);
}

#[test]
fn blocks_of_denormals() {
    let four = [(0, 0, 3), (0, 1, 1), (1, 0, 4), (1, 1, GREATEST as i64)].map(|(top, left, times)| {
        let area = Area { top, left, bottom: top + 1, right: left + 1, ..Area::whole(2, 2, 1) };
        Opcode::map_polynomial(area, &[least(times)])
    });
    // The mean of 1 and 4 is 2.5, and rounded 2.
    let dng = with_pattern_and_colour(mosaic(2, 2), PATTERN).with_opcodes(&four);
    assert_eq!(bits(&halves(&dng)), [3, 2, GREATEST]);
}

// What is still refused.

/// Of each kind an opcode with a number of these bits, as its last one.
fn of_each_kind(float: u32, double: u64) -> Vec<Opcode> {
    let number = f32::from_bits(float);
    let mut opcodes = vec![
        Opcode::map_polynomial(one(), &[0.5, f64::from_bits(double)]),
        Opcode::gain_map(
            one(),
            &GainMap { spacing: [1.0, f64::from_bits(double)], ..GainMap::spread(&[[0.5]]) },
        ),
        Opcode::gain_map(
            one(),
            &GainMap { origin: [0.0, f64::from_bits(double)], ..GainMap::spread(&[[0.5]]) },
        ),
        Opcode::gain_map(one(), &GainMap::spread(&[[0.5, number]])),
    ];
    opcodes.extend((10..=13).map(|id| Opcode::per_line(id, one(), &[number])));
    opcodes
}

/// A denormal is no fault, so what stands behind it answers, at its own place.
#[test]
fn the_first_fault_behind_a_denormal_answers() {
    let listed = |opcodes: &[&Opcode]| {
        row_of(&[FULL]).with_opcodes(&opcodes.iter().map(|opcode| (*opcode).clone()).collect::<Vec<Opcode>>())
    };
    let malformed = Opcode::map_table(one(), &[1]).with_long(6, 0);
    let unknown = Opcode::new(14, 0, vec![]);
    let denormals = [
        (1, 1),
        (GREATEST_FLOAT, GREATEST),
        (FLOAT_SIGN | 1, SIGN | 1),
        (FLOAT_SIGN | GREATEST_FLOAT, SIGN | GREATEST),
    ];
    for (float, double) in denormals {
        for denormal in &of_each_kind(float, double) {
            accepts(&listed(&[denormal, denormal]));
            refuses(&listed(&[denormal, &malformed]), 10, 1);
            refuses(&listed(&[denormal, &unknown]), 11, 1);
            refuses(&listed(&[denormal, denormal, &unknown, &malformed]), 11, 2);
            let left = OpcodeList { tail: vec![0], ..OpcodeList::new(std::slice::from_ref(denormal)) };
            refuses(&row_of(&[FULL]).with(left.tag()), 10, 1);
            // In the opcode itself 10 and 11 answer as before.
            refuses(&listed(&[&denormal.clone().with_long(6, 0)]), 10, 0);
            refuses(&listed(&[&denormal.clone().with_version(u32::MAX)]), 11, 0);
            for bad in &of_each_kind(0x7FC0_0000, 0x7FF8 << 48) {
                refuses(&listed(&[denormal, bad]), 12, 1);
                refuses(&listed(&[bad, denormal]), 12, 0);
                refuses(&listed(&[denormal, bad, &malformed]), 12, 1);
                refuses(&listed(&[denormal, &malformed, bad]), 10, 1);
            }
        }
    }
}

#[test]
fn a_denormal_beside_a_nan_in_one_opcode() {
    for [a, b] in [[1, 0x7FF8 << 48], [0x7FF << 52, GREATEST]].map(|pair| pair.map(f64::from_bits)) {
        for coefficients in [[a, b], [b, a]] {
            refuses(&row_of(&[0]).with_opcodes(&[Opcode::map_polynomial(one(), &coefficients)]), 12, 0);
        }
    }
    for pair in [[1, 0x7FC0_0000], [0x807F_FFFF, 0xFF80_0000], [0x7F80_0000, 1]] {
        let values = pair.map(f32::from_bits);
        for id in [11, 13] {
            let opcode = Opcode::per_line(id, Area::whole(1, 2, 1), &values);
            refuses(&row_of(&[0, 0]).with_opcodes(&[opcode]), 12, 0);
        }
        let map = Opcode::gain_map(one(), &GainMap::spread(&[values]));
        refuses(&row_of(&[0]).with_opcodes(std::slice::from_ref(&map)), 12, 0);
        // A spacing that is a denormal below 0 is 10, before the gains' 12.
        let below_0 = map.clone().with_bytes(MAP_SPACING[1], &(SIGN | 1).to_be_bytes());
        refuses(&row_of(&[0]).with_opcodes(&[below_0]), 10, 0);
        let denormal = map.with_bytes(MAP_GAINS, &[[0, 0, 0, 1], [0x80, 0, 0, 1]].concat());
        accepts(&row_of(&[0]).with_opcodes(&[denormal]));
    }
}
