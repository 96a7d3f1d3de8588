//! Document 02, T-07: "A denormal FLOAT or DOUBLE is now read at its exact value."
//! Numbers by their bits and what opcodes make of them, worked out by hand; and
//! which denormals an opcode has.

use crate::builder::{Area, GainMap, Opcode};
use crate::opcodes::Action;

pub const FLOAT_SIGN: u32 = 1 << 31;
pub const SIGN: u64 = 1 << 63;

/// 2^-149, the least FLOAT above 0, and the bits of the f64 of equal value.
pub const TINY: f32 = f32::from_bits(1);
pub const TINY_BITS: u64 = 0x36A0_0000_0000_0000;
/// The bits of the greatest denormals.
pub const GREATEST_FLOAT: u32 = 0x007F_FFFF;
pub const GREATEST: u64 = 0x000F_FFFF_FFFF_FFFF;

/// FLOATs without their sign, and the f64 of equal value: the exponent's field
/// of 2^-n is 3FF - n.
const FLOATS: [(u32, u64); 9] = [
    (0, 0),
    // 2^-149, and thrice as much.
    (1, TINY_BITS),
    (3, 0x36B8_0000_0000_0000),
    // 2^-127.
    (0x0040_0000, 0x3800_0000_0000_0000),
    // 2^-126 - 2^-149: 23 ones, the first of them 2^-127.
    (GREATEST_FLOAT, 0x380F_FFFF_C000_0000),
    // The least normal, 2^-126, and the next.
    (0x0080_0000, 0x3810_0000_0000_0000),
    (0x0080_0001, 0x3810_0000_2000_0000),
    (0x3F00_0000, 0x3FE0_0000_0000_0000),
    // 24 ones, the first of them 2^127.
    (0x7F7F_FFFF, 0x47EF_FFFF_E000_0000),
];

/// DOUBLEs without their sign.
const DOUBLES: [u64; 8] = [
    0,
    1,
    3,
    0x0008_0000_0000_0000,
    GREATEST,
    0x0010_0000_0000_0000,
    0x0010_0000_0000_0001,
    0x7FEF_FFFF_FFFF_FFFF,
];

/// Both signs of each.
pub fn floats() -> impl Iterator<Item = (u32, u64)> {
    FLOATS.into_iter().flat_map(|(bits, value)| [(bits, value), (bits | FLOAT_SIGN, value | SIGN)])
}

pub fn doubles() -> impl Iterator<Item = u64> {
    DOUBLES.into_iter().flat_map(|bits| [bits, bits | SIGN])
}

/// 2^-1074, the least f64 above 0, so many times.
pub fn least(times: i64) -> f64 {
    f64::from_bits(times.unsigned_abs()).copysign(times as f64)
}

/// One 16-bit sample without levels, the opcodes on it, and the bits that they
/// leave.
pub struct Worked {
    pub stored: u16,
    pub list: Vec<Opcode>,
    pub bits: u64,
}

/// A stored sample of 1.0.
pub const FULL: u16 = 65_535;
const ONE: u64 = 0x3FF0_0000_0000_0000;

/// The area of the one sample.
pub fn one() -> Area {
    Area::whole(1, 1, 1)
}

/// A frame that holds x.
pub fn constant(x: f64) -> Opcode {
    Opcode::map_polynomial(one(), &[x])
}

fn per_line(id: u32, number: f32) -> Opcode {
    Opcode::per_line(id, one(), &[number])
}

pub fn gain(number: f32) -> Opcode {
    Opcode::gain_map(one(), &GainMap::spread(&[[number]]))
}

/// A factor leaves of 1.0 its own value, and so does a delta on 0, a constant
/// on any number; clipped.
pub fn shown() -> Vec<Worked> {
    let clipped = |bits: u64| match bits {
        ONE..SIGN => ONE,
        SIGN.. => 0,
        between => between,
    };
    let of_float = |(float, value): (u32, u64)| {
        let number = f32::from_bits(float);
        let factors = [per_line(12, number), per_line(13, number), gain(number)].map(|opcode| (FULL, opcode));
        let deltas = [10, 11].map(|id| (0, per_line(id, number)));
        let opcodes = factors.into_iter().chain(deltas);
        opcodes.map(move |(stored, opcode)| Worked { stored, list: vec![opcode], bits: clipped(value) })
    };
    let of_double = |bits: u64| {
        let list = vec![constant(f64::from_bits(bits))];
        Worked { stored: 9, list, bits: clipped(bits) }
    };
    floats().flat_map(of_float).chain(doubles().map(of_double)).collect()
}

/// Deltas of 2^-149 and its opposite, on any number.
pub fn sums() -> Vec<Worked> {
    // 2^-201 is the step from 2^-149 to the next number.
    let step = 2f64.powi(-201);
    let cases = [
        (0.0, &[TINY][..], TINY_BITS),
        (0.0, &[-TINY], 0),
        (0.0, &[TINY, TINY], 0x36B0_0000_0000_0000),
        (0.0, &[TINY, -TINY], 0),
        // Next to 1 nothing is left of it.
        (1.0, &[TINY], ONE),
        (1.0, &[-TINY], ONE),
        (0.5, &[-TINY], 0x3FE0_0000_0000_0000),
        (step, &[TINY], TINY_BITS + 1),
        // Half of a step is a tie, which goes to the even number.
        (0.5 * step, &[TINY], TINY_BITS),
        (1.5 * step, &[TINY], TINY_BITS + 2),
        (least(1), &[TINY], TINY_BITS),
        (least(1), &[TINY, -TINY], 0),
        (least(1), &[0.0], 1),
        (least(1), &[-0.0], 1),
    ];
    let of_id = |id: u32| {
        cases.map(|(x, deltas, bits)| {
            let deltas = deltas.iter().map(|delta| per_line(id, *delta));
            Worked { stored: 9, list: [constant(x)].into_iter().chain(deltas).collect(), bits }
        })
    };
    [10, 11].into_iter().flat_map(of_id).collect()
}

/// A denormal times a factor is rounded once; ties go to the even number.
pub fn products() -> Vec<Worked> {
    let cases = [
        (1, 0.5, 0),
        (1, 0.5 + f32::EPSILON, 1),
        (1, 0.75, 1),
        (1, 0.25, 0),
        (1, 1.0, 1),
        (1, 1.25, 1),
        (1, 1.5, 2),
        (1, 2.0, 2),
        (1, 3.0, 3),
        (1, -1.0, 0),
        (1, TINY, 0),
        // 24 ones from 2^127 on become 24 ones from 2^-947 on.
        (1, f32::MAX, 0x04CF_FFFF_E000_0000),
        (2, 0.5, 1),
        (3, 0.5, 2),
        (5, 0.5, 2),
        (7, 0.5, 4),
        (GREATEST, 0.5, 1 << 51),
        (GREATEST, 2.0, 0x001F_FFFF_FFFF_FFFE),
        (GREATEST + 1, 0.5, 1 << 51),
        (GREATEST + 2, 0.5, 1 << 51),
    ];
    let of = |(times, factor, bits): (u64, f32, u64)| {
        [per_line(12, factor), per_line(13, factor), gain(factor)].map(|opcode| Worked {
            stored: 9,
            list: vec![constant(f64::from_bits(times)), opcode],
            bits,
        })
    };
    cases.into_iter().flat_map(of).collect()
}

/// Factors of 2^-149 one after another, and others behind seven of them: 149 x 7
/// is 1043, and 2^-1043 is 2^31 times the least number.
pub fn chains() -> Vec<Worked> {
    let factors = |count: usize| vec![per_line(12, TINY); count];
    let plain =
        [(1, TINY_BITS), (2, 0x2D50_0000_0000_0000), (6, 0x0810_0000_0000_0000), (7, 1 << 31), (8, 0)];
    let plain = plain.map(|(count, bits)| Worked { stored: FULL, list: factors(count), bits });
    let to_least = f32::from_bits((127 - 31) << 23);
    let behind = [(to_least, 1), (0.5 * to_least, 0), (0.75 * to_least, 1), (1.5 * to_least, 2)];
    let behind = behind.into_iter().flat_map(|(factor, bits)| {
        [per_line(13, factor), gain(factor)].map(|opcode| {
            let list = factors(7).into_iter().chain([opcode]).collect();
            Worked { stored: FULL, list, bits }
        })
    });
    // 2^31 / 65535 is 32768.50000763; of 2 twice as much, and of 257 it is 2^31 / 255.
    let levels = [(1, 32_769), (2, 65_537), (257, 8_421_505)];
    let levels = levels.map(|(stored, bits)| Worked { stored, list: factors(7), bits });
    plain.into_iter().chain(behind).chain(levels).collect()
}

/// At x, coefficients in least numbers, constant first.
pub fn polynomials() -> Vec<Worked> {
    let cases = [
        (1.0, &[1, 1][..], 2),
        (0.5, &[1, 1], 1),
        (0.75, &[1, 1], 2),
        // 1.5 is rounded to 2, and 2 + 1 is 3; in one step 2.5 would be 2.
        (0.5, &[1, 3], 3),
        (0.5, &[0, 5], 2),
        (1.0, &[1, -1], 0),
        (1.0, &[-1, 2], 1),
        (1.0, &[-2, 1], 0),
        (0.75, &[2, -1], 1),
        (0.5, &[1, -1], 1),
        (1.0, &[0, 0, 0, 0, 0, 0, 0, 0, 1], 1),
        (1.0, &[1, 1, 1, 1, 1, 1, 1, 1, 1], 9),
        (0.5, &[0, 0, 0, 0, 0, 0, 0, 0, 256], 1),
        (0.5, &[1, 1, 1, 1, 1, 1, 1, 1, 1], 1),
        (0.0, &[1, 9, 9], 1),
        (0.0, &[-1, 9, 9], 0),
        // The greatest denormal and the least make the least normal.
        (1.0, &[GREATEST as i64, 1], GREATEST + 1),
        (1.0, &[1, GREATEST as i64], GREATEST + 1),
    ];
    let of = |x: f64, coefficients: &[f64], bits: u64| {
        let list = vec![constant(x), Opcode::map_polynomial(one(), coefficients)];
        Worked { stored: 9, list, bits }
    };
    let mut worked: Vec<Worked> = cases
        .into_iter()
        .map(|(x, times, bits)| of(x, &times.iter().copied().map(least).collect::<Vec<f64>>(), bits))
        .collect();
    // On the least number: 2^-1074 times 2^1023 is 2^-51, times itself nothing.
    worked.push(of(least(1), &[0.0, f64::from_bits(0x7FE << 52)], 0x3CC0_0000_0000_0000));
    worked.push(of(least(1), &[least(1), 1.0], 2));
    worked.push(of(least(1), &[0.25, least(1)], 0x3FD0_0000_0000_0000));
    // The greatest denormal times the greatest number is nearly 4.
    worked.push(of(f64::from_bits(GREATEST), &[0.0, f64::MAX], ONE));
    worked
}

/// A table takes any denormal for 0.
pub fn table_entries() -> Vec<Worked> {
    let table = Opcode::map_table(one(), &[13_107, 1, 2]);
    let of = |bits: u64| vec![constant(f64::from_bits(bits)), table.clone()];
    // 13107 / 65535 is 0.2.
    [1, GREATEST].map(|bits| Worked { stored: FULL, list: of(bits), bits: 0x3FC9_9999_9999_999A }).into()
}

/// A kind of number, and whether it is below 0.
pub type Signed = (&'static str, bool);

pub fn denormals(kind: &'static str, numbers: &[f64], denormal: fn(f64) -> bool) -> Vec<Signed> {
    let found = numbers.iter().filter(|number| denormal(**number));
    found.map(|number| (kind, *number < 0.0)).collect()
}

/// The kinds of denormal numbers that an opcode has.
pub fn of_action(action: &Action) -> Vec<Signed> {
    let of_floats = |kind, numbers: &[f64]| denormals(kind, numbers, |number| (number as f32).is_subnormal());
    let of_doubles = |kind, numbers: &[f64]| denormals(kind, numbers, f64::is_subnormal);
    match action {
        Action::MapTable(_) => Vec::new(),
        Action::MapPolynomial(coefficients) => of_doubles("denormal coefficient", coefficients),
        Action::DeltaPerRow(deltas) => of_floats("denormal row delta", deltas),
        Action::DeltaPerColumn(deltas) => of_floats("denormal column delta", deltas),
        Action::ScalePerRow(factors) => of_floats("denormal row factor", factors),
        Action::ScalePerColumn(factors) => of_floats("denormal column factor", factors),
        Action::GainMap(map) => {
            let gains: Vec<f64> = map.gains.iter().copied().map(f64::from).collect();
            let mut kinds = of_floats("denormal gain", &gains);
            for axis in [&map.vertical, &map.horizontal] {
                let several = axis.points > 1;
                let spacing = if several { "denormal spacing" } else { "denormal spacing of one point" };
                kinds.extend(of_doubles(spacing, &[axis.spacing]));
                kinds.extend(of_doubles("denormal origin", &[axis.origin]));
            }
            kinds
        }
    }
}
