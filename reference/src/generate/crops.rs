//! The crop: one inside the active area, in every type, and crops and tags with a
//! fault.

use crate::builder::{Dng, Tag};
use crate::random::Random;
use crate::tag_test::{IFD, LONG8, RATIONAL, SHORT, SLONG8, SRATIONAL};

pub const ORIGIN: u16 = 50719;
pub const SIZE: u16 = 50720;

/// Both tags, or one of them with what is legal beside the other's default, or
/// none.
pub fn choose(random: &mut Random, dng: &mut Dng, [columns, rows]: [u32; 2]) {
    let [left, right] = random.stretch(columns);
    let [top, bottom] = random.stretch(rows);
    let size = pair(random, SIZE, [right - left, bottom - top]);
    let tags = match random.index(10) {
        0 | 1 => vec![],
        2 => vec![pair(random, ORIGIN, [0, 0])],
        3 => vec![size],
        4 => vec![pair(random, SIZE, [columns, rows])],
        _ => vec![pair(random, ORIGIN, [left, top]), size],
    };
    for tag in tags {
        dng.raw_ifd().set(tag);
    }
}

/// One of the tags where it is not read, in IFD 0 above the raw IFD.
pub fn choose_unread(random: &mut Random, dng: &mut Dng) {
    if dng.raw != 0 && random.one_in(6) {
        let tag = random.pick(&[ORIGIN, SIZE]);
        let values = [random.small(0, 3), random.small(0, 3)];
        let tag = if random.one_in(2) { pair(random, tag, values) } else { faulty(random, tag) };
        dng.first_ifd().set(tag);
    }
}

/// Two whole numbers as SHORT, as LONG, which a layout may widen, or as RATIONAL.
fn pair(random: &mut Random, tag: u16, values: [u32; 2]) -> Tag {
    let longs = Tag::longs(tag, &values);
    match random.index(3) {
        0 => longs.shortened(),
        1 => longs,
        _ => Tag::rationals(tag, &values.map(|value| fraction(random, value))),
    }
}

/// A number as numerator and denominator; 0 has any denominator.
fn fraction(random: &mut Random, value: u32) -> (u32, u32) {
    let denominators = [1, 1, 2, 3, 7, 256, 100_000, u32::MAX];
    let denominator = random.pick(&denominators);
    match value.checked_mul(denominator) {
        Some(numerator) => (numerator, denominator),
        None => (value, 1),
    }
}

/// One of the two tags with another type or count, or with fractions that are
/// refused, or next to these.
pub fn faulty(random: &mut Random, tag: u16) -> Tag {
    let fractions = [(7, 0), (0, 0), (5, 2), (1, 2), (1, u32::MAX), (u32::MAX, u32::MAX - 1)];
    let whole = [(0, 7), (1, 1), (4, 2), (u32::MAX, 1), (u32::MAX, u32::MAX)];
    match random.index(7) {
        0 => {
            let kinds = [0, 1, 2, 6, 7, 8, 9, SRATIONAL, 11, 12, IFD, 14, LONG8, SLONG8, 18, 19];
            Tag::of_type(tag, random.pick(&kinds), &[1, 1])
        }
        1 => {
            let count = random.pick(&[0, 1, 3]);
            Tag::of_type(tag, random.pick(&[SHORT, 4, RATIONAL]), &vec![1; count])
        }
        2 => Tag::rationals(tag, &[random.pick(&fractions), random.pick(&whole)]),
        3 => Tag::rationals(tag, &[random.pick(&whole), random.pick(&fractions)]),
        4 => Tag::rationals(tag, &[random.pick(&whole), random.pick(&whole)]),
        _ => Tag::rationals(tag, &[random.pick(&fractions), random.pick(&fractions)]),
    }
}

/// A crop that is empty or not inside, in one direction or in both; now and then
/// its sum is inside but for 2^32 or 2^64, or it is just inside.
pub fn outside(random: &mut Random, dng: &mut Dng, [columns, rows]: [u32; 2]) {
    let [mut across, mut down] = [columns, rows].map(|whole| random.stretch(whole).map(u64::from));
    if random.one_in(2) {
        across = astray(random, columns);
    } else {
        down = astray(random, rows);
    }
    let [[left, columns], [top, rows]] = [across, down].map(|[start, end]| [start, end.wrapping_sub(start)]);
    let [origin, size] =
        [(ORIGIN, [left, top]), (SIZE, [columns, rows])].map(|(tag, values)| wide(tag, values));
    let raw = dng.raw_ifd();
    raw.set(origin);
    if random.one_in(6) {
        raw.remove(SIZE);
    } else {
        raw.set(size);
    }
}

/// A start and an end, or what the end is but for 2^64, of a stretch that is not
/// inside, or only just.
fn astray(random: &mut Random, whole: u32) -> [u64; 2] {
    let whole = u64::from(whole);
    let start = random.any() % whole;
    random.pick(&[
        [start, start],
        [start, whole + 1],
        [0, whole + 1],
        [whole, whole + 1],
        [whole, whole],
        [start, whole],
        [start, whole],
        [u64::MAX, 0],
        [u64::MAX, 1],
        [1, 0],
        [start, start + (1 << 32)],
        [start + (1 << 32), whole + (1 << 32)],
        [1 << 63, 0],
    ])
}

/// As LONG where the numbers allow it, else as LONG8.
fn wide(tag: u16, values: [u64; 2]) -> Tag {
    match values.map(u32::try_from) {
        [Ok(first), Ok(second)] => Tag::longs(tag, &[first, second]).shortened(),
        _ => Tag::long8s(tag, &values),
    }
}
