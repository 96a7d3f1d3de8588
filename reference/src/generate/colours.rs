//! The colour tags of IFD 0, and the tags of a mosaic's pattern.

use crate::builder::{pattern_tags, Dng, Tag, PATTERN_TAGS};
use crate::random::Random;

/// One 0, two 1 and one 2.
const PATTERNS: [[u8; 4]; 12] = [
    [0, 1, 1, 2],
    [0, 1, 2, 1],
    [0, 2, 1, 1],
    [1, 0, 1, 2],
    [1, 0, 2, 1],
    [1, 1, 0, 2],
    [1, 1, 2, 0],
    [1, 2, 0, 1],
    [1, 2, 1, 0],
    [2, 0, 1, 1],
    [2, 1, 0, 1],
    [2, 1, 1, 0],
];

/// A forward matrix and a neutral, which one file of six has not; one of 32 has the
/// matrix alone.
pub fn choose(random: &mut Random, dng: &mut Dng) {
    if random.one_in(6) {
        return;
    }
    let matrix: Vec<(i32, i32)> = (0..9)
        .map(|_| {
            (random.between(-20_000, 20_000) as i32, random.pick(&[1, 3, 10_000, -7, i32::MIN, i32::MAX]))
        })
        .collect();
    dng.first_ifd().set(Tag::srationals(50964, &matrix));
    if random.one_in(32) {
        return;
    }
    let neutral: Vec<(u32, u32)> =
        (0..3).map(|_| (random.small(1, 1000), random.pick(&[1, 3, 1000, u32::MAX]))).collect();
    let shorts: Vec<u16> = neutral.iter().map(|(n, _)| *n as u16).collect();
    let tag = if random.one_in(4) { Tag::shorts(50728, &shorts) } else { Tag::rationals(50728, &neutral) };
    dng.first_ifd().set(tag);
}

/// The pattern of a mosaic, which one file of eight has not; one LinearRaw of
/// eight has one, and no call reads it.
pub fn choose_pattern(random: &mut Random, dng: &mut Dng, samples: u32) {
    let rare = random.one_in(8);
    let present = if samples == 1 { !rare } else { rare };
    if !present {
        return;
    }
    for tag in carried(random) {
        let required = [33421, 33422].contains(&tag.tag);
        if required || random.one_in(3) {
            dng.raw_ifd().set(tag);
        }
    }
}

/// One of these tags where it is not read, in IFD 0 above the raw IFD.
pub fn choose_unread(random: &mut Random, dng: &mut Dng) {
    if dng.raw != 0 && random.one_in(6) {
        let place = random.index(PATTERN_TAGS.len());
        let carried = carried(random)[place].clone();
        let other = Tag::bytes(carried.tag, &[1]);
        dng.first_ifd().set(if random.one_in(2) { carried } else { other });
    }
}

/// All tags of one of the twelve patterns.
pub fn carried(random: &mut Random) -> [Tag; 4] {
    pattern_tags(random.pick(&PATTERNS))
}
