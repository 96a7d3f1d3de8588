//! 8-bit mosaics with windows of many samples to a black cell, for table windows:
//! repeats of every size, active corners that are no multiple of the repeat, strips
//! apart and overlapping, linearization tables short and long, opcodes, and now and
//! then a tag of deltas, which takes the tables away.

use crate::builder::{Picture, Tag};
use crate::random::Random;

use super::draft::Draft;
use super::{layouts, levels};

/// Every active area has more than so many samples: the calls then go sample by
/// sample, and small windows cost little.
const SAMPLES: u32 = 1 << 16;

pub fn draft(random: &mut Random) -> Draft {
    let [rows, columns] = sides(random);
    let [top, left] = [(); 2].map(|()| random.pick(&[0, 1, 2, 3, 5, 7, 9]));
    let [below, beside] = [(); 2].map(|()| random.small(0, 3));
    let mut draft = Draft::of_mosaic(random, left + columns + beside, top + rows + below);
    if draft.dng.blocks.len() > 1 && random.one_in(4) {
        draft.overlap_strips(random);
    }
    draft.choose_optional_tags(random);
    draft.set_active_area(random, [top, top + rows], [left, left + columns]);
    choose_table(random, &mut draft);
    let frame = draft.frame();
    draft.greatest_black = levels::choose_for_tables(random, &mut draft.dng, frame);
    draft.finish(random);
    layouts::lay_out_in_either(random, &mut draft.dng);
    draft
}

/// Nearly a square, wide or high.
fn sides(random: &mut Random) -> [u32; 2] {
    let one = if random.one_in(2) { random.small(200, 330) } else { random.small(9, 60) };
    let other = SAMPLES / one + random.small(1, 20);
    if random.one_in(2) {
        [one, other]
    } else {
        [other, one]
    }
}

impl Draft {
    /// Any byte at any place.
    fn of_mosaic(random: &mut Random, width: u32, length: u32) -> Draft {
        let stored = random.bytes((width * length) as usize).into_iter().map(u16::from).collect();
        let rows_per_strip = random.pick(&[u32::MAX, length, 1, 8, 17, 64]);
        Draft::of(random, Picture { width, length, samples: 1, bits: 8, rows_per_strip, stored })
    }
}

/// Shorter than the 256 samples, as long, longer, or none.
fn choose_table(random: &mut Random, draft: &mut Draft) {
    let length = match random.index(12) {
        0 => random.index(8) + 1,
        1 => random.index(255) + 1,
        2 => random.pick(&[255, 256, 257]),
        3 => random.pick(&[300, 65_536]),
        _ => return,
    };
    // As a rule of as many bits as the samples have, so that few values clip.
    let mask = random.pick(&[0xFF, 0xFF, 0xFFFF]);
    let entries: Vec<u16> = (0..length).map(|_| random.any() as u16 & mask).collect();
    draft.dng.raw_ifd().set(Tag::shorts(50712, &entries));
}
