//! One description in either layout.

use crate::builder::{Data, Dng, Tag};
use crate::bytes::{Widths, LAYOUTS};
use crate::random::Random;
use crate::tag_test::{IFD8, LONG8, SLONG8};

/// The types that only the 64-bit layout knows.
pub const WIDE_TYPES: [u16; 3] = [LONG8, SLONG8, IFD8];

pub fn lay_out_in_either(random: &mut Random, dng: &mut Dng) {
    let widths = random.pick(&LAYOUTS);
    lay_out(random, dng, widths);
}

/// Puts a description into a layout. In 64 bits none, some or all LONGs become
/// LONG8 and IFDs IFD8.
pub fn lay_out(random: &mut Random, dng: &mut Dng, widths: Widths) {
    dng.widths = widths;
    if widths == Widths::BITS_64 && !random.one_in(5) {
        let chances = random.pick(&[1, 2, 2, 4]);
        for tag in dng.ifds.iter_mut().flat_map(|ifd| &mut ifd.tags) {
            if random.one_in(chances) {
                *tag = tag.clone().widened();
            }
        }
    }
    if random.one_in(4) {
        let ifd = random.index(dng.ifds.len());
        dng.ifds[ifd].set(unread(random, widths));
    }
}

/// A tag that no call reads, of one of those types. In 32 bits it is unknown,
/// so its value has any place and any count.
fn unread(random: &mut Random, widths: Widths) -> Tag {
    let tag = random.pick(&[2, 272, 306, 40_000, 60_000]);
    let values = (0..random.index(4)).map(|_| random.any()).collect();
    let tag = Tag::new(tag, random.pick(&WIDE_TYPES), Data::Long8s(values));
    if widths == Widths::BITS_32 {
        tag.with_count(random.any()).with_field(random.any())
    } else {
        tag
    }
}
