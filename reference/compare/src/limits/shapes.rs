//! The shape of an IFD: refusal 3 by its end, its count of entries, the order
//! of its tags and the places of its values, in each layout by its widths.

use reference::builder::{Data, Dng, Ifd, Place, Tag};
use reference::bytes::{Widths, LAYOUTS};

use super::{
    both, check_file, far, in_orders, plain, Answer, DONE, HALF, LONG8_MAX, LONG_MAX, MOSAIC, ORDERS,
    PAST_LONG, SHAPE,
};
use crate::tally::Tally;

/// The types that each layout knows, and their sizes.
const SIZES: [u64; 13] = [1, 1, 2, 4, 8, 1, 1, 2, 4, 8, 4, 8, 4];
const WIDE: [(u16, u64); 3] = [(16, 8), (17, 8), (18, 8)];

/// Every case of a shape.
pub fn check(tally: &mut Tally) {
    for widths in LAYOUTS {
        ends_of_ifds(tally, widths);
        places_of_ifd_0(tally, widths);
        counts_of_entries(tally, widths);
        places_of_values(tally, widths);
    }
    wide_counts_of_entries(tally);
    order_of_entries(tally);
    every_tag(tally);
}

/// The greatest number of a word.
fn greatest(widths: Widths) -> u64 {
    if widths == Widths::BITS_64 {
        LONG8_MAX
    } else {
        LONG_MAX
    }
}

/// The last IFD ends with the file, or so many bytes past it: first those of
/// its next offset, then those of its last entry.
fn ends_of_ifds(tally: &mut Tally, widths: Widths) {
    for (depth, order) in [0, 1].into_iter().flat_map(|depth| ORDERS.map(|order| (depth, order))) {
        for next in [0, 8, LONG_MAX, HALF, LONG8_MAX] {
            let mut dng = Dng { order, widths, ..plain(MOSAIC).nested(depth) };
            dng.raw_ifd().next = next;
            let file = dng.file();
            for cut in 0..=30 {
                let answer = if cut == 0 { DONE } else { SHAPE };
                let label = format!("last IFD cut by {cut}, next {next}, {widths:?}");
                check_file(tally, &label, &file[..file.len() - cut], answer);
            }
        }
    }
}

/// IFD 0 outside the file or without entries.
fn places_of_ifd_0(tally: &mut Tally, widths: Widths) {
    for (depth, order) in [0, 1].into_iter().flat_map(|depth| ORDERS.map(|order| (depth, order))) {
        let dng = Dng { order, widths, ..plain(MOSAIC).nested(depth) };
        let layout = dng.layout();
        let (end, right) = (layout.file.len() as u64, layout.ifds[0] as u64);
        let max = greatest(widths);
        let mut places = vec![0, end - 1, end, end + 1, max - 7, max - 5, max - 1, max];
        if widths == Widths::BITS_64 {
            // The sum with the IFD's length is the file's but for 2^64 or 2^32.
            let length = end - right;
            places.extend([&far(right)[..], &[0u64.wrapping_sub(length), PAST_LONG + end - length]].concat());
        }
        for place in places {
            let dng = Dng { first: Place::At(place), ..dng.clone() };
            check_file(tally, &format!("IFD 0 at {place} of {end}, {widths:?}"), &dng.file(), SHAPE);
        }
        let empty = Dng { first: Place::At(end), ..dng.clone() }.file();
        check_file(tally, "IFD 0 without entries", &[&empty[..], &[0; 16]].concat(), SHAPE);
    }
}

/// A file whose raw IFD states so many entries, with so many bytes behind.
fn stating(dng: &Dng, count: u64, next: u64, tail: usize) -> Dng {
    let mut dng = Dng { tail, ..dng.clone() };
    dng.raw_ifd().count = Some(count);
    dng.raw_ifd().next = next;
    dng
}

/// The count of entries in IFD 0 and in its child.
fn counts_of_entries(tally: &mut Tally, widths: Widths) {
    for (depth, first, last) in [(0, 50706, 50706), (1, 256, 279)] {
        let dng = Dng { widths, ..plain(MOSAIC).nested(depth) };
        let count = dng.ifds[depth].tags.len() as u64;
        let mut case = |stated, next, tail, answer| {
            let label = format!("{stated} entries of {count}, {tail} bytes after");
            in_orders(tally, &label, &stating(&dng, stated, next, tail), answer);
        };
        case(0, 0, 0, SHAPE);
        case(1, 0, 0, (5, first));
        case(count - 1, 0, 0, (5, last));
        case(count, LONG8_MAX, 0, DONE);
        case(count + 1, 0, 0, SHAPE);
        case(65_535, 0, 0, SHAPE);
        // The next offset and what follows, as one more entry of unknown type.
        let entry = widths.entry() as usize;
        case(count + 1, LONG8_MAX, entry - 1, SHAPE);
        case(count + 1, LONG8_MAX, entry, DONE);
    }
}

/// Counts of 8 bytes whose lower bytes, or whose product with 20, would be
/// right or small; also where the file goes on behind the IFD.
fn wide_counts_of_entries(tally: &mut Tally) {
    for depth in [0, 1] {
        let dng = plain(MOSAIC).nested(depth).in_64_bits();
        let count = dng.ifds[depth].tags.len() as u64;
        let twentieth = LONG8_MAX / 20;
        let wrapping = [twentieth - 1, twentieth, twentieth + 1, twentieth + 2, (1 << 62) + count, 3 << 62];
        let lower = [256 + count, 65_536, 65_536 + count, (1 << 48) + count, (1 << 56) + count];
        for stated in [&far(count)[..], &wrapping, &lower].concat() {
            for tail in [0, 8, 5_000] {
                let label = format!("{stated} entries of {count}, {tail} bytes after");
                in_orders(tally, &label, &stating(&dng, stated, 0, tail), SHAPE);
            }
        }
    }
}

/// Equal and descending tags at every place of IFD 0 and of its child.
fn order_of_entries(tally: &mut Tally) {
    for (depth, ifd) in [(0, 0), (1, 0), (1, 1)] {
        let mut dng = plain(MOSAIC).with(Tag::bytes(0, &[])).with(Tag::bytes(65_535, &[])).nested(depth);
        both(tally, "tags 0 to 65535", &dng, DONE);
        let mut tags = std::mem::take(&mut dng.ifds[ifd].tags);
        tags.sort_by_key(|tag| tag.tag);
        for place in 1..tags.len() {
            let mut equal = tags.clone();
            equal.insert(place, tags[place].clone());
            let mut unknown = equal.clone();
            unknown[place].kind = 14;
            let mut swapped = tags.clone();
            swapped.swap(place - 1, place);
            for (label, tags) in
                [("equal", equal), ("equal, one of type 14", unknown), ("descending", swapped)]
            {
                let mut dng = dng.clone();
                dng.ifds[ifd] = Ifd { tags, as_listed: true, ..Ifd::default() };
                both(tally, &format!("{label} at {place} of IFD {ifd}"), &dng, SHAPE);
            }
        }
    }
}

/// The place of a value that is not read: by type, both sides of the entry's
/// last word and of the file's end.
fn places_of_values(tally: &mut Tally, widths: Widths) {
    let mut case = |kind: u16, count: u64, place: u64, answer| {
        for tag in [1, 60_000] {
            let value = Tag::new(tag, kind, Data::Bytes(vec![])).with_count(count).with_field(place);
            let dng = Dng { widths, ..plain(MOSAIC).with(value) };
            in_orders(tally, &format!("{tag}, type {kind}, {count} at {place}"), &dng, answer);
        }
    };
    let end = Dng { widths, ..plain(MOSAIC).with(Tag::bytes(1, &[])) }.file().len() as u64;
    let max = greatest(widths);
    let (known, unknown): (&[(u16, u64)], &[u16]) =
        if widths == Widths::BITS_64 { (&WIDE, &[]) } else { (&[], &[16, 17, 18]) };
    for (kind, size) in (1..).zip(SIZES).chain(known.iter().copied()) {
        let count = widths.word / size + 1;
        let length = size * count;
        case(kind, 0, max, DONE);
        case(kind, count - 1, max, DONE);
        case(kind, count, end - length, DONE);
        for place in [end - length + 1, end, max - length + 1, max] {
            case(kind, count, place, SHAPE);
        }
        case(kind, end / size, end % size, DONE);
        for count in [end / size + 1, (max / size).saturating_add(1), (max / size).saturating_add(2), max] {
            case(kind, count.min(max), 0, SHAPE);
        }
        if widths == Widths::BITS_64 {
            wide_places(kind, size, end, &mut case);
        }
    }
    for kind in [0, 14, 15, 19, 256, 256 + 16, 65_535].iter().chain(unknown) {
        case(*kind, max, max, DONE);
        case(*kind, 1, max, DONE);
    }
}

/// Places and counts of 8 bytes that would be inside but for 2^32 or 2^64.
fn wide_places(kind: u16, size: u64, end: u64, case: &mut impl FnMut(u16, u64, u64, Answer)) {
    let count = 8 / size + 1;
    let length = size * count;
    for place in far(end - length).into_iter().chain([0u64.wrapping_sub(length), LONG8_MAX - 7]) {
        case(kind, count, place, SHAPE);
        case(kind, count - 1, place, DONE);
    }
    let eighth = 1u64 << 61;
    let wrapping = [eighth, eighth + 1, 2 * eighth, 2 * eighth + 1, 4 * eighth + 1, 7 * eighth + 1];
    for count in [&far(1)[..], &wrapping, &[PAST_LONG / size, PAST_LONG / size + 1, HALF / size]].concat() {
        case(kind, count, 16, SHAPE);
        case(kind, count, 0u64.wrapping_sub(size.wrapping_mul(count)), SHAPE);
    }
}

/// The file with all tags but some in one IFD, and perhaps one more. Those that
/// it had not are of unknown types.
fn crowded(mut dng: Dng, ifd: usize, but: &[u16], more: Option<u16>) -> Dng {
    let own = std::mem::take(&mut dng.ifds[ifd].tags);
    let strange = |tag: u16| Tag::new(tag, [0, 14, 15, 19][usize::from(tag % 4)], Data::Bytes(vec![1; 3]));
    let of = |tag| own.iter().find(|t| t.tag == tag).cloned().unwrap_or(strange(tag));
    let mut tags: Vec<Tag> = (0..=65_535).filter(|tag| !but.contains(tag)).map(of).collect();
    tags.extend(more.map(of));
    dng.ifds[ifd] = Ifd { tags, as_listed: true, ..Ifd::default() };
    dng
}

/// A 64-bit IFD can hold all 65,536 tags, and no more; a 32-bit one all but one.
fn every_tag(tally: &mut Tally) {
    let below = plain(MOSAIC).with(Tag::bytes(50707, &[1, 7, 1, 0])).nested(1);
    let full = super::tags::full(MOSAIC);
    let child = full.clone().nested(1);
    both(tally, "65,535 tags", &crowded(below.clone(), 0, &[65_535], None), DONE);
    for (label, dng, answer) in [
        ("all tags in IFD 0", crowded(below.clone(), 0, &[], None), DONE),
        ("one entry more", crowded(below.clone(), 0, &[], Some(65_535)), SHAPE),
        ("65,536 entries, two equal", crowded(below, 0, &[7], Some(65_535)), SHAPE),
        ("all tags in the raw IFD", crowded(full.clone(), 0, &[], None), (8, 51008)),
        ("all that it may hold", crowded(full, 0, &[51008, 51022], None), DONE),
        ("all of a child", crowded(child.clone(), 1, &[51008, 51022], None), DONE),
        ("all of a child and one more", crowded(child, 1, &[], Some(0)), SHAPE),
    ] {
        in_orders(tally, label, &dng.in_64_bits(), answer);
    }
}
