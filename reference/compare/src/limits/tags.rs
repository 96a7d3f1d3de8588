//! The tags of document 01: types, counts, values, and the order of test.

use reference::builder::{Data, Dng, Picture, Tag};
use reference::bytes::{ByteOrder, Widths};
use reference::tag_test::{BYTE, LONG, LONG8, RATIONAL, SHORT, SLONG8, SRATIONAL, UNDEFINED};

use super::{
    answer, at_depths, both, entry, every_type_in_layouts, everywhere, in_orders, plain, takes, Answer, DONE,
    LINEAR, MAX, MOSAIC, SHAPE,
};
use crate::tally::Tally;

const WHOLE: &[u16] = &[SHORT, LONG];
const WHOLE_OR_RATIONAL: &[u16] = &[SHORT, LONG, RATIONAL];

/// A tag, its types, carried values in each base file, and the number that
/// answers its absence there.
pub type Rule = (u16, &'static [u16], [&'static [u32]; 2], [u32; 2]);

/// In order of test.
pub const RULES: [Rule; 26] = [
    (50706, &[BYTE], [&[1, 7, 1, 0]; 2], [5; 2]),
    (50707, &[BYTE], [&[1, 7, 1, 0]; 2], [0; 2]),
    (254, &[LONG], [&[0]; 2], [0; 2]),
    (256, WHOLE, [&[3]; 2], [5; 2]),
    (257, WHOLE, [&[2]; 2], [5; 2]),
    (262, &[SHORT], [&[32_803], &[34_892]], [5; 2]),
    (277, &[SHORT], [&[1], &[3]], [0, 8]),
    (258, &[SHORT], [&[8], &[16; 3]], [5; 2]),
    (259, &[SHORT], [&[1]; 2], [0; 2]),
    (284, &[SHORT], [&[1]; 2], [0; 2]),
    (339, &[SHORT], [&[1], &[1; 3]], [0; 2]),
    (50975, WHOLE, [&[1]; 2], [0; 2]),
    (52547, WHOLE, [&[1]; 2], [0; 2]),
    (278, WHOLE, [&[2]; 2], [0; 2]),
    (273, WHOLE, [&[8]; 2], [5; 2]),
    (279, WHOLE, [&[6], &[36]], [5; 2]),
    (50829, WHOLE, [&[0, 0, 2, 3]; 2], [0; 2]),
    (50712, &[SHORT], [&[7]; 2], [0; 2]),
    (50713, &[SHORT], [&[1, 1]; 2], [0; 2]),
    (50714, WHOLE_OR_RATIONAL, [&[0], &[0; 3]], [0; 2]),
    (50715, &[SRATIONAL], [&[0; 3]; 2], [0; 2]),
    (50716, &[SRATIONAL], [&[0; 2]; 2], [0; 2]),
    (50717, WHOLE, [&[255], &[65_535; 3]], [0; 2]),
    (50719, WHOLE_OR_RATIONAL, [&[0, 0]; 2], [0; 2]),
    (50720, WHOLE_OR_RATIONAL, [&[3, 2]; 2], [0; 2]),
    (51009, &[UNDEFINED], [&[0; 4]; 2], [0; 2]),
];

/// Not carried if present with any type; tested before 51009.
const FORBIDDEN: [u16; 2] = [51008, 51022];

/// Tags of one value, their type, and values in the mosaic: carried, illegal
/// (4), legal but not carried (8).
type Single = (&'static [u16], u16, [&'static [u32]; 3]);

const SINGLE: &[Single] = &[
    (&[256, 257], SHORT, [&[], &[0], &[16_385, 65_535]]),
    (&[256, 257], LONG, [&[], &[0], &[16_385, 65_536, 65_539, MAX]]),
    (&[262], SHORT, [&[32_803], &[], &[0, 32_802, 32_804, 34_891, 34_893, 65_535]]),
    (&[277], SHORT, [&[1], &[], &[0, 2, 3, 65_535]]),
    (&[258], SHORT, [&[8], &[], &[0, 7, 9, 10, 12, 14, 15, 17, 32, 65_535]]),
    (&[259, 284, 339], SHORT, [&[1], &[], &[0, 2, 65_535]]),
    (&[50975, 52547], SHORT, [&[1], &[0], &[2, 65_535]]),
    (&[50975, 52547], LONG, [&[1], &[0], &[2, 65_536, 65_537, MAX]]),
    (&[278], SHORT, [&[2, 3, 65_535], &[0], &[]]),
    (&[278], LONG, [&[2, 3, 65_536, MAX - 1, MAX], &[0], &[]]),
    (&[279], SHORT, [&[6], &[0, 5, 7, 65_535], &[]]),
    (&[279], LONG, [&[6], &[0, 5, 7, 65_542, MAX], &[]]),
    (&[50712], SHORT, [&[0, 1, 65_535], &[], &[]]),
    (&[50714], SHORT, [&[0, 1, 254], &[], &[]]),
    (&[50714], LONG, [&[0, 1, 254], &[], &[65_536, MAX]]),
    (&[50717], SHORT, [&[1, 65_534, 65_535], &[], &[]]),
    (&[50717], LONG, [&[1, 65_534, 65_535], &[], &[65_536, 65_537, MAX]]),
];

/// A base file, a tag with its type, and lists of values with one number.
type Several = (usize, u16, u16, &'static [&'static [u32]], u32);

const SEVERAL: &[Several] = &[
    (MOSAIC, 50707, BYTE, &[&[1, 7, 1, 0], &[1, 7, 0, 255], &[1, 6, 255, 255], &[0, 255, 255, 255]], 0),
    (MOSAIC, 50707, BYTE, &[&[1, 7, 1, 1], &[1, 7, 2, 0], &[1, 8, 0, 0], &[2, 0, 0, 0], &[255; 4]], 7),
    (MOSAIC, 50706, BYTE, &[&[1, 7, 1, 1], &[1, 7, 255, 255], &[1, 6, 255, 255], &[0, 255, 0, 0]], 0),
    (MOSAIC, 50706, BYTE, &[&[1, 8, 0, 0], &[2, 0, 0, 0], &[255; 4]], 7),
    (MOSAIC, 254, LONG, &[&[1], &[2], &[65_536], &[1 << 24], &[MAX]], 6),
    (LINEAR, 262, SHORT, &[&[34_891], &[34_893]], 8),
    (LINEAR, 277, SHORT, &[&[0], &[1], &[2], &[4]], 8),
    (LINEAR, 258, SHORT, &[&[8, 16, 16], &[16, 8, 16], &[16, 16, 8], &[16, 16, 17], &[15; 3]], 8),
    (LINEAR, 339, SHORT, &[&[2, 1, 1], &[1, 2, 1], &[1, 1, 2], &[1, 1, 0]], 8),
    (LINEAR, 279, LONG, &[&[0], &[18], &[35], &[37]], 4),
    (MOSAIC, 50829, LONG, &[&[0, 0, 1, 3], &[1, 0, 2, 3], &[0, 0, 2, 1], &[0, 2, 2, 3], &[1, 2, 2, 3]], 0),
    (MOSAIC, 50829, LONG, &[&[0, 0, 3, 3], &[0, 0, 2, 4], &[2, 0, 2, 3], &[0, 3, 2, 3], &[2, 0, 1, 3]], 4),
    (MOSAIC, 50829, LONG, &[&[0, 0, 0, 3], &[0, 0, 2, 0], &[0, 3, 2, 2], &[0, 0, MAX, 3]], 4),
    (MOSAIC, 50829, LONG, &[&[0, 0, 65_538, 3], &[0, 0, 2, 65_539], &[MAX, 0, 2, 3], &[0, MAX, 2, 3]], 4),
    (MOSAIC, 50829, SHORT, &[&[0, 0, 3, 3], &[0, 0, 2, 4], &[2, 0, 2, 3], &[0, 3, 2, 3]], 4),
    (MOSAIC, 50713, SHORT, &[&[2, 1], &[1, 2], &[7, 8], &[8, 7], &[8, 8]], 0),
    (MOSAIC, 50713, SHORT, &[&[0, 1], &[1, 0], &[0, 9], &[0, 0], &[8, 0]], 4),
    (MOSAIC, 50713, SHORT, &[&[9, 1], &[1, 9], &[9, 0], &[8, 9], &[9, 8], &[65_535, 1]], 8),
    (MOSAIC, 50714, SHORT, &[&[255], &[256], &[65_535]], 9),
    (MOSAIC, 50714, LONG, &[&[255], &[256], &[65_535]], 9),
    (LINEAR, 50714, LONG, &[&[65_534; 3]], 0),
    (LINEAR, 50714, LONG, &[&[65_535, 0, 0], &[0, 65_535, 0], &[0, 0, 65_535]], 9),
    (MOSAIC, 50717, SHORT, &[&[0]], 9),
    (LINEAR, 50717, LONG, &[&[65_536, 1, 1], &[1, 65_536, 1], &[1, 1, 65_536], &[0, 0, 65_536]], 8),
    (LINEAR, 50717, LONG, &[&[0, 1, 1], &[1, 0, 1], &[1, 1, 0]], 9),
];

const CARRIED_DENOMINATORS: [i64; 9] = [1, 2, 4, 8, 16, 32, 64, 128, 256];
const OTHER_DENOMINATORS: [i64; 21] =
    [3, 5, 6, 7, 9, 15, 17, 31, 33, 63, 65, 127, 129, 255, 257, 512, 65_536, -1, -2, -4, -256];
/// The ends of signed and unsigned numbers of 32 bits.
const ENDS: [i64; 4] = [-1 << 31, (1 << 31) - 1, 1 << 31, (1 << 32) - 1];

/// Every case of a tag.
pub fn check(tally: &mut Tally) {
    types_and_counts(tally);
    values(tally);
    sides(tally);
    strips(tally);
    counts_of_strips(tally);
    counts_of_levels(tally);
    fractions(tally);
    order_of_tests(tally);
}

/// A base file with every tag.
pub fn full(base: usize) -> Dng {
    RULES.iter().fold(plain(base), |dng, rule| dng.with(entry(rule.0, rule.1[0], rule.2[base])))
}

/// Wherever the layout knows the type.
fn where_known(tally: &mut Tally, label: &str, dng: &Dng, kind: u16, answer: Answer) {
    if kind == LONG8 {
        at_depths(tally, label, &dng.clone().in_64_bits(), answer);
    } else {
        everywhere(tally, label, dng, answer);
    }
}

/// Every type of every tag in each layout, its count one less and one more,
/// and its absence.
fn types_and_counts(tally: &mut Tally) {
    for (i, base) in (0..RULES.len()).flat_map(|i| [(i, MOSAIC), (i, LINEAR)]) {
        let (tag, kinds, values, absent) = RULES[i];
        let values = values[base];
        everywhere(tally, &format!("{tag} absent"), &full(base).without(tag), answer(absent[base], tag));
        let one_more = match tag {
            50712 => 0,
            51009 => 10,
            _ => 4,
        };
        let longer = [values, &values[..1]].concat();
        for (widths, kind) in every_type_in_layouts() {
            let mut case = |values: &[u32], number| {
                let label = format!("{tag} type {kind}, {} values, base {base}", values.len());
                let dng = Dng { widths, ..full(base).with(entry(tag, kind, values)) };
                at_depths(tally, &label, &dng, answer(number, tag));
            };
            if takes(widths, kinds, kind) {
                case(values, 0);
                case(&[], 4);
                case(&values[1..], 4);
                case(&longer, one_more);
            } else {
                case(values, 4);
            }
        }
    }
    for (tag, (widths, kind)) in
        FORBIDDEN.into_iter().flat_map(|tag| every_type_in_layouts().map(move |of_type| (tag, of_type)))
    {
        for count in [0, 1, 4] {
            let dng = Dng { widths, ..full(MOSAIC).with(entry(tag, kind, &vec![0; count])) };
            at_depths(tally, &format!("{tag} type {kind}, {count} values"), &dng, (8, tag.into()));
        }
    }
}

/// A LONG counts as a LONG8 too.
fn values(tally: &mut Tally) {
    let mut case = |base, tag, kind, values: &[u32], number| {
        for kind in if kind == LONG { vec![LONG, LONG8] } else { vec![kind] } {
            let dng = plain(base).with(entry(tag, kind, values));
            let label = format!("{tag} = {values:?}, type {kind}, base {base}");
            where_known(tally, &label, &dng, kind, answer(number, tag));
        }
    };
    for (tags, kind, lists) in SINGLE {
        for (values, number) in lists.iter().zip([0, 4, 8]) {
            for (tag, value) in tags.iter().flat_map(|tag| values.iter().map(move |value| (tag, value))) {
                case(MOSAIC, *tag, *kind, &[*value], number);
            }
        }
    }
    for (base, tag, kind, lists, number) in SEVERAL {
        lists.iter().for_each(|values| case(*base, *tag, *kind, values, *number));
    }
}

/// Width, length and both at their greatest; the linearization table's count.
fn sides(tally: &mut Tally) {
    for (size, number) in [(1, 0), (2, 0), (16_383, 0), (16_384, 0), (16_385, 8)] {
        for (tag, width, length, rows) in [(256, size, 1, 1), (257, 1, size, size), (257, 1, size, 1)] {
            let picture = Picture { rows_per_strip: rows, ..Picture::counting(width, length, 1, 8) };
            let dng = Dng::new(ByteOrder::Little, &picture);
            let label = format!("{width} by {length}, {rows} rows per strip");
            both(tally, &label, &dng, answer(number, tag));
            both(tally, &label, &dng.with(entry(tag, SHORT, &[size])), answer(number, tag));
        }
    }
    let mut greatest = plain(LINEAR).with(Tag::longs(256, &[16_384])).with(Tag::longs(257, &[16_384]));
    greatest.blocks[0].resize(98_304, 0);
    for (rows, byte_count, answer) in [
        (1, 98_304, DONE),
        (16_384, 1_610_612_735, (4, 279)),
        (16_384, 1_610_612_736, (4, 273)),
        (16_384, 1_610_612_737, (4, 279)),
    ] {
        let count = 16_384 / rows as usize;
        let dng = greatest.clone().with(Tag::longs(278, &[rows])).with(Tag::longs(273, &vec![8; count]));
        let dng = dng.with(Tag::longs(279, &vec![byte_count; count]));
        both(tally, &format!("greatest frame, strips of {byte_count} bytes"), &dng, answer);
    }
    for (count, answer) in
        (1..=6).map(|count| (count, DONE)).chain([(65_535, DONE), (65_536, DONE), (65_537, (4, 50712))])
    {
        let entries: Vec<u16> = (0..count).map(|i| (41 * i % 251) as u16).collect();
        both(tally, &format!("table of {count}"), &plain(MOSAIC).with(Tag::shorts(50712, &entries)), answer);
    }
}

/// Five rows of three bytes in strips of two rows: strip by strip, both sides
/// of its byte count and of the file's end.
fn strips(tally: &mut Tally) {
    let picture = Picture { rows_per_strip: 2, ..Picture::counting(3, 5, 1, 8) };
    let of_layouts = [(Widths::BITS_32, LONG), (Widths::BITS_64, LONG), (Widths::BITS_64, LONG8)];
    for (depth, (widths, kind)) in [0, 1].into_iter().flat_map(|depth| of_layouts.map(|of| (depth, of))) {
        let dng = Dng { widths, ..Dng::new(ByteOrder::Little, &picture).nested(depth) };
        let (places, byte_counts) = ([8, 14, 20], [6, 6, 3]);
        let of = |places: &[u32], byte_counts: &[u32]| {
            dng.clone().with(entry(273, kind, places)).with(entry(279, kind, byte_counts))
        };
        let end = of(&places, &byte_counts).file().len() as u32;
        let mut case = |places: [u32; 3], byte_counts: [u32; 3], number, tag| {
            let label = format!("strips at {places:?} of {byte_counts:?} bytes, end {end}, type {kind}");
            in_orders(tally, &label, &of(&places, &byte_counts), answer(number, tag));
        };
        for (strip, length) in byte_counts.into_iter().enumerate() {
            let (mut moved, mut counted) = (places, byte_counts);
            for place in [0, 1, end - length] {
                moved[strip] = place;
                case(moved, byte_counts, 0, 273);
            }
            for place in [end - length + 1, end, MAX - length + 1, MAX] {
                moved[strip] = place;
                case(moved, byte_counts, 4, 273);
                case(moved, [6, 6, 4], 4, [273, 273, 279][strip]);
            }
            for byte_count in [0, length - 1, length + 1, length + 65_536, MAX] {
                counted[strip] = byte_count;
                case(places, counted, 4, 279);
                case([MAX, 14, 20], counted, 4, [279, 273, 273][strip]);
            }
        }
        case([8; 3], byte_counts, 0, 273);
        case(places, [6; 3], 4, 279);
    }
}

/// The counts of black levels by the repeat, of deltas by the active area.
fn counts_of_levels(tally: &mut Tally) {
    let mut case = |dng: &Dng, tag, kind, count: usize| {
        for (count, number) in [(count - 1, 4), (count, 0), (count + 1, 4)] {
            let dng = dng.clone().with(entry(tag, kind, &vec![3; count]));
            let label = format!("{count} values of {tag}, type {kind}");
            where_known(tally, &label, &dng, kind, answer(number, tag));
        }
    };
    for (base, repeat, count) in
        [(MOSAIC, [2, 3], 6), (MOSAIC, [8, 8], 64), (LINEAR, [2, 1], 6), (LINEAR, [8, 8], 192)]
    {
        let dng = plain(base).with(Tag::shorts(50713, &repeat));
        [SHORT, LONG, LONG8, RATIONAL].into_iter().for_each(|kind| case(&dng, 50714, kind, count));
    }
    for (area, rows, columns) in [([0, 0, 2, 3], 2, 3), ([1, 0, 2, 2], 1, 2), ([0, 2, 1, 3], 1, 1)] {
        let dng = plain(LINEAR).with(Tag::longs(50829, &area));
        case(&dng, 50715, SRATIONAL, columns);
        case(&dng, 50716, SRATIONAL, rows);
    }
}

/// The count of strips of five rows, by rows per strip.
fn counts_of_strips(tally: &mut Tally) {
    for (rows, count) in [(1, 5), (2, 3), (3, 2), (4, 2), (5, 1), (6, 1), (MAX, 1)] {
        let picture = Picture { rows_per_strip: rows, ..Picture::counting(3, 5, 1, 8) };
        let dng = Dng::new(ByteOrder::Little, &picture);
        everywhere(tally, &format!("{rows} rows per strip"), &dng, DONE);
        for (tag, count) in [273, 279].into_iter().flat_map(|tag| [(tag, count - 1), (tag, count + 1)]) {
            let dng = dng.clone().with(Tag::longs(tag, &vec![3; count]));
            everywhere(tally, &format!("{rows} rows per strip, {count} of {tag}"), &dng, (4, tag.into()));
        }
    }
}

/// Numerator, denominator and number.
fn fraction_rows() -> Vec<(i64, i64, u32)> {
    let mut rows: Vec<(i64, i64, u32)> = [0, 1, -1].into_iter().chain(ENDS).map(|n| (n, 0, 4)).collect();
    for d in CARRIED_DENOMINATORS {
        let greatest = 65_535 * d;
        rows.extend([0, 1, -1, greatest - 1, greatest, -greatest].map(|n| (n, d, 0)));
        rows.extend([greatest + 1, -greatest - 1].into_iter().chain(ENDS).map(|n| (n, d, 8)));
    }
    for d in OTHER_DENOMINATORS.into_iter().chain(ENDS) {
        rows.extend([(0, d, 8), (1, d, 8), (-1, d, 8)]);
    }
    rows
}

/// Each fraction as the first and as the last value of 50714, 50715, 50716;
/// another delta keeps the white level above it.
fn fractions(tally: &mut Tally) {
    let base = plain(MOSAIC).with(Tag::shorts(50717, &[65_535])).with(Tag::shorts(50713, &[1, 2]));
    for (tag, kind, count) in [(50714, RATIONAL, 2), (50715, SRATIONAL, 3), (50716, SRATIONAL, 2)] {
        let (other, others) = if tag == 50715 { (50716, 2) } else { (50715, 3) };
        let base = base.clone().with(Tag::srationals(other, &vec![(-1, 1); others]));
        let mut case = |first: (i64, i64), last: (i64, i64), number| {
            let mut values = vec![(0, 1); count];
            values[0] = (first.0 as u32, first.1 as u32);
            values[count - 1] = (last.0 as u32, last.1 as u32);
            let dng = base.clone().with(Tag::new(tag, kind, Data::Rationals(values)));
            everywhere(tally, &format!("{tag} = {first:?} .. {last:?}"), &dng, answer(number, tag));
        };
        let least = if kind == RATIONAL { 0 } else { i64::from(i32::MIN) };
        let stored = least..least + (1 << 32);
        for (n, d, number) in fraction_rows() {
            if stored.contains(&n) && stored.contains(&d) {
                case((n, d), (0, 1), number);
                case((0, 1), (n, d), number);
            }
        }
        case((1, 3), (1, 0), 8);
        case((1, 0), (1, 3), 4);
        case((65_536, 1), (1, 0), 8);
        case((1, 0), (65_536, 1), 4);
    }
}

/// Of two faults the first in order of test answers. The one type is unknown
/// in both layouts, the other in 32 bits, and no tag takes it in 64.
fn order_of_tests(tally: &mut Tally) {
    let tags = RULES.map(|rule| rule.0);
    let tags = [&tags[..tags.len() - 1], &FORBIDDEN, &[51009]].concat();
    for (i, kind) in (0..tags.len()).flat_map(|i| [(i, 14), (i, SLONG8)]) {
        let tag = tags[i];
        let dng = full(MOSAIC).with(entry(tag, kind, &[1]));
        let answer = answer(if FORBIDDEN.contains(&tag) { 8 } else { 4 }, tag);
        for later in &tags[i + 1..] {
            let dng = dng.clone().with(entry(*later, kind, &[1]));
            everywhere(tally, &format!("{tag} before {later}"), &dng, answer);
        }
        let dng = dng.with(Tag::shorts(50714, &[255]));
        if tag != 50714 {
            everywhere(tally, &format!("{tag} before refusal 9"), &dng, answer);
        }
    }
    order_around_the_tags(tally);
}

fn order_around_the_tags(tally: &mut Tally) {
    let black = full(MOSAIC).with(Tag::shorts(50714, &[255])).without(50717);
    let list = Tag::undefined(51009, &[255; 4]);
    everywhere(tally, "9 before the list, white by default", &black.with(list.clone()), (9, 0));
    everywhere(tally, "the list last", &full(MOSAIC).with(list), (11, 32));
    let version = |bytes: [u8; 4]| full(MOSAIC).with(Tag::bytes(50707, &bytes));
    both(tally, "50707 decides", &version([1, 4, 0, 0]).with(Tag::bytes(50706, &[255; 4])), DONE);
    both(tally, "50706 before 50707", &version([2, 0, 0, 0]).without(50706), (5, 50706));
    both(tally, "7 before 254", &version([2, 0, 0, 0]).with(entry(254, 14, &[0])), (7, 0));
    let mut dng = full(MOSAIC).nested(1).with_first(entry(330, 14, &[1])).with_first(entry(254, 14, &[1]));
    both(tally, "254 before 330", &dng, (4, 254));
    dng.first_ifd().count = Some(0);
    both(tally, "shape before tags", &dng, SHAPE);
}
