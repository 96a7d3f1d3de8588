//! The 64-bit layout's tags: LONG8 numbers up to 2^64 - 1, for which every limit
//! stays where it is for a LONG, and values that stand in their entries there.

use reference::builder::{Data, Dng, Tag};
use reference::bytes::Widths;
use reference::tag_test::{IFD8, LONG, LONG8, RATIONAL, SHORT, SLONG8, SRATIONAL};

use super::tags::{full, RULES};
use super::{
    answer, at_depths, check_file, each_way, entry, everywhere, far, in_orders, plain, Answer, DONE, HALF,
    LINEAR, LONG8_MAX, MOSAIC, PAST_LONG, SHAPE,
};
use crate::questions::window;
use crate::tally::Tally;

/// Tags of one value in the mosaic of 3 x 2, the right value, and the number
/// that answers one far off.
const FAR_OFF: [(u16, u64, u32); 7] =
    [(256, 3, 8), (257, 2, 8), (50975, 1, 8), (52547, 1, 8), (279, 6, 4), (273, 16, 4), (50717, 255, 8)];

/// Times 256, 65,535 or 65,536 some of these are nothing, little or negative but
/// for 2^64.
const WRAPPING_LEVELS: [u64; 8] = [
    1 << 48,
    1 << 55,
    1 << 56,
    (1 << 56) + 1,
    (1 << 56) + 255,
    3 << 56,
    (LONG8_MAX / 65_535) + 1,
    LONG8_MAX / 256,
];

/// Every case of the 64-bit layout's tags.
pub fn check(tally: &mut Tally) {
    single_values(tally);
    rows_per_strip(tally);
    strips(tally);
    active_areas(tally);
    levels(tally);
    counts(tally);
    unknown_types(tally);
    short_lists(tally);
    values_at_the_end(tally);
    wide_types_outside(tally);
    example_11(tally);
}

/// A base file in 64 bits with a tag of LONG8.
fn with_long8s(base: usize, tag: u16, values: &[u64]) -> Dng {
    plain(base).with(Tag::long8s(tag, values)).in_64_bits()
}

fn single_values(tally: &mut Tally) {
    for (tag, right, number) in FAR_OFF {
        let mut case = |value, number| {
            let dng = with_long8s(MOSAIC, tag, &[value]);
            at_depths(tally, &format!("{tag} = {value} as LONG8"), &dng, answer(number, tag));
        };
        case(right, 0);
        far(right).into_iter().for_each(|value| case(value, number));
    }
}

/// 0 is illegal; from the length on there is one strip, and before it two.
fn rows_per_strip(tally: &mut Tally) {
    for (rows, tag, number) in [(0, 278, 4), (1, 273, 4), (2, 278, 0), (3, 278, 0)] {
        let dng = with_long8s(MOSAIC, 278, &[rows]);
        at_depths(tally, &format!("{rows} rows per strip"), &dng, answer(number, tag));
    }
    for (base, rows) in
        [MOSAIC, LINEAR].into_iter().flat_map(|base| far(2).into_iter().map(move |n| (base, n)))
    {
        let dng = with_long8s(base, 278, &[rows]);
        at_depths(tally, &format!("{rows} rows per strip, base {base}"), &dng, DONE);
    }
}

/// Two strips of one row: places and byte counts whose sum is in the file but
/// for 2^64, or which are right but for 2^32 or 2^63, alone and both wrong.
fn strips(tally: &mut Tally) {
    for (base, length) in [(MOSAIC, 3), (LINEAR, 18)] {
        let of = |places: [u64; 2], byte_counts: [u64; 2]| {
            let dng = plain(base).with(Tag::longs(278, &[1])).in_64_bits();
            dng.with(Tag::long8s(273, &places)).with(Tag::long8s(279, &byte_counts))
        };
        let end = of([16; 2], [length; 2]).file().len() as u64;
        let mut case = |places: [u64; 2], byte_counts: [u64; 2], number, tag| {
            let label = format!("strips at {places:?} of {byte_counts:?} bytes, end {end}");
            in_orders(tally, &label, &of(places, byte_counts), answer(number, tag));
        };
        let last = end - length;
        case([last, 0], [length; 2], 0, 273);
        let wrapping = [0u64.wrapping_sub(length), LONG8_MAX - length, PAST_LONG - length, last + 1];
        for place in far(last).into_iter().chain(wrapping) {
            case([place, 16], [length; 2], 4, 273);
            case([16, place], [length; 2], 4, 273);
            case([place, 16], [length, length + 1], 4, 273);
            case([place, 16], [length + 1, length], 4, 279);
        }
        for byte_count in far(length).into_iter().chain([length + (1 << 56), 0u64.wrapping_sub(16)]) {
            case([16; 2], [byte_count, length], 4, 279);
            case([16; 2], [length, byte_count], 4, 279);
            case([LONG8_MAX, 16], [byte_count, length], 4, 279);
            case([LONG8_MAX, 16], [length, byte_count], 4, 273);
        }
    }
}

/// Each side of the active area far off, alone and with the one opposite.
fn active_areas(tally: &mut Tally) {
    const WHOLE: [u64; 4] = [0, 0, 2, 3];
    let mut case = |area: [u64; 4], number| {
        let dng = with_long8s(MOSAIC, 50829, &area);
        at_depths(tally, &format!("active area {area:?}"), &dng, answer(number, 50829));
    };
    for area in [WHOLE, [1, 2, 2, 3], [0, 1, 1, 2]] {
        case(area, 0);
    }
    for (place, right) in WHOLE.into_iter().enumerate() {
        for value in far(right) {
            let mut area = WHOLE;
            area[place] = value;
            case(area, 4);
            area[(place + 2) % 4] = value.wrapping_add([1, 1, 0, 0][place]);
            case(area, 4);
        }
    }
}

/// Blacks and whites at 65,535 and far beyond, at each plane.
fn levels(tally: &mut Tally) {
    let mut case = |base, tag, values: &[u64], number| {
        let dng = with_long8s(base, tag, values);
        at_depths(tally, &format!("{tag} = {values:?} as LONG8"), &dng, answer(number, tag));
    };
    for (black, number) in
        [(0, 0), (1, 0), (254, 0), (255, 9), (256, 9), (65_535, 9), (65_536, 8), (65_537, 8)]
    {
        case(MOSAIC, 50714, &[black], number);
    }
    for (white, number) in [(0, 9), (1, 0), (255, 0), (65_535, 0), (65_536, 8), (65_537, 8)] {
        case(MOSAIC, 50717, &[white], number);
    }
    for (plane, tag) in (0..3).flat_map(|plane| [(plane, 50714), (plane, 50717)]) {
        let mut values = if tag == 50714 { [0; 3] } else { [65_535; 3] };
        for (value, number) in [(65_534, 0), (65_535, if tag == 50714 { 9 } else { 0 }), (65_536, 8)] {
            values[plane] = value;
            case(LINEAR, tag, &values, number);
        }
        for value in far(0).into_iter().chain(WRAPPING_LEVELS) {
            values[plane] = value;
            case(LINEAR, tag, &values, 8);
            case(MOSAIC, tag, &[value], 8);
        }
    }
    mixed_levels(tally);
}

/// A black of LONG8 beside deltas: they count together, as with a SHORT.
fn mixed_levels(tally: &mut Tally) {
    for (black, delta, number) in [(254, 0, 0), (254, 1, 9), (256, -1, 9), (256, -2, 0), (65_535, -65_281, 0)]
    {
        for tag in [
            Tag::long8s(50714, &[black]),
            entry(50714, SHORT, &[black as u32]),
            entry(50714, RATIONAL, &[black as u32]),
        ] {
            let dng = plain(MOSAIC).with(tag).with(Tag::srationals(50715, &[(delta, 1); 3]));
            at_depths(tally, &format!("black {black}, delta {delta}"), &dng.in_64_bits(), (number, 0));
        }
    }
    for (white, number) in [(254, 9), (255, 9), (256, 0)] {
        let dng = with_long8s(MOSAIC, 50714, &[255]).with(Tag::long8s(50717, &[white]));
        at_depths(tally, &format!("black 255, white {white}"), &dng, (number, 0));
    }
}

/// Counts of 8 bytes that are right in their lower bytes, or whose bytes are
/// few but for 2^64: the value lies outside the file.
fn counts(tally: &mut Tally) {
    let of_colour: [(u16, u16, &[u32]); 2] = [(50964, SRATIONAL, &[1; 9]), (50728, RATIONAL, &[1; 3])];
    let tags = RULES.iter().map(|(tag, kinds, values, _)| (*tag, kinds[0], values[MOSAIC]));
    for (tag, kind, values) in tags.chain(of_colour) {
        let count = values.len() as u64;
        for shift in [16, 32, 48, 56, 61, 62, 63] {
            let wide = entry(tag, kind, values).with_count(count + (1 << shift));
            let dng = full(MOSAIC).with(wide).in_64_bits();
            at_depths(tally, &format!("{tag}, {count} values and 2^{shift}"), &dng, SHAPE);
        }
    }
}

/// An unknown type is passed over, whatever its count and its place, and is 4
/// where its tag is read.
fn unknown_types(tally: &mut Tally) {
    for (tag, count) in RULES.iter().flat_map(|rule| [1, PAST_LONG + 1, HALF, LONG8_MAX].map(|n| (rule.0, n)))
    {
        let strange = Tag::new(tag, 19, Data::Bytes(vec![])).with_count(count).with_field(LONG8_MAX);
        let dng = full(MOSAIC).with(strange).in_64_bits();
        at_depths(tally, &format!("{tag}, {count} of unknown type"), &dng, (4, tag.into()));
    }
}

/// Opcode lists of 4 to 9 bytes, which stand in their entries up to 4 bytes or
/// up to 8.
fn short_lists(tally: &mut Tally) {
    let lists: [(&[u8], Answer); 5] = [
        (&[0; 4], DONE),
        (&[0; 5], (10, 0)),
        (&[0, 0, 0, 33, 0, 0, 0, 0], (11, 32)),
        (&[0, 0, 0, 1, 0, 0, 0, 0], (10, 0)),
        (&[0, 0, 0, 33, 0, 0, 0, 0, 0], (11, 32)),
    ];
    for (bytes, answer) in lists {
        let dng = plain(MOSAIC).with(Tag::undefined(51009, bytes));
        everywhere(tally, &format!("list of {bytes:?}"), &dng, answer);
    }
}

/// Values that are read, in their entries or at the very end of the file: a
/// byte less, and the value or the next offset lies outside.
fn values_at_the_end(tally: &mut Tally) {
    let rows: [(u16, u16, &[u32]); 8] = [
        (50829, SHORT, &[0, 1, 2, 3]),
        (50829, LONG, &[0, 1, 2, 3]),
        (50829, LONG8, &[0, 1, 2, 3]),
        (50714, RATIONAL, &[1]),
        (50712, SHORT, &[9; 2]),
        (50712, SHORT, &[9; 3]),
        (50712, SHORT, &[9; 4]),
        (50712, SHORT, &[9; 5]),
    ];
    for (tag, kind, values) in rows {
        let dng = Dng { ifds_first: true, ..plain(MOSAIC) }.with(entry(tag, kind, values));
        for dng in each_way(&dng).filter(|dng| kind != LONG8 || dng.widths == Widths::BITS_64) {
            let file = dng.file();
            let label = format!("{tag}, type {kind}, {} values, {:?}", values.len(), dng.widths);
            check_file(tally, &label, &file, DONE);
            check_file(tally, &format!("{label}, a byte less"), &file[..file.len() - 1], SHAPE);
        }
    }
}

/// A value of a type that is known in 64 bits only, outside the file: there it
/// has no shape; in 32 bits it is passed over, and 4 where its tag is read.
fn wide_types_outside(tally: &mut Tally) {
    for (kind, (tag, ..)) in [LONG8, SLONG8, IFD8].into_iter().flat_map(|kind| RULES.map(|rule| (kind, rule)))
    {
        let outside = Tag::new(tag, kind, Data::Bytes(vec![])).with_count(2).with_field(LONG8_MAX - 15);
        let dng = full(MOSAIC).with(outside);
        at_depths(tally, &format!("{tag}, type {kind}, outside"), &dng, (4, tag.into()));
        at_depths(tally, &format!("{tag}, type {kind}, outside"), &dng.in_64_bits(), SHAPE);
    }
}

/// Board example 11 as two files of the 64-bit layout, one of them with LONG8.
fn example_11(tally: &mut Tally) {
    let narrow: &[u8] = include_bytes!("../../../tests/data/example-11-64");
    let wide: &[u8] = include_bytes!("../../../tests/data/example-11-64-long8");
    for file in [narrow, wide] {
        check_file(tally, "example 11", file, DONE);
        tally.ask_values("example 11", file, &window([0, 0, 1, 3], 3), &[0.0, 0.5, 1.0]);
    }
}
