//! The 64-bit layout: its header, its widths, its types, and numbers up to
//! 2^64 - 1.

mod common;

use common::*;
use reference::builder::{Area, Data, Dng, Ifd, Opcode, Picture, Place, Tag};
use reference::bytes::{ByteOrder, LAYOUTS};
use reference::cases::{answer_line, Call};
use reference::generate::generate_in_both_layouts;
use reference::tag_test::{IFD, IFD8, LONG, LONG8, SLONG8};
use reference::{card, listing};

const MAX: u64 = u64::MAX;
const PAST_LONG: u64 = 1 << 32;
const HALF: u64 = 1 << 63;

fn wide_mosaic() -> Dng {
    mosaic(3, 2).in_64_bits()
}

#[test]
fn a_64_bit_mark_needs_16_bytes() {
    for order in BOTH {
        let file = Dng { order, ..wide_mosaic() }.file();
        for length in 0..16 {
            assert_eq!(answer_to(&file[..length]), refusal(1, 0), "{length}");
        }
        assert_eq!(answer_to(&file[..16]), refusal(3, 0));
        assert_eq!(answer_to(&file), DONE);
    }
}

/// "under 8 bytes 1; over 67,108,864 bytes 1; the first four bytes are none of
/// four marks: 2; a 64-bit mark and under 16 bytes: 1; 8 or 0 wrong: 2"
#[test]
fn tests_1_and_2_take_turns() {
    let starts: [&[u8]; 4] =
        [b"II\x2B\0\x08\0\0\0", b"II\x2B\0\x09\0\0\0", b"II\x2C\0\x08\0\0\0", b"\0\0\0\0\0\0\0\0"];
    for (length, numbers) in [
        (7, [1, 1, 1, 1]),
        (8, [1, 1, 2, 2]),
        (15, [1, 1, 2, 2]),
        (16, [3, 2, 2, 2]),
        (67_108_864, [3, 2, 2, 2]),
        (67_108_865, [1, 1, 1, 1]),
    ] {
        for (start, number) in starts.into_iter().zip(numbers) {
            let mut file = vec![0xFF; length];
            let known = length.min(8);
            file[..known].copy_from_slice(&start[..known]);
            assert_eq!(answer_to(&file), refusal(number, 0), "{start:?} and {length} bytes");
        }
    }
}

#[test]
fn an_8_or_a_0_that_is_wrong_is_2_and_a_wrong_offset_3() {
    for order in BOTH {
        let file = Dng { order, ..wide_mosaic() }.file();
        for place in 4..8 {
            for byte in (0..=255).filter(|b| *b != file[place]) {
                assert_eq!(answer_to(&poked(&file, place, &[byte])), refusal(2, 0));
            }
        }
        let other = match order {
            ByteOrder::Little => [0, 8, 0, 0],
            ByteOrder::Big => [8, 0, 0, 0],
        };
        assert_eq!(answer_to(&poked(&file, 4, &other)), refusal(2, 0));
        for bit in 32..64 {
            let first = order.number(&file[8..16]) | 1 << bit;
            assert_eq!(answer_to(&poked(&file, 8, &order.spell(first, 8))), refusal(3, 0));
        }
    }
}

#[test]
fn the_layout_is_not_the_other_ones_under_its_mark() {
    for order in BOTH {
        for (widths, other) in [(LAYOUTS[0], LAYOUTS[1]), (LAYOUTS[1], LAYOUTS[0])] {
            let mark = Dng { order, widths: other, ..mosaic(3, 2) }.file()[..4].to_vec();
            let dng = Dng { order, widths, start: mark, ..mosaic(3, 2) };
            assert_ne!(answer(&dng), DONE);
        }
    }
}

const EXAMPLE_11: &str = "frame 1 3 1\n0000000000000000 3fe0000000000000 3ff0000000000000\n";

#[test]
fn example_11_from_files_of_the_64_bit_layout() {
    assert_eq!(listing(include_bytes!("data/example-11-64")), EXAMPLE_11);
    assert_eq!(listing(include_bytes!("data/example-11-64-long8")), EXAMPLE_11);
}

#[test]
fn example_11_from_either_layout() {
    let area = Area { left: 1, right: 2, ..Area::whole(1, 3, 1) };
    let dng = Dng::new(ByteOrder::Little, &Picture::row(8, &[16, 144, 255]))
        .with(Tag::longs(50714, &[16]))
        .with(Tag::longs(50717, &[255]))
        .with_opcodes(&[Opcode::map_polynomial(area, &[0.5])]);
    for order in BOTH {
        for widths in LAYOUTS {
            assert_eq!(listing(&Dng { order, widths, ..dng.clone() }.file()), EXAMPLE_11);
        }
        let mut wide = Dng { order, ..dng.clone() }.in_64_bits();
        wide.raw_ifd().tags.iter_mut().for_each(|tag| *tag = tag.clone().widened());
        assert_eq!(listing(&wide.file()), EXAMPLE_11);
        assert!(wide.raw_ifd().tags.iter().filter(|tag| tag.kind == LONG8).count() >= 7);
    }
}

/// Every call of one description answers the same from either layout.
#[test]
fn a_description_answers_the_same_from_either_layout() {
    for index in 0..1_500 {
        let [narrow, wide] = generate_in_both_layouts(64, index);
        assert!(narrow[..4].contains(&0x2A) && wide[..4].contains(&0x2B));
        let card = card(&narrow);
        assert_eq!(card.answer(), DONE, "{index}");
        let (height, width) = (card.rows, card.columns);
        let slice = (height * width * card.samples) as usize;
        let calls = [
            Call::Card,
            Call::Window { top: 0, left: 0, height, width, slice },
            Call::TableWindow { top: 0, left: 0, height, width, slice },
            Call::Spot { row: height - 1, column: width - 1, plane: card.samples - 1 },
            Call::ColourWindow { top: 0, left: 0, height, width, slice: (3 * height * width) as usize },
            Call::HalfWindow {
                top: 0,
                left: 0,
                height: height / 2,
                width: width / 2,
                slice: (3 * (height / 2) * (width / 2)) as usize,
            },
        ];
        for call in &calls {
            assert_eq!(answer_line(&narrow, call), answer_line(&wide, call), "{index}");
        }
    }
}

/// A tag that takes LONG, with values that change no answer.
fn tags_that_take_long() -> Vec<Tag> {
    vec![
        Tag::longs(254, &[0]),
        Tag::longs(256, &[3]),
        Tag::longs(257, &[2]),
        Tag::longs(50975, &[1]),
        Tag::longs(52547, &[1]),
        Tag::longs(278, &[2]),
        Tag::new(273, LONG, Data::LongPlaces(vec![Place::Block(0, 0)])),
        Tag::longs(279, &[6]),
        Tag::longs(50829, &[0, 0, 2, 3]),
        Tag::longs(50714, &[0]),
        Tag::longs(50717, &[255]),
        Tag::longs(50719, &[0, 0]),
        Tag::longs(50720, &[3, 2]),
    ]
}

#[test]
fn long8_is_accepted_wherever_long_is_in_64_bits_only() {
    let whole = frame(&mosaic(3, 2));
    for (order, tag) in
        BOTH.into_iter().flat_map(|order| tags_that_take_long().into_iter().map(move |t| (order, t)))
    {
        let number = tag.tag;
        let dng = Dng { order, ..mosaic(3, 2) };
        assert_eq!(frame(&dng.clone().with(tag.clone())), whole);
        assert_eq!(frame(&dng.clone().in_64_bits().with(tag.clone())), whole);
        let tag = tag.widened();
        assert_eq!(frame(&dng.clone().in_64_bits().with(tag.clone())), whole, "{number}");
        answers(&dng.clone().with(tag.clone()), refusal(4, number.into()));
        for kind in [SLONG8, IFD8] {
            refuses(&dng.clone().with(tag.clone().with_kind(kind)), 4, number.into());
        }
    }
}

/// The other tags take none of the three types in either layout.
#[test]
fn no_other_tag_takes_an_8_byte_type() {
    for tag in [50706u16, 50707, 262, 277, 258, 259, 284, 339, 50712, 50713, 50715, 50716, 51009] {
        for kind in [LONG8, SLONG8, IFD8] {
            let values = Data::Long8s(vec![1; 8]);
            refuses(&mosaic(3, 2).with(Tag::new(tag, kind, values)), 4, tag.into());
        }
    }
    let coloured = Dng { order: ByteOrder::Little, ..linear(3, 2) }
        .with_first(Tag::srationals(50964, &[(1, 1); 9]))
        .with_first(Tag::shorts(50728, &[1; 3]));
    for (tag, count) in [(50964u16, 9), (50728, 3)] {
        for (widths, kind) in LAYOUTS.into_iter().flat_map(|w| [LONG8, SLONG8, IFD8].map(|kind| (w, kind))) {
            let dng = coloured.clone().with_first(Tag::new(tag, kind, Data::Long8s(vec![1; count])));
            assert_eq!(colour_answer(&Dng { widths, ..dng }), refusal(4, tag.into()));
        }
    }
}

#[test]
fn sub_ifds_are_as_wide_as_their_type() {
    for order in BOTH {
        let mut dng = Dng { order, ..wide_mosaic().nested(2) };
        for (kind, wide, number) in
            [(LONG, false, 0), (IFD, false, 0), (LONG8, true, 0), (IFD8, true, 0), (SLONG8, true, 4)]
        {
            for (ifd, count) in [(0, 1), (1, 1), (0, 2), (1, 16)] {
                let places = vec![Place::Ifd(ifd + 1); count];
                let data = if wide { Data::Long8Places(places) } else { Data::LongPlaces(places) };
                dng.ifds[ifd].set(Tag::new(330, kind, data));
                answers(&dng, if number == 0 { DONE } else { refusal(4, 330) });
                dng.ifds[ifd].set(Tag::sub_ifds(&[ifd + 1]));
            }
        }
        dng.first_ifd().set(Tag::new(
            330,
            IFD8,
            Data::Long8Places(vec![Place::At(PAST_LONG), Place::Ifd(1)]),
        ));
        answers(&dng, refusal(3, 0));
    }
}

#[test]
fn a_circle_through_4_byte_ifds_ends_by_6() {
    let mut dng = wide_mosaic();
    dng.first_ifd().set(Tag::longs(254, &[1])).set(Tag::sub_ifds(&[0]));
    answers(&dng, refusal(6, 0));
    dng.first_ifd().set(Tag::sub_ifds(&[0; 16]).widened());
    answers(&dng, refusal(6, 0));
}

#[test]
fn a_value_of_8_bytes_stands_in_its_entry() {
    for order in BOTH {
        let area = Tag::shorts(50829, &[0, 1, 2, 3]);
        let dng = Dng { order, ..wide_mosaic() }.with(area).with(Tag::rationals(50714, &[(1, 2)]));
        let layout = dng.layout();
        for tag in [50829, 50714] {
            assert_eq!(layout.entry(0, tag).value, layout.entry(0, tag).entry + 12);
        }
        assert_eq!(card(&layout.file).columns, 2);
        // A SHORT is left-justified: six idle bytes stand behind it.
        let short = dng.with(Tag::shorts(256, &[3])).layout();
        let idle = short.entry(0, 256).value + 2;
        assert_eq!(card(&poked(&short.file, idle, &[0xFF; 6])).columns, 2);
    }
}

/// An opcode list of 4 to 8 bytes stands in its entry too: no opcode, and then
/// bytes left.
#[test]
fn a_short_opcode_list_stands_in_its_entry() {
    for length in 4..=9 {
        let dng = mosaic(3, 2).with(Tag::undefined(51009, &vec![0; length]));
        let (number, place) = if length == 4 { (0, 0) } else { (10, 0) };
        refuses(&dng, number, place);
    }
}

#[test]
fn counts_and_sizes_do_not_wrap() {
    // In 64 bits the products with the types' sizes would be 0 to 16.
    for (kind, count) in
        [(3, HALF), (3, HALF + 1), (4, 1 << 62), (16, 1 << 61), (12, (1 << 61) + 1), (5, (1 << 61) + 2)]
    {
        let tag = Tag::bytes(700, &[0]).with_kind(kind).with_count(count).with_field(16);
        answers(&wide_mosaic().with(tag), refusal(3, 0));
    }
    for kind in (1..=13).chain(16..=18) {
        for (count, field) in [(MAX, 16), (9, MAX - 8), (9, MAX), (9, PAST_LONG + 16), (PAST_LONG + 1, 16)] {
            let tag = Tag::bytes(700, &[0]).with_kind(kind).with_count(count).with_field(field);
            answers(&wide_mosaic().with(tag), refusal(3, 0));
        }
    }
}

#[test]
fn counts_of_entries_do_not_wrap() {
    let mut dng = wide_mosaic();
    let right = dng.first_ifd().tags.len() as u64;
    // Twenty times the count, or its lower bytes, would be right or small.
    for count in [MAX, MAX / 20, MAX / 20 + 1, right + (1 << 62), right + PAST_LONG, right + 65_536, HALF] {
        dng.first_ifd().count = Some(count);
        answers(&dng, refusal(3, 0));
    }
}

/// A number that would be right but for 2^32 or 2^63, or is the greatest.
fn far(right: u64) -> [u64; 6] {
    [PAST_LONG - 1, PAST_LONG, PAST_LONG + right, HALF - 1, HALF + right, MAX]
}

#[test]
fn numbers_go_up_to_the_greatest_long8() {
    let refused = |tag: u16, values: &[u64], number: u32| {
        for order in BOTH {
            let dng = Dng { order, ..wide_mosaic() }.with(Tag::long8s(tag, values));
            answers(&dng, refusal(number, if number == 6 { 0 } else { tag.into() }));
        }
    };
    for value in far(0) {
        refused(254, &[value], 6);
        refused(50714, &[value], 8);
        refused(50717, &[value], 8);
    }
    far(3).into_iter().for_each(|value| refused(256, &[value], 8));
    far(2).into_iter().for_each(|value| refused(257, &[value], 8));
    far(6).into_iter().for_each(|value| refused(279, &[value], 4));
    far(16).into_iter().for_each(|value| refused(273, &[value], 4));
    for (tag, value) in [50975, 52547].into_iter().flat_map(|tag| far(1).map(|value| (tag, value))) {
        refused(tag, &[value], 8);
    }
    for (place, right) in [0, 0, 2, 3].into_iter().enumerate() {
        for value in far(right) {
            let mut area = [0, 0, 2, 3];
            area[place] = value;
            refused(50829, &area, 4);
        }
    }
    refused(50714, &[65_536], 8);
    refused(50717, &[65_536], 8);
    for value in far(1) {
        refused(50720, &[value, 1], 4);
        refused(50720, &[1, value], 4);
    }
}

#[test]
fn rows_per_strip_go_up_to_the_greatest_long8() {
    let whole = frame(&mosaic(3, 2));
    for rows in [2, 3, PAST_LONG - 1, PAST_LONG, HALF, MAX - 1, MAX] {
        assert_eq!(frame(&wide_mosaic().with(Tag::long8s(278, &[rows]))), whole);
    }
    answers(&wide_mosaic().with(Tag::long8s(278, &[0])), refusal(4, 278));
    answers(&wide_mosaic().with(Tag::long8s(278, &[1])), refusal(4, 273));
}

/// A LONG8 black has denominator 1.
#[test]
fn a_long8_black_counts_as_a_whole_number() {
    let of = |black: &Tag| {
        Dng::new(ByteOrder::Big, &Picture::counting(3, 2, 1, 16)).with(black.clone()).in_64_bits()
    };
    for black in [0, 1, 64, 65_534] {
        let narrow = levels(&of(&Tag::longs(50714, &[black])));
        assert_eq!(levels(&of(&Tag::long8s(50714, &[black.into()]))), narrow);
    }
    answers(&of(&Tag::long8s(50714, &[65_535])), refusal(9, 0));
}

/// All 65,536 tags: more than the count of a 32-bit directory can say.
#[test]
fn a_directory_may_hold_every_tag() {
    let mut dng = wide_mosaic();
    let whole = frame(&dng);
    let needed = std::mem::take(&mut dng.first_ifd().tags);
    let not_carried = [51008, 51022];
    let read =
        [50707, 284, 339, 50975, 52547, 50829, 50712, 50713, 50714, 50715, 50716, 50717, 50719, 50720, 51009];
    let strange = |tag: u16| Tag::bytes(tag, &[1; 9]).with_kind(14);
    let tags = (0..=65_535).map(|tag| needed.iter().find(|t| t.tag == tag).cloned().unwrap_or(strange(tag)));
    let tags: Vec<Tag> = tags.collect();
    assert_eq!(tags.len(), 65_536);
    dng.ifds[0] = Ifd { tags, as_listed: true, ..Ifd::default() };
    answers(&dng, refusal(4, 50707));
    for tag in read {
        dng.first_ifd().tags[usize::from(tag)] = default_of(tag);
    }
    answers(&dng, refusal(8, 51008));
    for tag in not_carried {
        dng.first_ifd().tags.retain(|t| t.tag != tag);
    }
    assert_eq!(frame(&dng), whole);
    // One more cannot ascend.
    let last = dng.first_ifd().tags[65_533].clone();
    dng.first_ifd().tags.push(last);
    answers(&dng, refusal(3, 0));
}

/// What a tag's absence says of the mosaic of 3 x 2.
fn default_of(tag: u16) -> Tag {
    match tag {
        50707 => Tag::bytes(tag, &[1, 7, 0, 0]),
        50829 => Tag::longs(tag, &[0, 0, 2, 3]),
        50712 => Tag::shorts(tag, &(0..=255).collect::<Vec<u16>>()),
        50713 => Tag::shorts(tag, &[1, 1]),
        50714 => Tag::shorts(tag, &[0]),
        50715 => Tag::srationals(tag, &[(0, 1); 3]),
        50716 => Tag::srationals(tag, &[(0, 1); 2]),
        50717 => Tag::shorts(tag, &[255]),
        50719 => Tag::shorts(tag, &[0, 0]),
        50720 => Tag::shorts(tag, &[3, 2]),
        51009 => Tag::undefined(tag, &[0; 4]),
        _ => Tag::shorts(tag, &[1]),
    }
}
