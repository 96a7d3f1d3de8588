//! Each tag of the raw directory: presence, type, count, and both sides of
//! each limit of its values.

mod common;

use common::*;
use reference::builder::{Data, Dng, Picture, Place, Tag};
use reference::bytes::{ByteOrder, LAYOUTS};
use reference::card;
use reference::tag_test::{LONG, SHORT};

/// Every type but the listed ones refuses the tag. The value stands in front of
/// idle bytes, so that no type makes it lie outside the file.
fn only_types(base: &Dng, tag: u16, data: &Data, allowed: &[u16]) {
    for kind in (0..=15).chain([17, 18, 19, 65_535]).filter(|k| !allowed.contains(k)) {
        let dng = base.clone().with(Tag::new(tag, kind, data.clone()).with_field(8));
        refuses(&Dng { tail: 100_000, ..dng }, 4, tag.into());
    }
}

fn shorts(values: &[u16]) -> Data {
    Data::Shorts(values.to_vec())
}

#[test]
fn required_tags_are_required() {
    for tag in [256u16, 257, 262, 258, 273, 279] {
        refuses(&mosaic(3, 2).without(tag), 5, tag.into());
        refuses(&linear(3, 2).without(tag), 5, tag.into());
    }
}

#[test]
fn other_tags_have_defaults() {
    let bare = [254, 277, 278, 259];
    let mut dng = mosaic(3, 2);
    let full = frame(&dng);
    for tag in bare {
        dng = dng.without(tag);
    }
    assert_eq!(frame(&dng), full);
    let explicit = mosaic(3, 2)
        .with(Tag::shorts(284, &[1]))
        .with(Tag::shorts(339, &[1]))
        .with(Tag::shorts(50975, &[1]))
        .with(Tag::longs(52547, &[1]))
        .with(Tag::longs(50829, &[0, 0, 2, 3]))
        .with(Tag::shorts(50712, &(0..=255).collect::<Vec<u16>>()))
        .with(Tag::shorts(50713, &[1, 1]))
        .with(Tag::shorts(50714, &[0]))
        .with(Tag::srationals(50715, &[(0, 1); 3]))
        .with(Tag::srationals(50716, &[(0, 1); 2]))
        .with(Tag::shorts(50717, &[255]))
        .with(Tag::shorts(50719, &[0, 0]))
        .with(Tag::shorts(50720, &[3, 2]))
        .with(Tag::undefined(51009, &[0; 4]));
    assert_eq!(frame(&explicit), full);
    assert_eq!(card(&explicit.file()), card(&dng.file()));
}

#[test]
fn types_of_every_raw_tag() {
    let base = mosaic(3, 2);
    for tag in [256, 257, 278, 50975, 52547, 273, 279, 50717] {
        only_types(&base, tag, &shorts(&[1]), &[3, 4]);
    }
    for tag in [262, 277, 258, 259, 284, 339, 50712] {
        only_types(&base, tag, &shorts(&[1]), &[3]);
    }
    only_types(&base, 50829, &shorts(&[0, 0, 1, 1]), &[3, 4]);
    only_types(&base, 50713, &shorts(&[1, 1]), &[3]);
    only_types(&base, 50714, &shorts(&[1]), &[3, 4, 5]);
    only_types(&base, 50719, &shorts(&[0, 0]), &[3, 4, 5]);
    only_types(&base, 50720, &shorts(&[1, 1]), &[3, 4, 5]);
    only_types(&base, 50715, &Data::SRationals(vec![(0, 1); 3]), &[10]);
    only_types(&base, 50716, &Data::SRationals(vec![(0, 1); 2]), &[10]);
    only_types(&base, 51009, &Data::Bytes(vec![0; 4]), &[7]);
}

#[test]
fn counts_of_every_raw_tag() {
    let ones = [256, 257, 262, 277, 258, 259, 284, 339, 50975, 52547, 278, 273, 279, 50712, 50714, 50717];
    for tag in ones {
        refuses(&mosaic(3, 2).with(Tag::shorts(tag, &[])), 4, tag.into());
        if tag != 50712 {
            refuses(&mosaic(3, 2).with(Tag::shorts(tag, &[1, 1])), 4, tag.into());
            refuses(&mosaic(3, 2).with(Tag::shorts(tag, &[1, 1, 1])), 4, tag.into());
        }
    }
    for tag in [258u16, 339, 50714, 50717] {
        for count in [1, 2, 4] {
            refuses(&linear(3, 2).with(Tag::shorts(tag, &vec![16; count])), 4, tag.into());
        }
    }
    let zeros = [(0, 1); 4];
    for (tag, right) in [(50715u16, 3), (50716, 2)] {
        for count in 0..=4 {
            let dng = mosaic(3, 2).with(Tag::srationals(tag, &zeros[..count]));
            assert_eq!(answer(&dng), if count == right { DONE } else { refusal(4, tag.into()) });
        }
    }
    for (tag, count) in [50713u16, 50719, 50720].into_iter().flat_map(|tag| [0, 1, 3].map(|n| (tag, n))) {
        refuses(&mosaic(3, 2).with(Tag::shorts(tag, &vec![1; count])), 4, tag.into());
    }
    for count in [0, 3, 5] {
        refuses(&mosaic(3, 2).with(Tag::shorts(50829, &vec![1; count])), 4, 50829);
    }
    for (count, expected) in [(0, refusal(4, 51009)), (3, refusal(4, 51009)), (4, DONE), (5, refusal(10, 0))]
    {
        assert_eq!(answer(&mosaic(3, 2).with(Tag::undefined(51009, &vec![0; count]))), expected);
    }
}

#[test]
fn width_and_length_are_1_to_16384() {
    for (tag, other) in [(256u16, 257u16), (257, 256)] {
        let side = |size: u32| {
            let rows = if tag == 257 { size } else { 1 };
            let mut dng = mosaic(1, 1).with(Tag::longs(tag, &[size])).with(Tag::longs(other, &[1]));
            dng.blocks = vec![vec![0; size as usize]];
            dng.with(Tag::longs(279, &[size])).with(Tag::longs(278, &[rows]))
        };
        accepts(&side(1));
        accepts(&side(16_384));
        refuses(&side(16_385), 8, tag.into());
        refuses(&mosaic(1, 1).with(Tag::longs(tag, &[u32::MAX])), 8, tag.into());
        refuses(&mosaic(1, 1).with(Tag::longs(tag, &[0])), 4, tag.into());
        refuses(&mosaic(1, 1).with(Tag::shorts(tag, &[0])), 4, tag.into());
    }
    assert_eq!(card(&mosaic(5, 7).with(Tag::shorts(256, &[5])).file()).columns, 5);
}

#[test]
fn photometric_and_samples() {
    for value in [0, 1, 2, 32_802, 32_804, 34_891, 34_893, 65_535] {
        refuses(&mosaic(2, 2).with(Tag::shorts(262, &[value])), 8, 262);
    }
    for (photometric, samples, expected) in [
        (32_803, 0, refusal(8, 277)),
        (32_803, 2, refusal(8, 277)),
        (32_803, 3, refusal(8, 277)),
        (34_892, 1, refusal(8, 277)),
        (34_892, 2, refusal(8, 277)),
        (34_892, 4, refusal(8, 277)),
    ] {
        let dng = mosaic(2, 2).with(Tag::shorts(262, &[photometric])).with(Tag::shorts(277, &[samples]));
        assert_eq!(answer(&dng), expected);
    }
    accepts(&mosaic(2, 2).without(277));
    refuses(&linear(2, 2).without(277), 8, 277);
}

#[test]
fn bits_are_all_8_or_all_16() {
    for value in [0, 1, 7, 9, 12, 14, 15, 17, 32, 65_535] {
        refuses(&mosaic(2, 2).with(Tag::shorts(258, &[value])), 8, 258);
    }
    accepts(&Dng::new(ByteOrder::Little, &Picture::counting(2, 2, 3, 8)));
    accepts(&Dng::new(ByteOrder::Little, &Picture::counting(2, 2, 3, 16)));
    for mixed in [[8, 8, 16], [16, 8, 16], [8, 16, 16], [16, 16, 0]] {
        refuses(&linear(2, 2).with(Tag::shorts(258, &mixed)), 8, 258);
    }
}

#[test]
fn only_1_is_carried_of_259_284_339() {
    for tag in [259u16, 284, 339] {
        accepts(&mosaic(2, 2).with(Tag::shorts(tag, &[1])));
        for value in [0, 2, 3, 7, 65_535] {
            refuses(&mosaic(2, 2).with(Tag::shorts(tag, &[value])), 8, tag.into());
        }
    }
    refuses(&linear(2, 2).with(Tag::shorts(339, &[1, 1, 2])), 8, 339);
    accepts(&linear(2, 2).with(Tag::shorts(339, &[1, 1, 1])));
}

#[test]
fn interleaves_are_1() {
    for tag in [50975u16, 52547] {
        accepts(&mosaic(2, 2).with(Tag::shorts(tag, &[1])));
        accepts(&mosaic(2, 2).with(Tag::longs(tag, &[1])));
        refuses(&mosaic(2, 2).with(Tag::shorts(tag, &[0])), 4, tag.into());
        refuses(&mosaic(2, 2).with(Tag::longs(tag, &[2])), 8, tag.into());
        refuses(&mosaic(2, 2).with(Tag::longs(tag, &[0x0001_0001])), 8, tag.into());
    }
}

#[test]
fn rows_per_strip_decides_the_count_of_strips() {
    refuses(&mosaic(2, 5).with(Tag::longs(278, &[0])), 4, 278);
    for rows in [5, 6, 100, u32::MAX] {
        accepts(&mosaic(2, 5).with(Tag::longs(278, &[rows])));
    }
    refuses(&mosaic(2, 5).with(Tag::longs(278, &[4])), 4, 273);
    for rows_per_strip in 1..=5 {
        let dng = Dng::new(ByteOrder::Big, &Picture { rows_per_strip, ..Picture::counting(2, 5, 1, 8) });
        assert_eq!(dng.blocks.len() as u32, 5u32.div_ceil(rows_per_strip));
        assert_eq!(levels(&dng), (0..10).map(|i| i * 257).collect::<Vec<u32>>());
    }
}

#[test]
fn strips_are_short_or_long() {
    let picture = Picture { rows_per_strip: 2, ..Picture::counting(2, 5, 1, 8) };
    let dng = Dng::new(ByteOrder::Big, &picture);
    let places = (0..3).map(|i| Place::Block(i, 0)).collect();
    let short = dng
        .clone()
        .with(Tag::new(273, SHORT, Data::ShortPlaces(places)))
        .with(Tag::shorts(279, &[4, 4, 2]))
        .with(Tag::shorts(278, &[2]));
    assert_eq!(frame(&short), frame(&dng));
}

#[test]
fn byte_counts_are_exact_to_the_last_strip() {
    let dng = Dng::new(ByteOrder::Big, &Picture { rows_per_strip: 2, ..Picture::counting(3, 5, 3, 16) });
    accepts(&dng);
    // 2 rows x 3 columns x 3 samples x 2 bytes; the last strip has one row.
    accepts(&dng.clone().with(Tag::longs(279, &[36, 36, 18])));
    for bad in
        [[35, 36, 18], [37, 36, 18], [36, 35, 18], [36, 36, 17], [36, 36, 19], [36, 36, 36], [0, 36, 18]]
    {
        refuses(&dng.clone().with(Tag::longs(279, &bad)), 4, 279);
    }
}

#[test]
fn strips_lie_in_the_file() {
    let picture = Picture { rows_per_strip: 1, ..Picture::counting(3, 2, 1, 8) };
    for widths in LAYOUTS {
        let dng = Dng { widths, ..Dng::new(ByteOrder::Little, &picture) };
        let length = dng.file().len() as u64;
        let second_at = |offset: u64| {
            let places = vec![Place::Block(0, 0), Place::At(offset)];
            dng.clone().with(Tag::new(273, LONG, Data::LongPlaces(places)))
        };
        answers(&second_at(0), DONE);
        answers(&second_at(length - 3), DONE);
        let greatest = u64::from(u32::MAX);
        for offset in [length - 2, length, greatest - 2, greatest] {
            answers(&second_at(offset), refusal(4, 273));
        }
    }
}

#[test]
fn strips_are_tested_one_by_one() {
    let dng = Dng::new(ByteOrder::Little, &Picture { rows_per_strip: 1, ..Picture::counting(3, 3, 1, 8) });
    let strips = |places: [u32; 3], counts: [u32; 3]| {
        dng.clone().with(Tag::longs(273, &places)).with(Tag::longs(279, &counts))
    };
    accepts(&strips([8, 8, 8], [3, 3, 3]));
    refuses(&strips([u32::MAX, 8, 8], [3, 4, 3]), 4, 273);
    refuses(&strips([8, 8, u32::MAX], [3, 4, 3]), 4, 279);
    refuses(&strips([u32::MAX, 8, 8], [4, 3, 3]), 4, 279);
}

#[test]
fn presence_type_and_count_of_both_strip_tags_come_before_the_strips() {
    let dng = mosaic(3, 2).with(Tag::longs(273, &[u32::MAX]));
    refuses(&dng, 4, 273);
    refuses(&dng.clone().without(279), 5, 279);
    refuses(&dng.with(Tag::longs(279, &[6, 6])), 4, 279);
}

#[test]
fn strips_may_overlap() {
    let dng = Dng::new(ByteOrder::Little, &Picture { rows_per_strip: 1, ..Picture::counting(3, 3, 1, 8) });
    let places = vec![Place::Block(2, 0), Place::Block(0, 1), Place::Block(0, 0)];
    let dng = dng.with(Tag::new(273, LONG, Data::LongPlaces(places)));
    assert_eq!(levels(&dng), [6, 7, 8, 1, 2, 3, 0, 1, 2].map(|v| v * 257));
}

#[test]
fn samples_stand_in_the_files_byte_order() {
    for order in BOTH {
        let picture =
            Picture { stored: vec![0x0102, 0xFF00, 0x00FF, 0xFFFF, 0, 1], ..Picture::counting(2, 1, 3, 16) };
        assert_eq!(levels(&Dng::new(order, &picture)), [0x0102, 0xFF00, 0x00FF, 0xFFFF, 0, 1]);
        let bytes = Picture { stored: vec![1, 2, 3, 4, 5, 255], ..Picture::counting(2, 1, 3, 8) };
        assert_eq!(levels(&Dng::new(order, &bytes)), [1, 2, 3, 4, 5, 255].map(|v| v * 257));
    }
}

#[test]
fn the_active_area_lies_in_the_frame() {
    // Width 5, length 3.
    let area = |sides: [u32; 4]| mosaic(5, 3).with(Tag::longs(50829, &sides));
    for good in [[0, 0, 3, 5], [2, 4, 3, 5], [1, 1, 2, 2], [0, 4, 1, 5]] {
        accepts(&area(good));
        let card = card(&area(good).file());
        assert_eq!((card.rows, card.columns), ((good[2] - good[0]).into(), (good[3] - good[1]).into()));
    }
    for bad in [
        [0, 0, 4, 5],
        [0, 0, 3, 6],
        [1, 0, 1, 5],
        [2, 0, 1, 5],
        [0, 2, 3, 2],
        [0, 3, 3, 2],
        [3, 0, 3, 5],
        [0, 5, 3, 5],
        [0, 0, u32::MAX, 5],
        [0, 0, 3, u32::MAX],
        [u32::MAX, 0, 3, 5],
        [0, 0, 0, 0],
    ] {
        refuses(&area(bad), 4, 50829);
    }
    accepts(&mosaic(5, 3).with(Tag::shorts(50829, &[1, 1, 3, 5])));
    assert_eq!(levels(&area([1, 2, 3, 4])), [7, 8, 12, 13].map(|v| v * 257));
}

#[test]
fn the_table_has_1_to_65536_entries() {
    for length in [1, 2, 65_535, 65_536] {
        accepts(&mosaic(2, 2).with(Tag::shorts(50712, &vec![7; length])));
    }
    refuses(&mosaic(2, 2).with(Tag::shorts(50712, &vec![7; 65_537])), 4, 50712);
    refuses(&mosaic(2, 2).with(Tag::shorts(50712, &[])), 4, 50712);
}

#[test]
fn the_repeat_is_1_to_8() {
    let repeat = |rows: u16, columns: u16| mosaic(2, 2).with(Tag::shorts(50713, &[rows, columns]));
    for (rows, columns, expected) in [
        (1, 1, DONE),
        (8, 8, DONE),
        (0, 1, refusal(4, 50713)),
        (1, 0, refusal(4, 50713)),
        (9, 1, refusal(8, 50713)),
        (1, 9, refusal(8, 50713)),
        (65_535, 1, refusal(8, 50713)),
        (9, 0, refusal(8, 50713)),
        (0, 9, refusal(4, 50713)),
    ] {
        assert_eq!(answer(&repeat(rows, columns)), expected);
    }
    for (rows, columns) in [(1, 1), (2, 3), (8, 8)] {
        let cells = usize::from(rows * columns) * 3;
        let black = |count: usize| {
            linear(2, 2).with(Tag::shorts(50713, &[rows, columns])).with(Tag::shorts(50714, &vec![1; count]))
        };
        accepts(&black(cells));
        refuses(&black(cells - 1), 4, 50714);
        refuses(&black(cells + 1), 4, 50714);
    }
}

#[test]
fn denominators_of_the_blacks() {
    let black = |value: (u32, u32)| {
        row_of(&[1]).with(Tag::rationals(50714, &[value])).with(Tag::longs(50717, &[65_535]))
    };
    for power in 0..=8 {
        accepts(&black((1, 1 << power)));
        accepts(&black((65_534 << power, 1 << power)));
    }
    for denominator in [3, 5, 127, 255, 257, 512, 1 << 16, 1 << 31, u32::MAX] {
        refuses(&black((1, denominator)), 8, 50714);
        refuses(&black((0, denominator)), 8, 50714);
    }
    refuses(&black((0, 0)), 4, 50714);
    refuses(&black((1, 0)), 4, 50714);
}

#[test]
fn magnitudes_of_the_blacks() {
    // Equality is carried: the white, not the black, then refuses.
    let black = |tag: Tag| row_of(&[1]).with(tag);
    refuses(&black(Tag::longs(50714, &[65_535])), 9, 0);
    refuses(&black(Tag::longs(50714, &[65_536])), 8, 50714);
    refuses(&black(Tag::longs(50714, &[u32::MAX])), 8, 50714);
    refuses(&black(Tag::shorts(50714, &[65_535])), 9, 0);
    for power in 0..=8u32 {
        let most = 65_535u32 << power;
        refuses(&black(Tag::rationals(50714, &[(most, 1 << power)])), 9, 0);
        refuses(&black(Tag::rationals(50714, &[(most + 1, 1 << power)])), 8, 50714);
    }
    refuses(&black(Tag::rationals(50714, &[(u32::MAX, 256)])), 8, 50714);
}

#[test]
fn deltas_are_tested_as_written() {
    for tag in [50715u16, 50716] {
        let delta = |value: (i32, i32)| row_of(&[1]).with(Tag::srationals(tag, &[value]));
        for power in 0..=8 {
            let most = 65_535 << power;
            accepts(&delta((-most, 1 << power)));
            refuses(&delta((most, 1 << power)), 9, 0);
            refuses(&delta((-most - 1, 1 << power)), 8, tag.into());
            refuses(&delta((most + 1, 1 << power)), 8, tag.into());
        }
        for value in
            [(0, -1), (1, -2), (0, 3), (-3, 3), (4, 512), (0, i32::MIN), (i32::MIN, 1), (i32::MAX, 256)]
        {
            refuses(&delta(value), 8, tag.into());
        }
        for value in [(0, 0), (1, 0), (i32::MIN, 0)] {
            refuses(&delta(value), 4, tag.into());
        }
    }
}

#[test]
fn each_value_in_stored_order_legal_then_carried() {
    let two_blacks = |tag: Tag| row_of(&[1]).with(Tag::shorts(50713, &[1, 2])).with(tag);
    refuses(&two_blacks(Tag::rationals(50714, &[(1, 3), (1, 0)])), 8, 50714);
    refuses(&two_blacks(Tag::rationals(50714, &[(1, 0), (1, 3)])), 4, 50714);
    let two_columns = |a: (i32, i32), b: (i32, i32)| row_of(&[1, 2]).with(Tag::srationals(50715, &[a, b]));
    refuses(&two_columns((1, 3), (1, 0)), 8, 50715);
    refuses(&two_columns((1, 0), (1, 3)), 4, 50715);
    let two_rows = |a: (i32, i32), b: (i32, i32)| mosaic(1, 2).with(Tag::srationals(50716, &[a, b]));
    refuses(&two_rows((65_536, 1), (1, 0)), 8, 50716);
    refuses(&two_rows((1, 0), (65_536, 1)), 4, 50716);
}

#[test]
fn whites_are_up_to_65535() {
    let white = |tag: Tag| row_of(&[1]).with(tag);
    accepts(&white(Tag::longs(50717, &[1])));
    accepts(&white(Tag::longs(50717, &[65_535])));
    accepts(&white(Tag::shorts(50717, &[65_535])));
    refuses(&white(Tag::longs(50717, &[65_536])), 8, 50717);
    refuses(&white(Tag::longs(50717, &[u32::MAX])), 8, 50717);
    // 0 is legal; only the black decides.
    refuses(&white(Tag::longs(50717, &[0])), 9, 0);
    accepts(&white(Tag::longs(50717, &[0])).with(Tag::srationals(50715, &[(-1, 256)])));
}

#[test]
fn lists_1_and_3_are_not_carried_whatever_their_type() {
    for tag in [51008u16, 51022] {
        for kind in [0, 1, 3, 4, 7, 13, 14, 65_535] {
            refuses(&mosaic(2, 2).with(Tag::bytes(tag, &[0]).with_kind(kind)), 8, tag.into());
            refuses(&mosaic(2, 2).with(Tag::bytes(tag, &[]).with_kind(kind)), 8, tag.into());
        }
        // Outside the raw directory they are not read.
        let mut elsewhere = mosaic(2, 2).nested(1);
        elsewhere.first_ifd().set(Tag::undefined(tag, &[0; 4]));
        accepts(&elsewhere);
    }
}

#[test]
fn an_empty_list_stands_in_its_entry() {
    let dng = mosaic(2, 2).with(Tag::undefined(51009, &[0, 0, 0, 0]));
    let layout = dng.layout();
    let place = layout.entry(0, 51009);
    assert_eq!(place.value, place.entry + 8);
    let card = card(&layout.file);
    assert_eq!((card.number, card.kept, card.skipped), (0, 0, 0));
    refuses(&mosaic(2, 2).with(Tag::undefined(51009, &[0, 0, 0, 1])), 10, 0);
}
