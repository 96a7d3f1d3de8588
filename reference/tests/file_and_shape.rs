//! Refusals 1, 2 and 3: the file's size, its first bytes, and the shape of a
//! directory.

mod common;

use common::*;
use reference::builder::{Dng, Place, Tag};
use reference::bytes::{ByteOrder, Widths, LAYOUTS};

/// A tag that no call reads.
const UNREAD: u16 = 700;

const LONG_MAX: u64 = u32::MAX as u64;

#[test]
fn a_file_has_8_to_67_108_864_bytes() {
    let mut file = mosaic(2, 2).file();
    for length in 0..8 {
        assert_eq!(answer_to(&file[..length]), refusal(1, 0));
    }
    assert_eq!(answer_to(&file[..8]), refusal(3, 0));
    file.resize(67_108_864, 0);
    assert_eq!(answer_to(&file), DONE);
    file.push(0);
    assert_eq!(answer_to(&file), refusal(1, 0));
}

#[test]
fn the_first_four_bytes_are_one_of_four_marks() {
    for (order, widths) in BOTH.into_iter().flat_map(|order| LAYOUTS.map(|widths| (order, widths))) {
        let file = Dng { order, widths, ..mosaic(2, 2) }.file();
        assert_eq!(answer_to(&file), DONE);
        for place in 0..4 {
            for byte in (0..=255).filter(|b| *b != file[place] && ![0x2A, 0x2B].contains(b)) {
                assert_eq!(answer_to(&poked(&file, place, &[byte])), refusal(2, 0));
            }
        }
    }
    for mixed in
        [*b"II\x00\x2A", *b"MM\x2A\x00", *b"IM\x2A\x00", *b"MI\x00\x2A", *b"II\x00\x2B", *b"MM\x2B\x00"]
    {
        refuses(&Dng { start: mixed.to_vec(), ..mosaic(2, 2) }, 2, 0);
    }
}

#[test]
fn size_comes_before_the_first_bytes() {
    assert_eq!(answer_to(b"1234567"), refusal(1, 0));
    assert_eq!(answer_to(b"12345678"), refusal(2, 0));
    assert_eq!(answer_to(&vec![0; 67_108_865]), refusal(1, 0));
}

#[test]
fn a_directory_lies_in_the_file() {
    for widths in LAYOUTS {
        let dng = Dng { widths, ..mosaic(2, 2) };
        let length = dng.file().len() as u64;
        let greatest = u64::MAX >> (64 - 8 * widths.word);
        for offset in [length - 2, length - 1, length, length + 1, greatest - 1, greatest] {
            answers(&Dng { first: Place::At(offset), ..dng.clone() }, refusal(3, 0));
        }
    }
}

#[test]
fn a_directory_has_an_entry_and_all_it_counts() {
    let mut dng = mosaic(2, 2);
    let entries = dng.first_ifd().tags.len() as u64;
    dng.first_ifd().count = Some(entries);
    accepts(&dng);
    for count in [0, entries + 1, 65_535] {
        dng.first_ifd().count = Some(count);
        refuses(&dng, 3, 0);
    }
}

#[test]
fn the_next_offset_lies_in_the_file_and_has_any_value() {
    for widths in LAYOUTS {
        let mut dng = Dng { widths, ..mosaic(2, 2) };
        for next in [0, 1, 8, 1 << 31, LONG_MAX, 1 << 63, u64::MAX] {
            dng.first_ifd().next = next;
            answers(&dng, DONE);
        }
        // The builder ends a file with its last directory's next offset.
        let file = dng.file();
        for lost in 1..=widths.word as usize {
            assert_eq!(answer_to(&file[..file.len() - lost]), refusal(3, 0));
        }
    }
}

#[test]
fn tags_ascend_strictly() {
    let with_last_two = |a: u16, b: u16, kind: u16| {
        let mut dng = mosaic(2, 2);
        let ifd = dng.first_ifd();
        ifd.tags.sort_by_key(|t| t.tag);
        ifd.as_listed = true;
        ifd.tags.push(Tag::bytes(a, &[1]).with_kind(kind));
        ifd.tags.push(Tag::bytes(b, &[1]).with_kind(kind));
        dng
    };
    for kind in [1, 14] {
        accepts(&with_last_two(60000, 60001, kind));
        refuses(&with_last_two(60000, 60000, kind), 3, 0);
        refuses(&with_last_two(60001, 60000, kind), 3, 0);
        refuses(&with_last_two(50706, 60000, kind), 3, 0);
    }
    accepts(&with_last_two(65534, 65535, 1));
}

/// "Type sizes 1 to 13: 1,1,2,4,8,1,1,2,4,8,4,8,4"; "types 16, 17, 18 of 8 bytes".
#[test]
fn a_value_of_a_known_type_lies_in_the_file() {
    let narrow = [1, 1, 2, 4, 8, 1, 1, 2, 4, 8, 4, 8, 4];
    let types: Vec<(u16, u64)> = (1..).zip(narrow).collect();
    let wide = [(16, 8), (17, 8), (18, 8)];
    let of_layouts = [(Widths::BITS_32, types.clone()), (Widths::BITS_64, [&types[..], &wide].concat())];
    for (order, (widths, types)) in BOTH.into_iter().flat_map(|order| of_layouts.clone().map(|l| (order, l)))
    {
        let tag = |kind: u16, count: u64, field: u64| {
            let tag = Tag::bytes(UNREAD, &[0]).with_kind(kind).with_count(count).with_field(field);
            Dng { order, widths, ..mosaic(2, 2).with(tag) }
        };
        let length = tag(1, 1, 0).file().len() as u64;
        for (kind, size) in types {
            for count in [0, 1, 2, 3, 4, 5, 8, 9] {
                let bytes = count * size;
                if bytes <= widths.word {
                    answers(&tag(kind, count, u64::MAX), DONE);
                } else {
                    answers(&tag(kind, count, length - bytes), DONE);
                    answers(&tag(kind, count, length - bytes + 1), refusal(3, 0));
                    answers(&tag(kind, count, u64::MAX), refusal(3, 0));
                }
            }
        }
    }
}

#[test]
fn count_times_size_does_not_wrap() {
    let tag =
        |kind: u16, count: u64| Tag::bytes(UNREAD, &[0]).with_kind(kind).with_count(count).with_field(8);
    // In 32 bits these products would be 0, 4, 8, 2 and 0.
    for (kind, count) in
        [(4, 0x4000_0000), (4, 0x4000_0001), (12, 0x2000_0001), (3, 0x8000_0001), (3, 0x8000_0000)]
    {
        refuses(&mosaic(2, 2).with(tag(kind, count)), 3, 0);
    }
    for kind in 1..=13 {
        refuses(&mosaic(2, 2).with(tag(kind, LONG_MAX)), 3, 0);
    }
}

#[test]
fn an_unknown_type_is_passed_over_unless_its_tag_is_read() {
    for kind in [0, 14, 15, 19, 255, 256, 65_535] {
        let strange =
            |tag: u16| Tag::bytes(tag, &[0]).with_kind(kind).with_count(u64::MAX).with_field(u64::MAX);
        accepts(&mosaic(2, 2).with(strange(UNREAD)));
        accepts(&mosaic(2, 2).with(strange(330)));
        for read in [254, 256, 277, 259, 284, 50975, 50712, 50717, 51009, 50707] {
            refuses(&mosaic(2, 2).with(strange(read)), 4, read.into());
        }
    }
}

#[test]
fn a_value_of_four_bytes_stands_in_its_entry_left_justified() {
    for order in BOTH {
        // Two SHORTs and one SHORT in an entry; the rest of the entry is idle.
        let dng = Dng { order, ..mosaic(9, 2) };
        let dng = dng.with(Tag::shorts(50713, &[1, 1])).with(Tag::shorts(256, &[9]));
        let layout = dng.layout();
        let entry = layout.entry(0, 256).entry;
        let idle = poked(&layout.file, entry + 10, &[0xFF, 0xFF]);
        assert_eq!(reference::card(&idle).columns, 9);
    }
}

#[test]
fn the_whole_shape_comes_before_any_tag() {
    let dng = mosaic(2, 2).with(Tag::bytes(60000, &[0]).with_count(9).with_field(u64::MAX));
    refuses(&dng.clone().without(50706), 3, 0);
    refuses(&dng.clone().with(Tag::longs(254, &[1, 2])), 3, 0);
    let mut nested = mosaic(2, 2).nested(1);
    nested.raw_ifd().set(Tag::bytes(60000, &[0]).with_count(9).with_field(u64::MAX));
    nested.raw_ifd().set(Tag::longs(254, &[1, 2]));
    refuses(&nested, 3, 0);
}

#[test]
fn parts_may_stand_anywhere_and_share_bytes() {
    for gap in [0, 1, 2, 3, 7] {
        accepts(&Dng { gap, tail: gap, ..linear(3, 2) });
    }
    // The strip covers the header.
    let mut dng = mosaic(3, 2);
    dng.raw_ifd().get_mut(273).unwrap().field = Some(0);
    accepts(&dng);
    assert_eq!(dng.order, ByteOrder::Little);
    assert_eq!(levels(&dng)[..2], [0x49 * 257, 0x49 * 257]);
}
