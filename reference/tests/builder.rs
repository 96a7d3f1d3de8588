//! The builder tells where it put things, in both byte orders.

mod common;

use common::*;
use reference::builder::{Data, Dng, Opcode, OpcodeList, Place, Tag, PATTERN_TAGS};
use reference::bytes::LAYOUTS;

#[test]
fn entries_values_and_strips_stand_where_the_layout_says() {
    // Where the offset of IFD 0 stands, its width, and that of a count of entries.
    let of_layouts = [(LAYOUTS[0], 4, 4, 2), (LAYOUTS[1], 8, 8, 8)];
    for (order, (widths, first, word, entries)) in
        BOTH.into_iter().flat_map(|order| of_layouts.map(|layout| (order, layout)))
    {
        for (gap, ifds_first) in [(0, false), (3, false), (0, true), (3, true)] {
            let dng = Dng { order, widths, gap, ifds_first, ..mosaic(3, 2) };
            let dng = dng.with(Tag::longs(50829, &[0, 1, 2, 3]));
            let layout = dng.layout();
            let number = |place: usize, width: usize| order.number(&layout.file[place..place + width]);
            let ifd = layout.ifds[0];
            assert_eq!(number(first, word), ifd as u64);
            assert_eq!(number(ifd, entries), dng.ifds[0].tags.len() as u64);
            assert_eq!(layout.entry(0, 254).entry, ifd + entries);
            assert_eq!(layout.entry(0, 256).entry, ifd + entries + 4 + 2 * word);
            let area = layout.entry(0, 50829);
            let fields = [(0, 2), (2, 2), (4, word)].map(|(i, width)| number(area.entry + i, width));
            assert_eq!(fields, [50829, 4, 4]);
            assert_eq!(number(area.entry + 4 + word, word), area.value as u64);
            assert_eq!([0, 4, 8, 12].map(|i| number(area.value + i, 4)), [0, 1, 2, 3]);
            let width = layout.entry(0, 256);
            assert_eq!((width.value, number(width.value, 4)), (width.entry + 4 + word, 3));
            assert_eq!(number(layout.entry(0, 273).value, 4), layout.blocks[0] as u64);
            assert_eq!(layout.file[layout.blocks[0]..layout.blocks[0] + 6], [0, 1, 2, 3, 4, 5]);
        }
    }
}

#[test]
fn overrides_stand_in_place_of_what_belongs_there() {
    let tag = Tag::longs(50829, &[0, 0, 2, 3]).with_kind(9).with_count(77).with_field(0x0102_0304);
    let layout = mosaic(3, 2).with(tag).layout();
    let entry = layout.entry(0, 50829).entry;
    let expected = [0x8D, 0xC6, 9, 0, 77, 0, 0, 0, 4, 3, 2, 1];
    assert_eq!(layout.file[entry..entry + 12], expected);
}

#[test]
fn a_64_bit_header_has_an_8_a_0_and_an_8_byte_offset() {
    let little = Dng { first: Place::At(0x0102_0304_0506_0708), ..mosaic(3, 2).in_64_bits() };
    assert_eq!(little.file()[..16], *b"II\x2B\0\x08\0\0\0\x08\x07\x06\x05\x04\x03\x02\x01");
    let big = Dng { order: BOTH[1], ..little };
    assert_eq!(big.file()[..16], *b"MM\0\x2B\0\x08\0\0\x01\x02\x03\x04\x05\x06\x07\x08");
}

#[test]
fn values_are_widened_to_8_bytes() {
    let tag = Tag::longs(256, &[3]).widened();
    assert_eq!((tag.kind, tag.data), (16, Data::Long8s(vec![3])));
    let tag = Tag::sub_ifds(&[1]).widened();
    assert_eq!((tag.kind, tag.data), (18, Data::Long8Places(vec![Place::Ifd(1)])));
    assert_eq!(Tag::shorts(256, &[3]).widened(), Tag::shorts(256, &[3]));
}

#[test]
fn a_nested_file_keeps_the_first_tags_in_ifd_0() {
    let mut dng = mosaic(3, 2).with_first(Tag::shorts(50728, &[1, 2, 3])).nested(3);
    assert_eq!((dng.ifds.len(), dng.raw), (4, 3));
    assert!(dng.first_ifd().get(50728).is_some() && dng.first_ifd().get(50706).is_some());
    assert!(dng.first_ifd().get(256).is_none() && dng.raw_ifd().get(256).is_some());
}

#[test]
fn a_pattern_is_four_tags_of_the_raw_ifd() {
    let dng = mosaic(3, 2).nested(1).with_pattern([1, 2, 0, 1]);
    let raw = &dng.ifds[dng.raw];
    let values = PATTERN_TAGS.map(|tag| raw.get(tag).map(|tag| (tag.kind, tag.data.clone())));
    let expected = [
        (3, Data::Shorts(vec![2, 2])),
        (1, Data::Bytes(vec![1, 2, 0, 1])),
        (1, Data::Bytes(vec![0, 1, 2])),
        (3, Data::Shorts(vec![1])),
    ];
    assert_eq!(values, expected.map(Some));
    for tag in PATTERN_TAGS {
        assert!(dng.ifds[0].get(tag).is_none());
        assert!(dng.clone().without(tag).raw_ifd().get(tag).is_none());
        let other = Tag::longs(tag, &[7; 5]);
        assert_eq!(dng.clone().with(other.clone()).raw_ifd().get(tag), Some(&other));
    }
}

#[test]
fn an_opcode_list_is_spelled_big_endian() {
    let list = OpcodeList::new(&[Opcode::new(9, 1, vec![0xAB])]);
    let expected = [0, 0, 0, 1, 0, 0, 0, 9, 1, 3, 0, 0, 0, 0, 0, 1, 0, 0, 0, 1, 0xAB];
    assert_eq!(list.spell(), expected);
}
