//! "It doesn't read a next offset, the value of any other tag (even one that
//! stands in its entry), a skipped correction's parameters, or a stored sample
//! outside the active area."

mod common;

use common::*;
use reference::builder::{pattern_tags, Area, Dng, Opcode, OpcodeList, Tag, PATTERN_TAGS};
use reference::bytes::LAYOUTS;
use reference::cases::{ask_chain, AskedChain};
use reference::{card, chain, colour_window, half_window};

fn all_answers(file: &[u8]) -> (reference::Card, Vec<u64>, Vec<u64>, Vec<AskedChain>) {
    let mut colours = vec![UNTOUCHED; 2 * 2 * 3];
    assert_eq!(colour_window(file, 0, 0, 2, 2, &mut colours), DONE);
    let chain_of = |sample: u64| {
        let spot = [sample / 6, sample / 3 % 2, sample % 3];
        ask_chain(chain, file, spot, [32; 5], 0)
    };
    (card(file), bits(&frame_of(file)), bits(&colours), (0..12).map(chain_of).collect())
}

/// A file with something of everything that is not read.
fn subject() -> (Dng, OpcodeList) {
    let list = OpcodeList::new(&[
        Opcode::map_polynomial(Area::whole(2, 2, 3), &[0.25, 0.5]),
        Opcode::new(14, 1, vec![1; 40]),
        Opcode::per_line(12, Area::whole(2, 2, 3), &[0.5, 0.75]),
    ]);
    let dng = linear(4, 4)
        .with(Tag::longs(50829, &[1, 1, 3, 3]))
        .with(Tag::shorts(50719, &[1, 0]))
        .with(Tag::rationals(50720, &[(1, 1), (4, 2)]))
        .with(list.tag())
        .with(Tag::shorts(266, &[1]))
        .with(Tag::bytes(305, &[7; 9]))
        .with_first(Tag::srationals(50964, &[(1, 2); 9]))
        .with_first(Tag::shorts(50728, &[1, 2, 3]))
        .nested(1);
    (Dng { gap: 3, tail: 5, ..dng }.with_first(Tag::bytes(271, &[1; 3])), list)
}

/// The places of all bytes that the document says are not read.
fn unread(dng: &Dng, list: &OpcodeList) -> Vec<usize> {
    let layout = dng.layout();
    let mut places = Vec::new();
    for (ifd, start) in layout.ifds.iter().enumerate() {
        let entries = dng.widths.entry() as usize * dng.ifds[ifd].tags.len();
        let next = start + dng.widths.entries as usize + entries;
        places.extend(next..next + dng.widths.word as usize);
    }
    for (ifd, tag) in [(dng.raw, 266), (dng.raw, 305), (0, 271)] {
        let entry = layout.entry(ifd, tag);
        places.extend(entry.value..entry.value + entry.length);
    }
    let skipped = layout.entry(dng.raw, 51009).value + 4 + list.opcodes[0].spell().len() + 16;
    places.extend(skipped..skipped + 40);
    for sample in 0..4 * 4 * 3 {
        let (row, column) = (sample / 12, sample / 3 % 4);
        if ![1, 2].contains(&row) || ![1, 2].contains(&column) {
            let start = layout.blocks[0] + 2 * sample;
            places.extend(start..start + 2);
        }
    }
    let length = layout.file.len();
    let header = dng.widths.header as usize;
    places.extend((header..header + 3).chain(length - 5..length));
    places
}

#[test]
fn bytes_that_are_not_read_change_no_answer() {
    let (dng, list) = subject();
    for dng in LAYOUTS.map(|widths| Dng { widths, ..dng.clone() }) {
        let file = dng.file();
        let before = all_answers(&file);
        let places = unread(&dng, &list);
        for place in &places {
            for change in [1, 0x80, 0xFF] {
                assert_eq!(all_answers(&poked(&file, *place, &[file[*place] ^ change])), before);
            }
        }
        let mut all = file.clone();
        for place in places {
            all[place] ^= 0xFF;
        }
        assert_eq!(all_answers(&all), before);
    }
}

/// "Reads: the four tags' values, of a mosaic only": no other call reads them,
/// and none of them in IFD 0 above the raw IFD.
#[test]
fn the_pattern_is_read_of_a_mosaic_by_half_windows() {
    let mosaic = mosaic(4, 4)
        .with_pattern([0, 1, 1, 2])
        .with_first(Tag::srationals(50964, &[(1, 2); 9]))
        .with_first(Tag::shorts(50728, &[1, 2, 3]))
        .nested(1);
    let mosaic = pattern_tags([2, 1, 1, 0]).into_iter().fold(mosaic, Dng::with_first);
    let (linear, _) = subject();
    let linear = linear.with_pattern([0, 1, 1, 2]);
    for widths in LAYOUTS {
        let [mosaic, linear] = [&mosaic, &linear].map(|dng| Dng { widths, ..dng.clone() }.layout());
        let half = |file: &[u8]| {
            let mut out = [UNTOUCHED; 12];
            (half_window(file, 0, 0, 2, 2, &mut out), bits(&out))
        };
        let (before, frame, colours) =
            (half(&mosaic.file), frame_of(&mosaic.file), all_answers(&linear.file));
        assert_eq!(before.0, DONE);
        for tag in PATTERN_TAGS {
            let (read, above, unread) = (mosaic.entry(1, tag), mosaic.entry(0, tag), linear.entry(1, tag));
            for place in 0..read.length {
                let changed = |file: &[u8], at: usize| poked(file, at + place, &[file[at + place] ^ 0x11]);
                let of_read = changed(&mosaic.file, read.value);
                assert_eq!(half(&of_read).0, refusal(8, tag.into()));
                assert_eq!(frame_of(&of_read), frame);
                assert_eq!(half(&changed(&mosaic.file, above.value)), before);
                assert_eq!(all_answers(&changed(&linear.file, unread.value)), colours);
            }
        }
    }
}

/// "Reads: both values whole", in the raw IFD alone. What stands behind a value
/// that is shorter than its field is not read.
#[test]
fn the_crop_is_read_in_the_raw_ifd() {
    let (dng, _) = subject();
    let dng = dng.with_first(Tag::shorts(50719, &[1, 0])).with_first(Tag::rationals(50720, &[(1, 1); 2]));
    for (order, widths) in BOTH.into_iter().flat_map(|order| LAYOUTS.map(|widths| (order, widths))) {
        let layout = Dng { order, widths, ..dng.clone() }.layout();
        let changed = |place: usize| poked(&layout.file, place, &[layout.file[place] ^ 0x11]);
        let before = all_answers(&layout.file);
        for tag in [50719, 50720] {
            let (read, above) = (layout.entry(dng.raw, tag), layout.entry(0, tag));
            for place in 0..read.length {
                assert_ne!(card(&changed(read.value + place)), before.0, "{tag}, byte {place}");
                assert_eq!(all_answers(&changed(above.value + place)), before);
            }
        }
        let origin = layout.entry(dng.raw, 50719);
        for place in origin.length..widths.word as usize {
            assert_eq!(all_answers(&changed(origin.value + place)), before);
        }
    }
}

#[test]
fn bytes_that_are_read_can_change_an_answer() {
    let (dng, _) = subject();
    let layout = dng.layout();
    let file = &layout.file;
    let before = all_answers(file);
    let sample = layout.blocks[0] + 2 * (4 + 1) * 3;
    assert_ne!(all_answers(&poked(file, sample, &[0xFF])), before);
    let neutral = layout.entry(0, 50728).value;
    assert_ne!(all_answers(&poked(file, neutral, &[0, 2])), before);
}
