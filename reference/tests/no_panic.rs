//! "for every string of bytes": no call panics, whatever it is given.

mod common;

use common::*;
use reference::builder::{Area, Dng, GainMap, Opcode, Tag};
use reference::bytes::LAYOUTS;
use reference::cases::{answer_line, Call};
use reference::generate::generate;
use reference::random::Random;
use reference::{card, listing};

fn ask_everything(file: &[u8]) {
    let calls = [
        Call::Card,
        Call::Window { top: 0, left: 0, height: 1, width: 1, slice: 1 },
        Call::Spot { row: 0, column: 0, plane: 0 },
        Call::ColourWindow { top: 0, left: 0, height: 1, width: 1, slice: 3 },
        Call::HalfWindow { top: 0, left: 0, height: 1, width: 1, slice: 3 },
        Call::Chain { row: 0, column: 0, plane: 0, slices: [32; 5] },
        Call::TableWindow { top: 0, left: 0, height: 1, width: 1, slice: 1 },
    ];
    for call in &calls {
        answer_line(file, call);
    }
}

#[test]
fn generated_cases() {
    for index in 0..10_000 {
        let case = generate(40, index);
        for call in &case.calls {
            answer_line(&case.file, call);
        }
    }
}

#[test]
fn random_bytes() {
    let random = &mut Random::new(41);
    for _ in 0..50_000 {
        let length = random.index(120);
        let mut file = random.bytes(length);
        let headers: [&[u8]; 2] =
            [b"MM\x00\x2A\x00\x00\x00\x08\0", b"MM\x00\x2B\x00\x08\0\0\0\0\0\0\0\0\0\x10\0\0\0\0\0\0\0"];
        let header = random.pick(&headers);
        if length > header.len() && random.one_in(2) {
            file[..header.len()].copy_from_slice(header);
            // Few entries, and small numbers, so that more tests are reached.
            file[header.len()] %= 9;
        }
        ask_everything(&file);
        listing(&file);
    }
}

/// A file with every tag, its active area of 2 x 2 pixels, and its raw IFD two
/// below IFD 0.
fn subject(dng: Dng, samples: u32) -> Dng {
    let area = Area::whole(2, 2, samples);
    let opcodes = [
        Opcode::map_table(area, &[1, 2]),
        Opcode::map_polynomial(Area { row_pitch: 2, ..area }, &[0.5, 0.25]),
        Opcode::new(14, 1, vec![1, 2]),
        Opcode::gain_map(area, &GainMap::spread(&[[0.5, 0.25], [0.75, 1.5]])),
        Opcode::per_line(11, area, &[0.5, 0.25]),
    ];
    let samples = samples as usize;
    dng.with(Tag::longs(50829, &[1, 1, 3, 3]))
        .with(Tag::shorts(50712, &[1, 2, 3]))
        .with(Tag::shorts(50713, &[2, 1]))
        .with(Tag::rationals(50714, &vec![(1, 2); 2 * samples]))
        .with(Tag::srationals(50715, &[(1, 2); 2]))
        .with(Tag::srationals(50716, &[(-1, 2); 2]))
        .with(Tag::longs(50717, &vec![300; samples]))
        .with(Tag::rationals(50719, &[(0, 7), (3, 3)]))
        .with(Tag::shorts(50720, &[2, 1]))
        .with_opcodes(&opcodes)
        .with_pattern([1, 2, 0, 1])
        .with_first(Tag::srationals(50964, &[(1, 2); 9]))
        .with_first(Tag::rationals(50728, &[(1, 2); 3]))
        .nested(2)
}

#[test]
fn every_byte_of_a_file_changed() {
    let dngs = [subject(linear(3, 3), 3), subject(mosaic(3, 3), 1)];
    assert_eq!((colour_answer(&dngs[0]), half_answer(&dngs[1])), (DONE, DONE));
    let [linear, mosaic] = dngs;
    let without_deltas = mosaic.clone().without(50715).without(50716);
    let dngs = [linear, mosaic, without_deltas];
    for (widths, dng) in LAYOUTS.into_iter().flat_map(|widths| dngs.each_ref().map(|dng| (widths, dng))) {
        let file = Dng { widths, ..dng.clone() }.file();
        assert_eq!(card(&file).answer(), DONE);
        for place in 0..file.len() {
            for byte in [0, 1, 2, 7, 8, 0x7F, 0x80, 0xFE, 0xFF, file[place] ^ 1, file[place].wrapping_add(1)]
            {
                ask_everything(&poked(&file, place, &[byte]));
            }
            ask_everything(&file[..place]);
        }
    }
}
