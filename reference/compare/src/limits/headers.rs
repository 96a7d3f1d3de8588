//! Sizes and headers: refusals 1 and 2, in the order of their tests, and IFD 0
//! outside the file behind them.

use reference::builder::{Dng, Place};
use reference::bytes::{ByteOrder, Widths, LAYOUTS};

use super::{both, check_file, each_way, in_orders, plain, Answer, DONE, LONG8_MAX, MOSAIC, ORDERS, SHAPE};
use crate::tally::Tally;

const SIZE: Answer = (1, 0);
const START: Answer = (2, 0);

const GREATEST_FILE: usize = 67_108_864;

const OF_32_BITS: [[u8; 4]; 2] = [*b"II\x2A\0", *b"MM\0\x2A"];
const OF_64_BITS: [[u8; 4]; 2] = [*b"II\x2B\0", *b"MM\0\x2B"];
/// Some of their bytes, in another order or mixed.
const NO_MARKS: [[u8; 4]; 12] = [
    *b"II\0\x2A",
    *b"MM\x2A\0",
    *b"IM\x2A\0",
    *b"MI\0\x2A",
    *b"II\0\x2B",
    *b"MM\x2B\0",
    *b"IM\x2B\0",
    *b"MI\0\x2B",
    *b"II\x2B\x2A",
    *b"MM\x2A\x2B",
    [0; 4],
    [255; 4],
];

/// Every case of a size or a header.
pub fn check(tally: &mut Tally) {
    small_files(tally);
    great_files(tally);
    starts(tally);
    damaged_headers(tally);
    other_orders(tally);
    other_layouts(tally);
}

/// A header without anything behind it: the mark, what follows it in 64 bits,
/// and so much filling.
fn header(mark: [u8; 4], behind: [u8; 4], length: usize) -> Vec<u8> {
    let filling = vec![16; length.saturating_sub(8)];
    let mut file = [&mark[..], &behind, &filling].concat();
    file.truncate(length);
    file
}

/// "8, 0 (2 bytes each)" in both byte orders, and wrong ones.
const EIGHT: [[u8; 4]; 2] = [[8, 0, 0, 0], [0, 8, 0, 0]];
const NOT_EIGHT: [[u8; 4]; 8] = [
    [0; 4],
    [7, 0, 0, 0],
    [9, 0, 0, 0],
    [8, 1, 0, 0],
    [1, 8, 0, 0],
    [0, 8, 0, 1],
    [0, 8, 1, 0],
    [8, 0, 8, 0],
];

/// Sizes around 8 and 16: of two faults the first in the order answers.
fn small_files(tally: &mut Tally) {
    for length in [0].into_iter().chain(4..=20) {
        let mut case = |mark: [u8; 4], behind: [u8; 4], answer| {
            let label = format!("{length} bytes, {mark:?} {behind:?}");
            check_file(tally, &label, &header(mark, behind, length), if length < 8 { SIZE } else { answer });
        };
        for order in [0, 1] {
            for behind in NOT_EIGHT.into_iter().chain(EIGHT) {
                let right = behind == EIGHT[order];
                let of_64 = match length {
                    0..=15 => SIZE,
                    _ if right => SHAPE,
                    _ => START,
                };
                case(OF_64_BITS[order], behind, of_64);
            }
            case(OF_32_BITS[order], [255; 4], SHAPE);
            case(OF_32_BITS[order], [0; 4], SHAPE);
            NO_MARKS.iter().for_each(|mark| case(*mark, EIGHT[order], START));
            NO_MARKS.iter().for_each(|mark| case(*mark, NOT_EIGHT[order], START));
        }
    }
}

/// Sizes around the greatest, with a right file, a wrong mark and a wrong 8.
fn great_files(tally: &mut Tally) {
    for widths in LAYOUTS {
        let mut file = Dng { widths, ..plain(MOSAIC) }.file();
        for (length, answer) in [(GREATEST_FILE - 1, DONE), (GREATEST_FILE, DONE), (GREATEST_FILE + 1, SIZE)]
        {
            file.resize(length, 0);
            check_file(tally, &format!("{length} bytes, {widths:?}"), &file, answer);
            let wrong = if answer == DONE { START } else { answer };
            file[3] ^= 1;
            check_file(tally, &format!("{length} bytes, wrong mark"), &file, wrong);
            file[3] ^= 1;
            if widths == Widths::BITS_64 {
                file[4] ^= 1;
                check_file(tally, &format!("{length} bytes, wrong 8"), &file, wrong);
                file[4] ^= 1;
            }
        }
    }
}

/// Refusal 2: each byte of each mark one more and one less, unless that is
/// another mark; alone, without an IFD, with a wrong 8, and too small.
fn starts(tally: &mut Tally) {
    let mut starts = NO_MARKS.to_vec();
    let marks = [OF_32_BITS, OF_64_BITS].concat();
    for (mark, i) in marks.iter().flat_map(|mark| (0..8).map(move |i| (mark, i))) {
        let mut start = *mark;
        start[i / 2] = start[i / 2].wrapping_add([1, 255][i % 2]);
        if !marks.contains(&start) {
            starts.push(start);
        }
    }
    for start in starts {
        let dng = Dng { start: start.to_vec(), ..plain(MOSAIC) };
        both(tally, &format!("start {start:?}"), &dng, START);
        let astray = Dng { first: Place::At(LONG8_MAX), ..dng.clone() };
        both(tally, &format!("start {start:?}, no IFD"), &astray, START);
        let wrong = Dng { start: [start, [9; 4]].concat(), ..dng }.in_64_bits();
        in_orders(tally, &format!("start {start:?}, wrong 8"), &wrong, START);
        check_file(tally, &format!("start {start:?}, 7 bytes"), &[&start[..], &[0; 3]].concat(), SIZE);
    }
}

/// Each byte of a header in turn, by each of several changes: the mark is 2, in
/// 64 bits what follows is 2, and another offset of IFD 0 is 3.
fn damaged_headers(tally: &mut Tally) {
    for dng in each_way(&plain(MOSAIC)) {
        let file = dng.file();
        let Widths { header, word, .. } = dng.widths;
        let offset = (header - word) as usize;
        for (place, byte) in
            (0..header as usize).flat_map(|i| damages(&dng, i).into_iter().map(move |b| (i, b)))
        {
            let mut file = file.clone();
            file[place] = byte;
            let answer = if place < offset { START } else { SHAPE };
            check_file(tally, &format!("header byte {place} is {byte}, {:?}", dng.widths), &file, answer);
            if (4..offset).contains(&place) {
                file[offset..header as usize].fill(255);
                check_file(tally, &format!("header byte {place} is {byte}, no IFD"), &file, START);
            }
        }
    }
}

/// What a header's byte is changed to. A mark becomes no other mark. The least
/// byte of the offset points at no bytes that might look like an IFD.
fn damages(dng: &Dng, place: usize) -> Vec<u8> {
    let header = dng.widths.header as usize;
    let least = match dng.order {
        ByteOrder::Little => header - dng.widths.word as usize,
        ByteOrder::Big => header - 1,
    };
    let byte = dng.file()[place];
    let mut damages = vec![0, 1, 254, 255, byte ^ 128, byte.wrapping_add(1), byte.wrapping_sub(1)];
    if place != least {
        damages.extend([8, 16, 42, 43, 127, 128]);
    }
    let in_mark = place < 4 && [42, 43].contains(&byte);
    damages.retain(|damaged| *damaged != byte && !(in_mark && [42, 43].contains(damaged)));
    damages
}

/// The mark of one byte order before the rest in the other; in 64 bits also
/// the 8 and the 0 with it.
fn other_orders(tally: &mut Tally) {
    for (order, other) in [(ByteOrder::Little, ByteOrder::Big), (ByteOrder::Big, ByteOrder::Little)] {
        for (widths, length, answer) in
            [(LAYOUTS[0], 4, SHAPE), (LAYOUTS[1], 4, START), (LAYOUTS[1], 8, SHAPE)]
        {
            let dng = Dng { order, widths, ..plain(MOSAIC) };
            let start = Dng { order: other, ..dng.clone() }.file()[..length].to_vec();
            let label = format!("{length} bytes of {other:?} before {order:?}, {widths:?}");
            check_file(tally, &label, &Dng { start, ..dng }.file(), answer);
        }
    }
}

/// A file of one layout under the mark of the other. Where a 64-bit file has 8
/// and 0, a 32-bit one has its offset: 14 here. The other way IFD 0 is at 8, or
/// in MM at 524,288, and has no shape.
fn other_layouts(tally: &mut Tally) {
    for (i, order) in ORDERS.into_iter().enumerate() {
        let dng = Dng { order, ..plain(MOSAIC) };
        let narrow = Dng { start: OF_64_BITS[i].to_vec(), ..dng.clone() };
        check_file(tally, "32 bits under a 64-bit mark", &narrow.file(), START);
        let wide = Dng { start: OF_32_BITS[i].to_vec(), ..dng.in_64_bits() };
        check_file(tally, "64 bits under a 32-bit mark", &wide.file(), SHAPE);
    }
}
