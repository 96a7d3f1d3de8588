//! "Slips from the classroom": for each a file on which the slip would give
//! another answer. The slipped answer is worked out here beside the right one.

mod common;

use common::*;
use reference::builder::{Area, Dng, Opcode, OpcodeList, Picture, Tag};
use reference::bytes::ByteOrder;
use reference::{card, window};

/// A value of 200 over each black, with white 255 and the greatest black 40.
fn scaled(black: u32) -> f64 {
    let (d, s) = (200 - black, 255 - 40);
    ((2 * 65_535 * d + s) / (2 * s)).min(65_535) as f64 / 65535.0
}

const BLACKS: [u16; 4] = [10, 20, 30, 40];

/// 5 x 5 stored, the active area's corner at row 1, column 1.
fn patterned() -> Dng {
    let picture = Picture { stored: vec![200; 25], ..Picture::counting(5, 5, 1, 8) };
    Dng::new(ByteOrder::Little, &picture)
        .with(Tag::longs(50829, &[1, 1, 5, 5]))
        .with(Tag::shorts(50713, &[2, 2]))
        .with(Tag::shorts(50714, &BLACKS))
}

/// The window of 2 x 2 at active row 1, column 0, and what stands in it if
/// rows and columns of the pattern or grid are counted from another corner.
fn small_window(dng: &Dng) -> [f64; 4] {
    let mut out = [UNTOUCHED; 4];
    assert_eq!(window(&dng.file(), 1, 0, 2, 2, &mut out), DONE);
    out
}

fn counted_from(first_row: usize, first_column: usize, value: impl Fn(usize, usize) -> f64) -> [f64; 4] {
    let at = |row: usize, column: usize| value(first_row + row, first_column + column);
    [at(0, 0), at(0, 1), at(1, 0), at(1, 1)]
}

const ACTIVE: (usize, usize) = (1, 0);
const STORED: (usize, usize) = (2, 1);
const WINDOW: (usize, usize) = (0, 0);

#[test]
fn the_repeat_pattern_counts_from_the_active_area() {
    let pattern = |row: usize, column: usize| scaled(BLACKS[row % 2 * 2 + column % 2].into());
    let right = counted_from(ACTIVE.0, ACTIVE.1, pattern);
    let from_stored = counted_from(STORED.0, STORED.1, pattern);
    let from_window = counted_from(WINDOW.0, WINDOW.1, pattern);
    assert_ne!(right, from_stored);
    assert_ne!(right, from_window);
    assert_eq!(small_window(&patterned()), right);
}

#[test]
fn the_grid_counts_from_the_active_area() {
    // Rows 1, 3 and column 0 of the active area become 0.5; all else is 1.
    let picture = Picture { stored: vec![255; 25], ..Picture::counting(5, 5, 1, 8) };
    let area = Area { top: 1, row_pitch: 2, column_pitch: 2, right: 1, ..Area::whole(4, 4, 1) };
    let dng = Dng::new(ByteOrder::Little, &picture)
        .with(Tag::longs(50829, &[1, 1, 5, 5]))
        .with_opcodes(&[Opcode::map_polynomial(area, &[0.5])]);
    let grid = |row: usize, column: usize| if row % 2 == 1 && column == 0 { 0.5 } else { 1.0 };
    let right = counted_from(ACTIVE.0, ACTIVE.1, grid);
    let from_stored = counted_from(STORED.0, STORED.1, grid);
    let from_window = counted_from(WINDOW.0, WINDOW.1, grid);
    assert_ne!(right, from_stored);
    assert_ne!(right, from_window);
    assert_eq!(small_window(&dng), right);
}

#[test]
fn plane_plus_planes_does_not_wrap() {
    let samples = 3u32;
    for (plane, planes) in
        [(2, u32::MAX), (1, u32::MAX), (u32::MAX, 1), (u32::MAX, 4), (0x8000_0000, 0x8000_0001)]
    {
        let slip_accepts = plane.wrapping_add(planes) <= samples;
        let right_accepts = u64::from(plane) + u64::from(planes) <= u64::from(samples);
        assert!(slip_accepts && !right_accepts);
        let area = Area { plane, planes, ..Area::whole(2, 2, 1) };
        refuses(&linear(2, 2).with_opcodes(&[Opcode::map_polynomial(area, &[0.5])]), 10, 0);
    }
}

#[test]
fn the_list_is_big_endian_in_every_file() {
    let polynomial = Opcode::map_polynomial(Area::whole(1, 1, 1), &[0.5]);
    let list = OpcodeList::new(&[polynomial]).spell();
    let right = ByteOrder::Big.number(&list[..4]);
    let slipped = ByteOrder::Little.number(&list[..4]);
    assert!(right == 1 && slipped > 32);
    let dng = Dng::new(ByteOrder::Little, &Picture::row(16, &[65_535]));
    let file = dng.clone().with(Tag::undefined(51009, &list)).file();
    assert_eq!(&file[..2], b"II");
    assert_eq!(card(&file).kept, 1);
    assert_eq!(frame_of(&file), [0.5]);
    // The slip would keep this list; rightly its count is over 32.
    let turned: Vec<u8> =
        list.chunks(4).flat_map(|long| long.iter().rev().copied().collect::<Vec<u8>>()).collect();
    assert_eq!(ByteOrder::Little.number(&turned[..4]), 1);
    refuses(&dng.with(Tag::undefined(51009, &turned)), 11, 32);
}

#[test]
fn the_floats_of_the_list_are_big_endian_too() {
    let scaled = |factor: f32| {
        let scale = Opcode::per_line(12, Area::whole(1, 1, 1), &[factor]);
        Dng::new(ByteOrder::Little, &Picture::row(16, &[65_535])).with_opcodes(&[scale])
    };
    let turned = |factor: f32| f32::from_bits(factor.to_bits().swap_bytes());
    // 0.5 is 3F000000; turned about it is 0000003F, a denormal, another factor.
    assert!(turned(0.5).is_subnormal());
    assert_eq!(frame(&scaled(0.5)), [0.5]);
    // 0000807F is a number; turned about it is 7F800000, which would be refused.
    let small = f32::from_bits(0x807F);
    assert!(turned(small).is_infinite());
    assert_eq!(frame(&scaled(small)), [f64::from(small)]);
    refuses(&scaled(turned(small)), 12, 0);
}

#[test]
fn the_table_index_is_rounded_with_the_half() {
    let identity: Vec<u16> = (0..=65_535).collect();
    let area = Area::whole(1, 1, 1);
    let developed = |x: f64| {
        let opcodes = [Opcode::map_polynomial(area, &[x]), Opcode::map_table(area, &identity)];
        frame(&row_of(&[0]).with_opcodes(&opcodes))[0]
    };
    for x in [0.5, 1.6 / 65535.0, 0.9999999] {
        let right = (x * 65535.0 + 0.5f64).floor();
        let slipped = (x * 65535.0f64).floor();
        assert_ne!(right, slipped);
        assert_eq!(developed(x), right / 65535.0);
    }
}
