//! Board examples 1 to 11, the fourth as document 02 has it.

mod common;

use common::*;
use reference::builder::{Area, Dng, Opcode, Picture, Tag};
use reference::bytes::ByteOrder;
use reference::listing;

fn black_white(black: u16, white: u16, stored: &[u16]) -> Dng {
    row_of(stored).with(Tag::shorts(50714, &[black])).with(Tag::shorts(50717, &[white]))
}

#[test]
fn example_1_black_64_white_1087() {
    let dng = black_white(64, 1087, &[63, 64, 65, 576, 1087, 2000]);
    assert_eq!(levels(&dng), [0, 0, 64, 32800, 65535, 65535]);
}

#[test]
fn example_2_halves_up() {
    assert_eq!(levels(&black_white(0, 2, &[1])), [32768]);
}

#[test]
fn example_3_a_rational_black() {
    let dng = row_of(&[65]).with(Tag::rationals(50714, &[(129, 2)])).with(Tag::shorts(50717, &[1087]));
    assert_eq!(levels(&dng), [32]);
}

#[test]
fn example_4_the_greatest_black_that_occurs() {
    let picture = Picture { stored: vec![37, 0, 0, 0], ..Picture::counting(2, 2, 1, 8) };
    let with_white = |white: u16| {
        Dng::new(ByteOrder::Little, &picture)
            .with(Tag::shorts(50713, &[2, 2]))
            .with(Tag::shorts(50714, &[10, 20, 30, 40]))
            .with(Tag::srationals(50715, &[(5, 1), (0, 1)]))
            .with(Tag::shorts(50717, &[white]))
    };
    assert_eq!(levels(&with_white(100))[0], 24030);
    // M is 40: a white of 41 is above it, one of 40 is not.
    assert_eq!(answer(&with_white(41)), DONE);
    assert_eq!(answer(&with_white(40)), refusal(9, 0));
}

#[test]
fn example_5_the_table_past_its_end() {
    let white = Tag::shorts(50717, &[65535]);
    let dng = row_of(&[0, 1, 2, 7]).with(Tag::shorts(50712, &[0, 100, 400])).with(white);
    assert_eq!(levels(&dng), [0, 100, 400, 400]);
}

#[test]
fn example_6_rows_of_a_pitched_grid() {
    let scales = |bottom: u32, values: &[f32]| {
        let area = Area { top: 1, bottom, row_pitch: 2, ..Area::whole(6, 1, 1) };
        let ones = Picture { stored: vec![255; 6], ..Picture::counting(1, 6, 1, 8) };
        Dng::new(ByteOrder::Little, &ones).with_opcodes(&[Opcode::per_line(12, area, values)])
    };
    let dng = scales(6, &[0.125, 0.25, 0.5]);
    assert_eq!(frame(&dng), [1.0, 0.125, 1.0, 0.25, 1.0, 0.5]);
    assert_eq!(frame(&scales(5, &[0.125, 0.25])), [1.0, 0.125, 1.0, 0.25, 1.0, 1.0]);
    assert_eq!(answer(&scales(5, &[0.125, 0.25, 0.5])), refusal(10, 0));
    assert_eq!(answer(&scales(6, &[0.125, 0.25])), refusal(10, 0));
}

#[test]
fn example_7_order_of_the_list() {
    let scale = Opcode::per_line(12, Area::whole(1, 1, 1), &[0.5]);
    let delta = Opcode::per_line(10, Area::whole(1, 1, 1), &[0.25]);
    let one = row_of(&[65535]);
    assert_eq!(frame(&one.clone().with_opcodes(&[scale.clone(), delta.clone()])), [0.75]);
    assert_eq!(frame(&one.with_opcodes(&[delta, scale])), [0.5]);
}

#[test]
fn example_8_coefficients() {
    let polynomial = Opcode::map_polynomial(Area::whole(1, 2, 1), &[0.25, 0.5]);
    assert_eq!(frame(&row_of(&[65535, 0]).with_opcodes(&[polynomial])), [0.75, 0.25]);
}

#[test]
fn example_9_floats() {
    let scaled_by = |bits: u32| {
        let scale = Opcode::per_line(12, Area::whole(1, 1, 1), &[f32::from_bits(bits)]);
        row_of(&[65535]).with_opcodes(&[scale])
    };
    assert_eq!(frame(&scaled_by(0x3F00_0000)), [0.5]);
    // 2^-149, as document 02 has it.
    assert_eq!(bits(&frame(&scaled_by(0x0000_0001))), [0x36A0_0000_0000_0000]);
    assert_eq!(answer(&scaled_by(0x7F80_0000)), refusal(12, 0));
}

#[test]
fn example_10_colour() {
    let row = [(1, 2), (1, 4), (1, 4)];
    let dng = Dng::new(ByteOrder::Little, &Picture { stored: vec![255; 3], ..Picture::counting(1, 1, 3, 8) })
        .with_first(Tag::srationals(50964, &[row, row, row].concat()))
        .with_first(Tag::rationals(50728, &[(1, 2), (1, 1), (1, 2)]));
    assert_eq!(colours(&dng), [1.75, 1.75, 1.75]);
}

#[test]
fn example_11_listing() {
    let area = Area { left: 1, right: 2, ..Area::whole(1, 3, 1) };
    for order in BOTH {
        let dng = Dng::new(order, &Picture::row(8, &[16, 144, 255]))
            .with(Tag::shorts(50714, &[16]))
            .with(Tag::shorts(50717, &[255]))
            .with_opcodes(&[Opcode::map_polynomial(area, &[0.5])]);
        let expected = "frame 1 3 1\n0000000000000000 3fe0000000000000 3ff0000000000000\n";
        assert_eq!(listing(&dng.file()), expected);
    }
}
