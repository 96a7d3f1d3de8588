//! "Levels": blacks, whites, the table, and the rounding of L.

mod common;

use common::*;
use reference::builder::{Dng, Picture, Tag};
use reference::bytes::ByteOrder;
use reference::random::Random;

#[test]
fn levels_are_rounded_to_nearest_halves_up() {
    let random = &mut Random::new(7);
    for _ in 0..400 {
        let power = random.index(9);
        let black = random.between(0, 300 << power);
        let greatest_white = random.pick(&[340, 65_535]);
        let white = random.between(301, greatest_white);
        let stored: Vec<u16> = (0..20).map(|_| random.between(0, 400) as u16).collect();
        let dng = row_of(&stored)
            .with(Tag::rationals(50714, &[(black as u32, 1 << power)]))
            .with(Tag::longs(50717, &[white as u32]));
        let black = black << (8 - power);
        let expected: Vec<u32> = stored
            .iter()
            .map(|v| level_by_search(256 * i64::from(*v) - black, 256 * white - black))
            .collect();
        assert_eq!(levels(&dng), expected);
    }
}

/// White 6, 10 and 43,690 above black 0: L is 10922 1/2, 6553 1/2 and 1 1/2 times v.
#[test]
fn halves_of_whole_levels_go_up() {
    let of_white = |white: u16, stored: &[u16]| levels(&row_of(stored).with(Tag::shorts(50717, &[white])));
    assert_eq!(of_white(6, &[1, 2, 3, 4, 5]), [10_923, 21_845, 32_768, 43_690, 54_613]);
    assert_eq!(of_white(10, &[1, 3, 5, 7, 9]), [6_554, 19_661, 32_768, 45_875, 58_982]);
    assert_eq!(of_white(43_690, &[1, 2, 3, 5, 7]), [2, 3, 5, 8, 11]);
    assert_eq!(of_white(43_690, &[21_845, 43_687, 43_688, 43_689]), [32_768, 65_531, 65_532, 65_534]);
}

/// Values and column deltas in 256ths, over black 2/256.
fn over_two_256ths(white: u16, samples: &[(u16, i32)]) -> Vec<u32> {
    let stored: Vec<u16> = samples.iter().map(|(value, _)| *value).collect();
    let deltas: Vec<(i32, i32)> = samples.iter().map(|(_, delta)| (*delta, 256)).collect();
    let dng = row_of(&stored)
        .with(Tag::rationals(50714, &[(2, 256)]))
        .with(Tag::srationals(50715, &deltas))
        .with(Tag::shorts(50717, &[white]));
    levels(&dng)
}

/// The first column's delta is 0, so the greatest black is 2/256. White 512 makes
/// S 131,070, so that L is D / 2; its least half is D = 1 and its greatest
/// D = 131,069.
#[test]
fn the_lowest_and_the_highest_half_go_up() {
    let columns = [(0, 0), (0, -2), (0, -3), (0, -4), (0, -5)];
    // D: -2, 0, 1, 2, 3.
    assert_eq!(over_two_256ths(512, &columns), [0, 0, 1, 1, 2]);
    let columns = [(512, 0), (511, -255), (511, -254), (511, -253), (512, -1)];
    // D: 131,070, 131,069, 131,068, 131,067, 131,071.
    assert_eq!(over_two_256ths(512, &columns), [65_535, 65_535, 65_534, 65_534, 65_535]);
}

/// White 1024 makes S 262,142. 65535 D / S would be 1/2 at D = 131,071 / 65,535,
/// which is no whole number: D = 2 gives 0.499996, and S - 2 gives 65,534.500004.
#[test]
fn what_is_next_to_a_half_is_not_taken_for_one() {
    let columns = [(0, 0), (0, -3), (0, -4), (0, -5), (0, -6)];
    // D: -2, 1, 2, 3, 4.
    assert_eq!(over_two_256ths(1_024, &columns), [0, 0, 0, 1, 1]);
    let columns = [(1_024, 0), (1_023, -255), (1_023, -254), (1_023, -253), (1_023, -252)];
    // D: S, S - 1, S - 2, S - 3, S - 4.
    assert_eq!(over_two_256ths(1_024, &columns), [65_535, 65_535, 65_535, 65_534, 65_534]);
}

#[test]
fn the_scaled_value_is_one_division() {
    let stored: Vec<u16> = (0..16_384).map(|i| i * 4 + 3).collect();
    let expected: Vec<f64> = stored.iter().map(|v| f64::from(*v) / 65535.0).collect();
    assert_eq!(bits(&frame(&row_of(&stored))), bits(&expected));
}

#[test]
fn both_clips_are_sharp() {
    // Black 10, white 12 in 256ths: S is 512.
    let at = |quarter: u32| {
        let dng = row_of(&[10, 11, 12, 13]);
        let dng = dng.with(Tag::rationals(50714, &[(40 + quarter, 4)])).with(Tag::shorts(50717, &[12]));
        levels(&dng)
    };
    assert_eq!(at(0), [0, 32768, 65535, 65535]);
    // Black 10.25: D is -64, 192, 448; S is 448.
    assert_eq!(at(1), [0, 28086, 65535, 65535]);
}

#[test]
fn black_cells_repeat_over_rows_columns_and_planes() {
    let picture = Picture { stored: vec![200; 5 * 4 * 3], ..Picture::counting(5, 4, 3, 8) };
    let cells: Vec<u16> = (0..18).collect();
    let dng = Dng::new(ByteOrder::Little, &picture)
        .with(Tag::shorts(50713, &[2, 3]))
        .with(Tag::shorts(50714, &cells))
        .with(Tag::shorts(50717, &[255, 254, 253]));
    let levels = levels(&dng);
    for row in 0..4 {
        for column in 0..5 {
            for plane in 0..3 {
                let black = ((row % 2) * 3 + column % 3) * 3 + plane;
                let greatest = 15 + plane;
                let span = 255 - plane - greatest;
                let d = 200 - black;
                let expected = level_by_search(d.min(span), span);
                assert_eq!(levels[((row * 5 + column) * 3 + plane) as usize], expected);
            }
        }
    }
}

#[test]
fn deltas_belong_to_active_rows_and_columns() {
    let picture = Picture { stored: vec![100; 12], ..Picture::counting(4, 3, 1, 8) };
    let dng = Dng::new(ByteOrder::Little, &picture)
        .with(Tag::longs(50829, &[1, 1, 3, 4]))
        .with(Tag::shorts(50714, &[50]))
        .with(Tag::srationals(50715, &[(-2, 1), (3, 2), (0, 1)]))
        .with(Tag::srationals(50716, &[(1, 1), (-1, 256)]))
        .with(Tag::shorts(50717, &[200]));
    // In 256ths: M is 50 + 1.5 + 1, at the first row's second column.
    let span = 256 * 200 - (256 * 50 + 384 + 256);
    let d = |column: i64, row: i64| 256 * 100 - (256 * 50 + column + row);
    let expected: Vec<u32> = [256, -1]
        .iter()
        .flat_map(|row| [-512, 384, 0].map(|column| level_by_search(d(column, *row), span)))
        .collect();
    assert_eq!(levels(&dng), expected);
}

#[test]
fn white_must_be_above_black_on_every_plane() {
    let whites = |whites: [u16; 3]| {
        linear(1, 1).with(Tag::shorts(50714, &[10, 20, 30])).with(Tag::shorts(50717, &whites))
    };
    accepts(&whites([11, 21, 31]));
    refuses(&whites([10, 21, 31]), 9, 0);
    refuses(&whites([11, 20, 31]), 9, 0);
    refuses(&whites([11, 21, 30]), 9, 0);
    // A 256th above is enough.
    let close = |n: u32| row_of(&[1]).with(Tag::rationals(50714, &[(n, 256)])).with(Tag::shorts(50717, &[1]));
    accepts(&close(255));
    refuses(&close(256), 9, 0);
}

#[test]
fn the_default_white_is_of_the_bits_also_with_a_table() {
    let table: Vec<u16> = vec![0, 255, 256, 65_535];
    let eight = Dng::new(ByteOrder::Little, &Picture::row(8, &[0, 1, 2, 3])).with(Tag::shorts(50712, &table));
    assert_eq!(levels(&eight), [0, 65_535, 65_535, 65_535]);
    let sixteen = row_of(&[0, 1, 2, 3]).with(Tag::shorts(50712, &table));
    assert_eq!(levels(&sixteen), [0, 255, 256, 65_535]);
}

#[test]
fn the_table_holds_its_last_entry() {
    let table: Vec<u16> = (0..100).map(|i| 1000 - i).collect();
    let dng = row_of(&[0, 98, 99, 100, 65_535]).with(Tag::shorts(50712, &table));
    assert_eq!(levels(&dng), [1000, 902, 901, 901, 901]);
    let whole: Vec<u16> = (0..=65_535).rev().collect();
    assert_eq!(levels(&row_of(&[0, 1, 65_535]).with(Tag::shorts(50712, &whole))), [65_535, 65_534, 0]);
}
