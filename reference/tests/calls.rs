//! The four calls: refusals 13 and 14, untouched slices, and their agreement.

mod common;

use common::*;
use reference::builder::{Dng, Tag};
use reference::{card, colour_window, spot, window, Card, Crop};

const HUGE: [u64; 4] = [u64::MAX, u64::MAX - 1, 1 << 63, 1 << 32];

/// Active area of 3 rows and 4 columns.
fn offset_area() -> Dng {
    mosaic(6, 5).with(Tag::longs(50829, &[1, 2, 4, 6]))
}

fn coloured(width: u32, length: u32) -> Dng {
    linear(width, length)
        .with_first(Tag::srationals(50964, &[(1, 2); 9]))
        .with_first(Tag::shorts(50728, &[1, 2, 3]))
}

/// The answer, and whether the slice is as it was.
fn ask(file: &[u8], top: u64, left: u64, height: u64, width: u64, slice: usize) -> (reference::Answer, bool) {
    let mut out = vec![UNTOUCHED; slice];
    let answer = window(file, top, left, height, width, &mut out);
    (answer, out.iter().all(|v| *v == UNTOUCHED))
}

#[test]
fn a_card_tells_the_active_area() {
    let crop = Crop { left: 0, top: 0, columns: 4, rows: 3 };
    let expected = Card { number: 0, detail: 0, rows: 3, columns: 4, samples: 1, kept: 0, skipped: 0, crop };
    assert_eq!(card(&offset_area().file()), expected);
    let crop = Crop { columns: 7, rows: 2, ..crop };
    let expected = Card { rows: 2, columns: 7, samples: 3, crop, ..expected };
    assert_eq!(card(&linear(7, 2).file()), expected);
}

#[test]
fn a_refused_card_holds_nine_zeros() {
    let crop = Crop { left: 0, top: 0, columns: 0, rows: 0 };
    let expected =
        Card { number: 5, detail: 256, rows: 0, columns: 0, samples: 0, kept: 0, skipped: 0, crop };
    assert_eq!(card(&mosaic(2, 2).without(256).file()), expected);
}

#[test]
fn every_window_inside_is_cut_from_the_frame() {
    for dng in [offset_area(), linear(4, 3)] {
        let file = dng.file();
        let card = card(&file);
        let whole = frame_of(&file);
        let samples = card.samples as usize;
        for top in 0..3 {
            for left in 0..4 {
                for height in 1..=3 - top {
                    for width in 1..=4 - left {
                        let mut out = vec![UNTOUCHED; (height * width) as usize * samples];
                        assert_eq!(window(&file, top, left, height, width, &mut out), DONE);
                        let expected: Vec<f64> = (top..top + height)
                            .flat_map(|row| {
                                let start = (row * 4 + left) as usize * samples;
                                whole[start..start + width as usize * samples].to_vec()
                            })
                            .collect();
                        assert_eq!(out, expected);
                    }
                }
            }
        }
    }
}

#[test]
fn a_window_empty_or_outside_is_refused_by_13() {
    let file = offset_area().file();
    assert_eq!(ask(&file, 0, 0, 3, 4, 12), (DONE, false));
    for (top, left, height, width) in [
        (0, 0, 0, 4),
        (0, 0, 3, 0),
        (0, 0, 0, 0),
        (3, 0, 0, 1),
        (0, 0, 4, 4),
        (0, 0, 3, 5),
        (1, 0, 3, 4),
        (0, 1, 3, 4),
        (3, 0, 1, 1),
        (0, 4, 1, 1),
    ] {
        for slice in [0, 1, 12, (height * width) as usize] {
            assert_eq!(ask(&file, top, left, height, width, slice), (refusal(13, 0), true));
        }
    }
}

#[test]
fn huge_arguments_do_not_wrap() {
    let file = offset_area().file();
    for huge in HUGE {
        for (top, left, height, width) in [
            (huge, 0, 1, 1),
            (0, huge, 1, 1),
            (0, 0, huge, 1),
            (0, 0, 1, huge),
            (huge, huge, huge, huge),
            (1, 0, huge, 1),
            (2, 0, huge, 1),
            (0, 2, 1, huge),
            (huge, 0, 2, 1),
            (huge, 0, u64::MAX - huge + 2, 1),
            (0, huge, 1, u64::MAX - huge + 2),
        ] {
            assert_eq!(ask(&file, top, left, height, width, 1), (refusal(13, 0), true));
            let mut out = [UNTOUCHED; 3];
            assert_eq!(
                colour_window(&coloured(4, 3).file(), top, left, height, width, &mut out),
                refusal(13, 0)
            );
            assert_eq!(out, [UNTOUCHED; 3]);
        }
        for (row, column, plane) in [(huge, 0, 0), (0, huge, 0), (0, 0, huge), (huge, huge, huge)] {
            assert_eq!(spot(&file, row, column, plane), (refusal(13, 0), 0.0));
        }
    }
}

#[test]
fn a_slice_of_another_length_is_refused_by_14() {
    let file = offset_area().file();
    for slice in (0..20).filter(|n| *n != 6) {
        assert_eq!(ask(&file, 1, 1, 2, 3, slice), (refusal(14, 0), true));
    }
    assert_eq!(ask(&file, 1, 1, 2, 3, 6), (DONE, false));
    let file = coloured(4, 3).file();
    for slice in 0..20 {
        let mut out = vec![UNTOUCHED; slice];
        let expected = if slice == 18 { DONE } else { refusal(14, 0) };
        assert_eq!(window(&file, 1, 1, 2, 3, &mut out), expected);
        let mut out = vec![UNTOUCHED; slice];
        assert_eq!(colour_window(&file, 1, 1, 2, 3, &mut out), expected);
        assert_eq!(out.iter().all(|v| *v == UNTOUCHED), slice != 18);
    }
}

#[test]
fn refusal_13_comes_before_14() {
    assert_eq!(ask(&offset_area().file(), 0, 0, 4, 4, 1).0, refusal(13, 0));
    let mut out = [UNTOUCHED; 2];
    assert_eq!(colour_window(&coloured(2, 2).file(), 0, 0, 3, 1, &mut out), refusal(13, 0));
}

#[test]
fn file_refusals_come_before_13() {
    let broken = mosaic(2, 2).without(262).file();
    assert_eq!(ask(&broken, 0, 0, 0, 0, 0), (refusal(5, 262), true));
    assert_eq!(spot(&broken, 9, 9, 9), (refusal(5, 262), 0.0));
    let list = mosaic(2, 2).with(Tag::undefined(51009, &[0; 5])).file();
    assert_eq!(ask(&list, 9, 9, 9, 9, 1), (refusal(10, 0), true));
    assert_eq!(spot(&list, 9, 9, 9), (refusal(10, 0), 0.0));
    // 15 and the colour tags too.
    assert_eq!(colour_window(&mosaic(2, 2).file(), 9, 9, 9, 9, &mut []), refusal(15, 0));
    assert_eq!(colour_window(&linear(2, 2).file(), 9, 9, 9, 9, &mut []), refusal(5, 50964));
}

#[test]
fn a_refused_slice_is_untouched_and_a_refused_spot_is_positive_zero() {
    let broken = mosaic(2, 2).without(262).file();
    let mut out = [UNTOUCHED; 4];
    assert_eq!(window(&broken, 0, 0, 2, 2, &mut out), refusal(5, 262));
    assert_eq!(colour_window(&broken, 0, 0, 2, 2, &mut out), refusal(5, 262));
    assert_eq!(colour_window(&mosaic(2, 2).file(), 0, 0, 2, 2, &mut out), refusal(15, 0));
    assert_eq!(out, [UNTOUCHED; 4]);
    assert_eq!(spot(&broken, 0, 0, 0).1.to_bits(), 0);
    assert_eq!(spot(&mosaic(2, 2).file(), 2, 0, 0).1.to_bits(), 0);
}

#[test]
fn spots_agree_with_the_frame_and_end_with_it() {
    for dng in [offset_area(), linear(4, 3)] {
        let file = dng.file();
        let samples = card(&file).samples;
        let whole = frame_of(&file);
        let mut place = 0;
        for row in 0..3 {
            for column in 0..4 {
                for plane in 0..samples {
                    assert_eq!(spot_value(&file, row, column, plane).to_bits(), whole[place].to_bits());
                    place += 1;
                }
            }
        }
        for (row, column, plane) in [(3, 0, 0), (0, 4, 0), (0, 0, samples)] {
            assert_eq!(spot(&file, row, column, plane).0, refusal(13, 0));
        }
    }
}

#[test]
fn a_colour_window_is_cut_from_the_whole_colour() {
    let dng = coloured(4, 3);
    let whole = colours(&dng);
    let mut out = [UNTOUCHED; 12];
    assert_eq!(colour_window(&dng.file(), 1, 2, 2, 2, &mut out), DONE);
    assert_eq!(out[..6], whole[(4 + 2) * 3..(4 + 4) * 3]);
    assert_eq!(out[6..], whole[(8 + 2) * 3..(8 + 4) * 3]);
}
