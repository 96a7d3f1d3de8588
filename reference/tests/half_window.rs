//! Half-size colour from mosaics (document 02, T-01): the blocks, their values,
//! and the windows of them.

mod common;

use common::*;
use reference::builder::{Area, Dng, Opcode, Picture, Tag};
use reference::bytes::{ByteOrder, LAYOUTS};
use reference::random::Random;
use reference::{blocks, card, colour_window, half_window, spot, window};

/// 16-bit samples with black 0 and white 65,535.
fn deep(width: u32, stored: &[u16]) -> Dng {
    let length = stored.len() as u32 / width;
    let picture = Picture { stored: stored.to_vec(), ..Picture::counting(width, length, 1, 16) };
    Dng::new(ByteOrder::Big, &picture)
}

/// The developed value of stored byte v with black 0 and white 255: L is 257 v.
fn byte(v: u32) -> f64 {
    f64::from(257 * v) / 65535.0
}

/// Red, both greens and blue of stored bytes.
fn block_of(red: u32, first: u32, second: u32, blue: u32) -> [f64; 3] {
    [byte(red), (byte(first) + byte(second)) * 0.5, byte(blue)]
}

/// A polynomial on one sample of a frame of two rows and two columns.
fn on_sample(row: u32, column: u32, coefficients: &[f64]) -> Opcode {
    let area = Area { top: row, left: column, bottom: row + 1, right: column + 1, ..Area::whole(2, 2, 1) };
    Opcode::map_polynomial(area, coefficients)
}

/// A block whose four samples are developed to these numbers.
fn block(numbers: [f64; 4], pattern: [u8; 4]) -> Dng {
    let opcodes = [(0, 0), (0, 1), (1, 0), (1, 1)].into_iter().zip(numbers);
    let opcodes: Vec<Opcode> =
        opcodes.map(|((row, column), number)| on_sample(row, column, &[number])).collect();
    with_pattern_and_colour(deep(2, &[9; 4]), pattern).with_opcodes(&opcodes)
}

/// Red, the mean of the greens and blue of one block.
#[test]
fn the_twelve_patterns() {
    for (pattern, expected) in blocks::VALUES {
        for (order, widths) in BOTH.into_iter().flat_map(|order| LAYOUTS.map(|widths| (order, widths))) {
            let dng = Dng { order, widths, ..block(blocks::SAMPLES, pattern) };
            assert_eq!(halves(&dng), expected, "{pattern:?}, {order:?}, {widths:?}");
            assert_eq!(halves(&dng.nested(1)), expected, "{pattern:?}, nested");
        }
    }
}

/// Board example 10: of a block of ones X is 1.75.
#[test]
fn the_three_values_go_through_the_colour_step() {
    let matrix = [(1, 2), (1, 4), (1, 4), (-3, 1), (0, 1), (0, 1), (0, 1), (2, 1), (0, -1)];
    let dng = block([1.0; 4], PATTERN)
        .with_first(Tag::srationals(50964, &matrix))
        .with_first(Tag::rationals(50728, &[(1, 2), (1, 1), (1, 2)]));
    assert_eq!(halves(&dng), [1.75, -6.0, 2.0]);
    // Only the green is halved, and it is divided by the second neutral.
    let dng =
        block([0.0, 0.5, 0.25, 0.0], PATTERN).with_first(Tag::rationals(50728, &[(1, 7), (1, 4), (9, 1)]));
    assert_eq!(halves(&dng), [0.0, 1.5, 0.0]);
}

/// Greens of 2^-1074, the least number above 0, which comes of 2^-52 times
/// 2^-1022, or of 0.
fn with_least(dng: Dng, greens: [bool; 2]) -> Dng {
    let opcodes = greens.into_iter().zip([(0, 1), (1, 0)]).flat_map(|(least, (row, column))| {
        let number = if least { f64::EPSILON } else { 0.0 };
        [on_sample(row, column, &[number]), on_sample(row, column, &[0.0, f64::MIN_POSITIVE])]
    });
    dng.with_opcodes(&opcodes.collect::<Vec<Opcode>>())
}

/// Half of the least number above 0 is +0.0, so that halves summed, or a half
/// of the difference added, would give other bits.
#[test]
fn the_sum_is_rounded_and_then_the_product() {
    let base = with_pattern_and_colour(deep(2, &[0; 4]), PATTERN);
    for (greens, expected) in [([true, true], 1), ([true, false], 0), ([false, true], 0), ([false, false], 0)]
    {
        let dng = with_least(base.clone(), greens);
        assert_eq!(bits(&halves(&dng)), [0, expected, 0], "{greens:?}");
    }
    // 1 + 3 x 2^-54 is between 1 and the next number, nearer to the next.
    let (first, second) = (0.75, 0.25 + 3.0 / (1u64 << 54) as f64);
    let dng = block([0.0, first, second, 0.0], PATTERN);
    assert_eq!(halves(&dng)[1], 0.5 + 1.0 / (1u64 << 53) as f64);
}

/// X, Y and Z of the mean; the mean of two X, Y and Z would have other bits.
#[test]
fn the_mean_is_taken_before_the_colour_step() {
    let random = &mut Random::new(5);
    let mut other_order_differs = false;
    for _ in 0..100 {
        let m = [(); 9].map(|()| (random.any() as i32, random.pick(&[1, 3, -7, 10_000, i32::MIN])));
        let n = [(); 3].map(|()| (random.small(1, 999), random.small(1, 999)));
        let stored = [(); 4].map(|()| random.any() as u16);
        let dng = with_pattern_and_colour(deep(2, &stored), PATTERN)
            .with_first(Tag::srationals(50964, &m))
            .with_first(Tag::rationals(50728, &n));
        let samples = frame(&dng);
        let matrix = m.map(|(a, b)| f64::from(a) / f64::from(b));
        let neutral = n.map(|(a, b)| f64::from(a) / f64::from(b));
        let colour = |green: f64| {
            let p = [samples[0] / neutral[0], green / neutral[1], samples[3] / neutral[2]];
            [0, 3, 6].map(|row: usize| (matrix[row] * p[0] + matrix[row + 1] * p[1]) + matrix[row + 2] * p[2])
        };
        let expected = colour((samples[1] + samples[2]) * 0.5);
        assert_eq!(bits(&halves(&dng)), bits(&expected));
        let [first, second] = [colour(samples[1]), colour(samples[2])];
        other_order_differs |= (0..3).any(|i| (first[i] + second[i]) * 0.5 != expected[i]);
    }
    assert!(other_order_differs);
}

/// Two rows and three columns of blocks: 5 x 7 samples that count up.
#[test]
fn blocks_stand_row_by_row_from_the_corner() {
    let expected = [
        block_of(0, 1, 7, 8),
        block_of(2, 3, 9, 10),
        block_of(4, 5, 11, 12),
        block_of(14, 15, 21, 22),
        block_of(16, 17, 23, 24),
        block_of(18, 19, 25, 26),
    ];
    for widths in LAYOUTS {
        let dng = Dng { widths, ..counting_mosaic(7, 5) };
        assert_eq!(bits(&halves(&dng)), bits(&expected.concat()));
        let mut one = [UNTOUCHED; 3];
        assert_eq!(half_window(&dng.file(), 1, 2, 1, 1, &mut one), DONE);
        assert_eq!(bits(&one), bits(&expected[5]));
        let mut four = [UNTOUCHED; 12];
        assert_eq!(half_window(&dng.file(), 0, 1, 2, 2, &mut four), DONE);
        let cut = [expected[1], expected[2], expected[4], expected[5]];
        assert_eq!(bits(&four), bits(&cut.concat()));
    }
}

/// The pattern and the blocks begin at the active corner, wherever it stands.
#[test]
fn the_pattern_counts_from_the_active_corner() {
    // 6 stored columns; the corner is at row t, column l, and the area has 2 x 2 samples or more.
    for (top, left) in [(0, 0), (0, 1), (1, 0), (1, 1), (2, 1), (1, 2), (2, 3)] {
        let dng = counting_mosaic(6, 5).with(Tag::longs(50829, &[top, left, 5, 6]));
        let first = 6 * top + left;
        let expected = block_of(first, first + 1, first + 6, first + 7);
        assert_eq!(bits(&halves(&dng)[..3]), bits(&expected), "corner {top}, {left}");
    }
    // Counted from the stored corner, red would be the block's last sample.
    let dng = counting_mosaic(5, 5).with(Tag::longs(50829, &[1, 1, 3, 3]));
    assert_eq!(bits(&halves(&dng)), bits(&block_of(6, 7, 11, 12)));
}

/// Black levels repeat from the same corner, each colour with its own.
#[test]
fn each_sample_has_its_own_black() {
    let dng = with_pattern_and_colour(deep(2, &[10, 20, 30, 65_535]), PATTERN)
        .with(Tag::shorts(50713, &[2, 2]))
        .with(Tag::shorts(50714, &[10, 19, 28, 0]));
    // S is 65,507: L of 1 and 2 above black are 1 and 2.
    let expected = [0.0, (1.0 / 65535.0 + 2.0 / 65535.0) * 0.5, 1.0];
    assert_eq!(bits(&halves(&dng)), bits(&expected));
}

/// A grid of pitch 2 both ways is one place of every block.
#[test]
fn a_correction_may_touch_one_colour() {
    for (place, (top, left)) in [(0, 0), (0, 1), (1, 0), (1, 1)].into_iter().enumerate() {
        let area = Area { top, left, row_pitch: 2, column_pitch: 2, ..Area::whole(4, 4, 1) };
        let picture = Picture { stored: vec![255; 16], ..Picture::counting(4, 4, 1, 8) };
        let dng = with_pattern_and_colour(Dng::new(ByteOrder::Little, &picture), PATTERN)
            .with_opcodes(&[Opcode::map_polynomial(area, &[0.5])]);
        let expected = [[0.5, 1.0, 1.0], [1.0, 0.75, 1.0], [1.0, 0.75, 1.0], [1.0, 1.0, 0.5]][place];
        assert_eq!(halves(&dng), expected.repeat(4));
    }
}

/// A mean taken before the list would be 0.5, and clipped to 1 by a delta of 0.75.
#[test]
fn the_values_are_developed_ones() {
    let delta = Opcode::per_line(10, Area::whole(2, 2, 1), &[0.75, 0.75]);
    let dng = with_pattern_and_colour(deep(2, &[0, 0, 65_535, 0]), PATTERN).with_opcodes(&[delta]);
    assert_eq!(halves(&dng), [0.75, 0.875, 0.75]);
}

/// Above 2^16 samples the values are worked out one by one.
#[test]
fn a_great_frame_has_the_same_blocks() {
    let dng = counting_mosaic(600, 200);
    let whole = halves(&dng);
    for (row, column) in [(0, 0), (3, 7), (99, 299), (50, 150)] {
        let sample = |down: u32, across: u32| ((2 * row + down) * 600 + 2 * column + across) % 256;
        let expected = block_of(sample(0, 0), sample(0, 1), sample(1, 0), sample(1, 1));
        let start = ((row * 300 + column) * 3) as usize;
        assert_eq!(bits(&whole[start..start + 3]), bits(&expected));
    }
}

/// "an active area with no whole block makes every window 13"
#[test]
fn an_area_without_a_block_has_no_window() {
    for (width, length) in [(1, 1), (1, 2), (2, 1), (1, 7), (9, 1)] {
        let file = counting_mosaic(width, length).file();
        assert_eq!(card(&file).answer(), DONE);
        for rectangle in [[0, 0, 1, 1], [0; 4], [0, 0, 0, 1], [0, 0, 1, 0], [0, 0, 4, 1], [1, 1, 1, 1]] {
            for slice in [0, 1, 3, 12] {
                assert_eq!(ask_half(&file, rectangle, slice), (refusal(13, 0), true), "{width} x {length}");
            }
        }
    }
    // An area of one row in a greater frame.
    let file = counting_mosaic(6, 6).with(Tag::longs(50829, &[1, 0, 2, 6])).file();
    assert_eq!(ask_half(&file, [0, 0, 1, 1], 3), (refusal(13, 0), true));
}

#[test]
fn windows_count_in_blocks() {
    // 5 x 7 samples: 2 x 3 blocks.
    let file = counting_mosaic(7, 5).file();
    for (top, height) in (0..5).flat_map(|top| (0..5).map(move |height| (top, height))) {
        for (left, width) in (0..6).flat_map(|left| (0..6).map(move |width| (left, width))) {
            let inside = height > 0 && width > 0 && top + height <= 2 && left + width <= 3;
            let right = (height * width * 3) as usize;
            for slice in [right, right + 1, right.saturating_sub(1), (height * width) as usize, 0] {
                let expected = match (inside, slice == right) {
                    (false, _) => (refusal(13, 0), true),
                    (true, false) => (refusal(14, 0), true),
                    (true, true) => (DONE, false),
                };
                assert_eq!(ask_half(&file, [top, left, height, width], slice), expected);
            }
        }
    }
}

#[test]
fn huge_arguments_do_not_wrap() {
    let file = counting_mosaic(7, 5).file();
    let half = 1u64 << 63;
    for huge in [u64::MAX, u64::MAX - 1, half, half + 1, 1 << 32] {
        for rectangle in [
            [huge, 0, 1, 1],
            [0, huge, 1, 1],
            [0, 0, huge, 1],
            [0, 0, 1, huge],
            [huge; 4],
            [1, 0, huge, 1],
            [2, 0, huge, 1],
            [0, 1, 1, huge],
            [huge, 0, u64::MAX - huge + 2, 1],
            [0, huge, 1, u64::MAX - huge + 2],
            [0, 0, huge, huge],
        ] {
            for slice in [0, 1, 3] {
                assert_eq!(ask_half(&file, rectangle, slice), (refusal(13, 0), true), "{rectangle:?}");
            }
        }
    }
}

/// The three other calls, whose answers a refused half window leaves alone.
#[test]
fn a_refused_slice_is_untouched() {
    let mut out = [UNTOUCHED; 3];
    for (dng, expected) in [
        (mosaic(2, 2), refusal(5, 50964)),
        (counting_mosaic(2, 2).without(33422), refusal(5, 33422)),
        (linear(2, 2), refusal(15, 0)),
        (mosaic(2, 2).without(262), refusal(5, 262)),
    ] {
        assert_eq!(half_window(&dng.file(), 0, 0, 1, 1, &mut out), expected);
        assert_eq!(out, [UNTOUCHED; 3]);
    }
    let file = counting_mosaic(2, 2).without(33422).file();
    assert_eq!(spot(&file, 1, 1, 0), (DONE, byte(3)));
    assert_eq!(window(&file, 0, 0, 1, 1, &mut out[..1]), DONE);
    assert_eq!(colour_window(&file, 0, 0, 1, 1, &mut out), refusal(15, 0));
}

/// A stored sample changes the colour of its own block and of no other; one of
/// a last odd row or column changes none.
#[test]
fn one_sample_is_in_one_block() {
    let dng = counting_mosaic(7, 5).with(Tag::longs(50829, &[0, 1, 5, 6]));
    let layout = dng.layout();
    let before = halves(&dng);
    for (row, column) in (0..5).flat_map(|row| (0..7).map(move |column| (row, column))) {
        let file = poked(&layout.file, layout.blocks[0] + 7 * row + column, &[200]);
        let mut after = vec![UNTOUCHED; 12];
        assert_eq!(half_window(&file, 0, 0, 2, 2, &mut after), DONE);
        for (place, (old, new)) in before.chunks(3).zip(after.chunks(3)).enumerate() {
            let inside =
                (1..5).contains(&column) && row < 4 && (row / 2, (column - 1) / 2) == (place / 2, place % 2);
            assert_eq!(bits(old) != bits(new), inside, "sample {row}, {column}, block {place}");
        }
    }
}
