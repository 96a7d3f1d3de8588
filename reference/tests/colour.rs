//! Colour: refusal 15, the tags of IFD 0, and the arithmetic of X, Y, Z.

mod common;

use common::*;
use reference::builder::{Dng, Tag};
use reference::random::Random;

fn coloured() -> Dng {
    linear(3, 2).with_first(matrix(&[(1, 1); 9])).with_first(neutral(&[(1, 1); 3]))
}

fn matrix(values: &[(i32, i32)]) -> Tag {
    Tag::srationals(50964, values)
}

fn neutral(values: &[(u32, u32)]) -> Tag {
    Tag::rationals(50728, values)
}

#[track_caller]
fn colour_refuses(dng: &Dng, number: u32, detail: u32) {
    assert_eq!(colour_answer(dng), refusal(number, detail));
}

#[test]
fn a_mosaic_has_no_colour() {
    colour_refuses(&mosaic(2, 2), 15, 0);
    let tags = mosaic(2, 2).with_first(matrix(&[(1, 1); 9])).with_first(neutral(&[(1, 1); 3]));
    colour_refuses(&tags, 15, 0);
    // 15 comes before the colour tags, and after the lists.
    colour_refuses(&mosaic(2, 2).with_first(Tag::shorts(50723, &[1])), 15, 0);
    colour_refuses(&mosaic(2, 2).with(Tag::undefined(51009, &[0; 5])), 10, 0);
}

#[test]
fn other_profiles_are_not_carried_whatever_their_type() {
    assert_eq!(colour_answer(&coloured()), DONE);
    for tag in [50723u16, 50727, 50965] {
        for kind in [0, 1, 3, 10, 14, 65_535] {
            colour_refuses(&coloured().with_first(Tag::bytes(tag, &[0]).with_kind(kind)), 8, tag.into());
            colour_refuses(&coloured().with_first(Tag::bytes(tag, &[]).with_kind(kind)), 8, tag.into());
        }
    }
}

#[test]
fn the_forward_matrix_is_nine_srationals() {
    colour_refuses(&coloured().without(50964), 5, 50964);
    for count in [0, 1, 8, 10] {
        colour_refuses(&coloured().with_first(matrix(&vec![(1, 1); count])), 4, 50964);
    }
    for kind in [3, 4, 5, 9, 12, 14] {
        colour_refuses(&coloured().with_first(matrix(&[(1, 1); 9]).with_kind(kind)), 4, 50964);
    }
    for place in 0..9 {
        let mut values = [(1, 1); 9];
        values[place] = (1, 0);
        colour_refuses(&coloured().with_first(matrix(&values)), 4, 50964);
        values[place] = (0, -3);
        assert_eq!(colour_answer(&coloured().with_first(matrix(&values))), DONE);
    }
}

#[test]
fn the_neutral_is_three_shorts_or_rationals_without_zeros() {
    colour_refuses(&coloured().without(50728), 5, 50728);
    for count in [0, 1, 2, 4, 9] {
        colour_refuses(&coloured().with_first(neutral(&vec![(1, 1); count])), 4, 50728);
    }
    for kind in [1, 4, 9, 10, 12, 14] {
        colour_refuses(&coloured().with_first(neutral(&[(1, 1); 3]).with_kind(kind)), 4, 50728);
    }
    for place in 0..3 {
        for zero in [(0, 1), (1, 0), (0, 0)] {
            let mut values = [(1, 1); 3];
            values[place] = zero;
            colour_refuses(&coloured().with_first(neutral(&values)), 4, 50728);
        }
        let mut shorts = [1; 3];
        shorts[place] = 0;
        colour_refuses(&coloured().with_first(Tag::shorts(50728, &shorts)), 4, 50728);
    }
    assert_eq!(colour_answer(&coloured().with_first(Tag::shorts(50728, &[1, 65_535, 2]))), DONE);
}

#[test]
fn colour_tags_stand_in_ifd_0() {
    let mut dng = coloured().nested(2);
    assert_eq!(colour_answer(&dng), DONE);
    dng.raw_ifd().set(Tag::bytes(50723, &[1]));
    assert_eq!(colour_answer(&dng), DONE);
    let moved = dng.first_ifd().get(50964).unwrap().clone();
    dng.first_ifd().remove(50964);
    dng.raw_ifd().set(moved);
    colour_refuses(&dng, 5, 50964);
}

#[test]
fn the_other_calls_do_not_test_colour() {
    let bad = linear(3, 2).with_first(Tag::bytes(50723, &[1])).with_first(matrix(&[(1, 0)]));
    accepts(&bad);
    assert_eq!(frame(&bad).len(), 18);
}

#[test]
fn the_sums_are_rounded_in_the_stated_order() {
    let random = &mut Random::new(3);
    let mut other_order_differs = false;
    for _ in 0..200 {
        let m: Vec<(i32, i32)> =
            (0..9).map(|_| (random.any() as i32, random.pick(&[1, 3, -7, 10_000, i32::MIN]))).collect();
        let n: Vec<(u32, u32)> = (0..3).map(|_| (random.small(1, 999), random.small(1, 999))).collect();
        let dng = linear(3, 2).with_first(matrix(&m)).with_first(neutral(&n));
        let samples = frame(&dng);
        let quotients: Vec<f64> = m.iter().map(|(a, b)| f64::from(*a) / f64::from(*b)).collect();
        let mut expected = Vec::new();
        for pixel in samples.chunks(3) {
            let p: Vec<f64> = (0..3).map(|i| pixel[i] / (f64::from(n[i].0) / f64::from(n[i].1))).collect();
            for row in quotients.chunks(3) {
                expected.push((row[0] * p[0] + row[1] * p[1]) + row[2] * p[2]);
                other_order_differs |=
                    row[0] * p[0] + (row[1] * p[1] + row[2] * p[2]) != expected[expected.len() - 1];
            }
        }
        assert_eq!(bits(&colours(&dng)), bits(&expected));
    }
    assert!(other_order_differs);
}

#[test]
fn colour_is_not_clipped() {
    let dng = row_of_pixels(&[65_535, 65_535, 65_535])
        .with_first(matrix(&[(-3, 1), (0, 1), (0, 1), (0, -1), (0, 1), (0, 1), (1, 1), (1, 1), (1, 1)]))
        .with_first(Tag::shorts(50728, &[1, 1, 1]));
    assert_eq!(colours(&dng), [-3.0, 0.0, 3.0]);
}

#[test]
fn a_negative_zero_is_kept() {
    let dng =
        row_of_pixels(&[65_535, 0, 0]).with_first(matrix(&[(0, -1); 9])).with_first(neutral(&[(1, 1); 3]));
    // -0.0 * 1 + -0.0 * 0 + -0.0 * 0
    assert_eq!(bits(&colours(&dng)), [1 << 63; 3]);
}

fn row_of_pixels(stored: &[u16]) -> Dng {
    use reference::builder::Picture;
    let width = stored.len() as u32 / 3;
    let picture = Picture { stored: stored.to_vec(), ..Picture::counting(width, 1, 3, 16) };
    Dng::new(reference::bytes::ByteOrder::Big, &picture)
}
