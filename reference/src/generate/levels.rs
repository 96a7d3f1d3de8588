//! Black levels, deltas and white levels of a valid file: repeats with more
//! cells than the active area has rows or columns, cells that meet no sample,
//! deltas whose greatest meet or never meet, and white levels close above.

use crate::builder::{Dng, Tag};
use crate::levels::Levels;
use crate::random::Random;
use crate::tag_test::Fraction;

/// The active area, and the samples of a pixel and their bits.
#[derive(Clone, Copy)]
pub struct Frame {
    pub rows: u32,
    pub columns: u32,
    pub samples: u32,
    pub bits: u32,
}

const DENOMINATORS: [u32; 9] = [1, 2, 4, 8, 16, 32, 64, 128, 256];
const GREATEST_REPEAT: u32 = 8;

/// Gives the greatest black of each plane, in 256ths, which every white is
/// above.
pub fn choose(random: &mut Random, dng: &mut Dng, frame: Frame) -> Vec<i128> {
    let (mut repeat, mut black) = ([1, 1], vec![(0, 1); frame.samples as usize]);
    if !random.one_in(3) {
        repeat = choose_repeat(random, dng, frame);
        black = choose_black(random, dng, frame, repeat);
    }
    let chances = if repeat == [1, 1] { 3 } else { 2 };
    let [columns, rows] = [(50715, frame.columns), (50716, frame.rows)].map(|(tag, count)| {
        if random.one_in(chances) {
            choose_deltas(random, dng, tag, count)
        } else {
            vec![(0, 1); count as usize]
        }
    });
    choose_whites(random, dng, frame, repeat, &black, [&columns, &rows])
}

/// For tables: a repeat of any size, the small ones more often, and as a rule no
/// deltas.
pub fn choose_for_tables(random: &mut Random, dng: &mut Dng, frame: Frame) -> Vec<i128> {
    let any = [(); 2].map(|()| random.small(1, GREATEST_REPEAT));
    let few = random.pick(&[[1, 1], [2, 2], [2, 2], [2, 1], [1, 3], [3, 2], [3, 2], [4, 4], [8, 8]]);
    let repeat = random.pick(&[few, few, any]);
    if repeat != [1, 1] || random.one_in(2) {
        dng.raw_ifd().set(Tag::shorts(50713, &repeat.map(|lines| lines as u16)));
    }
    let black = if random.one_in(8) {
        vec![(0, 1); (repeat[0] * repeat[1]) as usize]
    } else {
        choose_black(random, dng, frame, repeat)
    };
    let [columns, rows] = choose_few_deltas(random, dng, frame);
    choose_whites(random, dng, frame, repeat, &black, [&columns, &rows])
}

/// In one file of three: of the columns, of the rows, of both, or all 0 of either.
fn choose_few_deltas(random: &mut Random, dng: &mut Dng, frame: Frame) -> [Vec<(i32, i32)>; 2] {
    let choice = random.index(15);
    [(50715, frame.columns, [0, 2], 3), (50716, frame.rows, [1, 2], 4)].map(|(tag, count, any, zeros)| {
        let none = vec![(0, 1); count as usize];
        if any.contains(&choice) {
            return choose_deltas(random, dng, tag, count);
        }
        if choice == zeros {
            dng.raw_ifd().set(Tag::srationals(tag, &none));
        }
        none
    })
}

/// Of every plane above its greatest black, which it gives.
fn choose_whites(
    random: &mut Random,
    dng: &mut Dng,
    frame: Frame,
    repeat: [u32; 2],
    black: &[(u32, u32)],
    [columns, rows]: [&[(i32, i32)]; 2],
) -> Vec<i128> {
    let (repeat_rows, repeat_columns) = (repeat[0].into(), repeat[1].into());
    let no_white = vec![(0u32, 1); frame.samples as usize];
    let levels = Levels::new(
        (repeat_rows, repeat_columns, frame.samples.into()),
        &fractions(black),
        &fractions(columns),
        &fractions(rows),
        &fractions(&no_white),
    );
    let greatest: Vec<i128> = (0..frame.samples.into()).map(|plane| levels.greatest_black(plane)).collect();
    choose_white(random, dng, frame, &greatest);
    greatest
}

fn fractions<T: Copy + Into<i128>>(values: &[(T, T)]) -> Vec<Fraction> {
    values.iter().map(|(n, d)| Fraction { numerator: (*n).into(), denominator: (*d).into() }).collect()
}

/// Rows and columns of the repeat, whose tag may be left out where both are 1.
fn choose_repeat(random: &mut Random, dng: &mut Dng, frame: Frame) -> [u32; 2] {
    if random.one_in(3) {
        return [1, 1];
    }
    let greatest = random.pick(&[2, 2, 3, GREATEST_REPEAT]);
    let [rows, columns] = [frame.rows, frame.columns].map(|lines| {
        if lines < GREATEST_REPEAT && random.one_in(4) {
            random.small(lines + 1, GREATEST_REPEAT)
        } else {
            random.small(1, greatest)
        }
    });
    dng.raw_ifd().set(Tag::shorts(50713, &[rows as u16, columns as u16]));
    [rows, columns]
}

/// As often as not, a cell that meets no sample is far above the others.
fn choose_black(
    random: &mut Random,
    dng: &mut Dng,
    frame: Frame,
    [rows, columns]: [u32; 2],
) -> Vec<(u32, u32)> {
    let denominators = if random.one_in(2) { &DENOMINATORS[..1] } else { &DENOMINATORS };
    let top = if frame.bits == 8 { 60 } else { random.pick(&[60, 600, 30_000]) };
    let top_of_unmet = random.pick(&[top, 65_535]);
    let mut black = Vec::new();
    for cell in 0..rows * columns * frame.samples {
        let (row, column) = (cell / frame.samples / columns, cell / frame.samples % columns);
        let met = row < frame.rows && column < frame.columns;
        let denominator = random.pick(denominators);
        let greatest = if met { top } else { top_of_unmet };
        black.push((random.small(0, greatest * denominator), denominator));
    }
    let wholes: Vec<u32> = black.iter().map(|(n, _)| *n).collect();
    let tag = if denominators.len() > 1 { Tag::rationals(50714, &black) } else { Tag::longs(50714, &wholes) };
    let tag = if random.one_in(2) { tag.shortened() } else { tag };
    dng.raw_ifd().set(tag);
    black
}

/// Of either sign, all below 0, or one of them far above the others.
fn choose_deltas(random: &mut Random, dng: &mut Dng, tag: u16, count: u32) -> Vec<(i32, i32)> {
    let kind = random.index(3);
    let far_above = random.small(0, count - 1);
    let mut deltas = Vec::new();
    for line in 0..count {
        let one = i64::from(random.pick(&DENOMINATORS));
        let delta = match kind {
            0 => random.between(-6 * one, -1),
            1 if line == far_above => random.between(7 * one, 90 * one),
            _ => random.between(-6 * one, 6 * one),
        };
        deltas.push((delta as i32, one as i32));
    }
    dng.raw_ifd().set(Tag::srationals(tag, &deltas));
    deltas
}

/// Often the least that is above the greatest black of its plane.
fn choose_white(random: &mut Random, dng: &mut Dng, frame: Frame, greatest_black: &[i128]) {
    let default = (1 << frame.bits) - 1;
    let least: Vec<i64> = greatest_black.iter().map(|m| (m.div_euclid(256) as i64 + 1).max(0)).collect();
    if least.iter().all(|least| *least <= default) && random.one_in(3) {
        return;
    }
    let mut white = |least: &i64| match random.index(3) {
        0 => *least as u32,
        1 => random.between(*least, 65_535) as u32,
        _ => default.max(*least) as u32,
    };
    let tag = Tag::longs(50717, &least.iter().map(&mut white).collect::<Vec<u32>>());
    let tag = if random.one_in(2) { tag.shortened() } else { tag };
    dng.raw_ifd().set(tag);
}
