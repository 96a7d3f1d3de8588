//! "How far off can a level be?" (document 02, T-11): "where 0 <= D <= S, twice
//! the distance between L x S and 65535 x D is at most S", and "at one place in
//! one file, if the LinearizationTable never falls, a larger stored sample never
//! gives a smaller L". Then what the first makes of a ratio of two planes.

mod common;

use common::*;
use reference::builder::{Dng, Layout, Picture, Tag};
use reference::bytes::{ByteOrder, LAYOUTS};
use reference::develop::accept;
use reference::levels::Levels;
use reference::random::Random;
use reference::tag_test::Fraction;

/// 65,535 in 256ths.
const FULL: i128 = 256 * 65_535;

/// A white level of 65,535 above a column's and a row's delta of -65,535.
const GREATEST_S: i128 = 3 * FULL;

/// Small S, every D of which is looked at. The last have a half for every odd D,
/// and none.
fn small_s() -> impl Iterator<Item = i128> {
    (1..=300).chain([510, 512, 514, 768, 1_001, 7_710, 65_535, 65_536, 131_070, 131_071])
}

/// S with many halves, with few and with none, up to the greatest.
const LARGE_S: [i128; 18] = [
    256 * 1_023,
    256 * 43_690,
    256 * 26_214,
    256 * 65_534,
    FULL - 1,
    FULL,
    FULL + 1,
    FULL + 2,
    1 << 24,
    (1 << 25) - 1,
    1 << 25,
    2 * FULL - 1,
    2 * FULL,
    2 * FULL + 2,
    255 * 131_070,
    GREATEST_S - 256,
    GREATEST_S - 1,
    GREATEST_S,
];

/// D at both clips and outside, and at every half of 65535 D / S or on both sides
/// of it.
fn hard(s: i128) -> Vec<i128> {
    let ends = [-65_536, -257, -256, -255, -1, 0, 1, 2, s - 2, s - 1, s, s + 1, s + 255, s + 256, s + 65_536];
    let halves = (0..65_535).map(|l| (2 * l + 1) * s / (2 * 65_535));
    halves.flat_map(|half| [half - 1, half, half + 1]).chain(ends).collect()
}

/// L of each D. In 256ths the first column has the greatest black, and every
/// other one the greatest that leaves its D to a whole value.
fn levels_of(s: i128, all_d: &[i128]) -> Vec<i128> {
    const GREATEST_BLACK: i128 = 256 * 300;
    let value = |d: i128| (GREATEST_BLACK + d).div_euclid(256);
    let in_256ths = |numerator: i128| Fraction { numerator, denominator: 256 };
    let deltas = all_d.iter().map(|d| 256 * value(*d) - d - GREATEST_BLACK);
    let deltas: Vec<Fraction> = [0].into_iter().chain(deltas).map(in_256ths).collect();
    let [black, white] = [GREATEST_BLACK, GREATEST_BLACK + s].map(in_256ths);
    let levels = Levels::new((1, 1, 1), &[black], &deltas, &[in_256ths(0)], &[white]);
    (1..).zip(all_d).map(|(column, d)| levels.level(value(*d) as u64, 0, column, 0)).collect()
}

/// Twice the distance between L x S and 65535 x D.
fn twice_off(l: i128, d: i128, s: i128) -> i128 {
    2 * (l * s - 65_535 * d).abs()
}

/// Clipped outside of 0 <= D <= S. Inside, twice the distance is at most S, and as
/// much only at a half, which goes up.
fn near(l: i128, d: i128, s: i128) -> bool {
    if d < 0 {
        return l == 0;
    } else if d > s {
        return l == 65_535;
    }
    let off = twice_off(l, d, s);
    let half = 2 * 65_535 * d % (2 * s) == s;
    off <= s && (off == s) == half && (!half || l * s > 65_535 * d)
}

#[track_caller]
fn is_near(l: i128, d: i128, s: i128) {
    assert!(near(l, d, s), "L {l}, D {d}, S {s}");
}

#[track_caller]
fn all_are_near(s: i128, all_d: &[i128]) {
    levels_of(s, all_d).into_iter().zip(all_d).for_each(|(l, d)| is_near(l, *d, s));
}

#[test]
fn every_level_of_a_small_s_is_near() {
    for s in small_s() {
        all_are_near(s, &(-300..s + 300).collect::<Vec<_>>());
    }
}

#[test]
fn hard_levels_of_a_large_s_are_near() {
    for s in LARGE_S {
        all_are_near(s, &hard(s));
    }
}

fn common_divisor(a: i128, b: i128) -> i128 {
    if b == 0 {
        a
    } else {
        common_divisor(b, a % b)
    }
}

/// 65535 D / S is half an odd number where D is an odd multiple of S / g, for the
/// greatest common divisor g of 2 x 65535 and S, if S is even. Gives S / g and how
/// many such D there are.
fn exact_halves(s: i128) -> (i128, i128) {
    let g = common_divisor(2 * 65_535, s);
    (s / g, if s % 2 == 0 { g / 2 } else { 0 })
}

/// So S is the least bound for an even S. Of an odd one twice a distance, which is
/// even, comes to S - 1 at the most.
#[test]
fn a_half_is_off_by_just_s() {
    let mut all_halves = 0;
    for s in small_s().chain(LARGE_S) {
        let (step, count) = exact_halves(s);
        let all_d: Vec<i128> = (0..count).map(|i| (2 * i + 1) * step).collect();
        assert_eq!(all_d.is_empty(), s % 2 == 1);
        all_halves += all_d.len();
        for (l, d) in levels_of(s, &all_d).into_iter().zip(&all_d) {
            assert_eq!(twice_off(l, *d, s), s, "D {d}, S {s}");
        }
    }
    assert!(all_halves > 300_000, "{all_halves}");
    for s in [1, 3, 7, 255, 257, 1_001, 65_535, 131_071] {
        let all_d: Vec<i128> = (0..=s).collect();
        let off = levels_of(s, &all_d).into_iter().zip(&all_d).map(|(l, d)| twice_off(l, *d, s));
        assert!(off.max() < Some(s), "S {s}");
    }
}

/// Twice the distance can be more where D is not between 0 and S.
#[test]
fn beyond_a_clip_it_can_be_further_off() {
    for s in [1, 256, 131_069] {
        let all_d = [-1, s + 1];
        assert_eq!(levels_of(s, &all_d), [0, 65_535]);
        assert!(all_d.iter().zip([0, 65_535]).all(|(d, l)| twice_off(l, *d, s) > s), "S {s}");
    }
}

/// A file of one row with this S, and its D: S, which has the greatest black, and
/// those of `all_d` that a sample can have under a white level of 65,535.
fn row_with(s: i128, all_d: &[i128]) -> (Dng, Vec<i128>) {
    let greatest_black = FULL - s;
    let value = |d: i128| (greatest_black + d).div_euclid(256).min(65_535);
    let black = |d: i128| 256 * value(d) - d;
    let mut held = vec![s];
    held.extend(all_d.iter().filter(|d| value(**d) >= 0 && black(**d) >= -2 * FULL));
    let row = greatest_black.clamp(-FULL, FULL);
    let in_256ths = |number: i128| (i32::try_from(number).expect("a carried delta"), 256);
    let columns: Vec<(i32, i32)> = held.iter().map(|d| in_256ths(black(*d) - row)).collect();
    let stored: Vec<u16> = held.iter().map(|d| value(*d) as u16).collect();
    let dng = row_of(&stored)
        .with(Tag::srationals(50715, &columns))
        .with(Tag::srationals(50716, &[in_256ths(row)]));
    (dng, held)
}

/// L of a scaled value.
fn level_of(value: f64) -> i128 {
    (value * 65535.0).round() as i128
}

#[test]
fn levels_behind_the_calls_are_near() {
    let mut looked_at = 0;
    for s in small_s().step_by(13).chain(LARGE_S) {
        let all_d = hard(s);
        let step = all_d.len() / 60;
        let (first, last) = all_d.split_at(all_d.len() - 40);
        let some: Vec<i128> = first.iter().step_by(step).chain(last).copied().collect();
        let (dng, all_d) = row_with(s, &some);
        for widths in LAYOUTS {
            let file = Dng { widths, ..dng.clone() }.file();
            let accepted = accept(&file).expect("a valid file");
            for ((column, d), value) in (0..).zip(&all_d).zip(frame_of(&file)) {
                let stored = accepted.raw.stored.sample(&accepted.file, 0, column, 0);
                let l = accepted.raw.levels.level(accepted.raw.linear(stored), 0, column, 0);
                is_near(l, *d, s);
                assert_eq!(level_of(value), l);
                assert_eq!(level_of(spot_value(&file, 0, column, 0)), l);
                looked_at += 1;
            }
        }
    }
    assert!(looked_at > 7_000, "{looked_at}");
}

/// The file with another sample of so many bits at one place of its only strip.
fn with_sample(layout: &Layout, order: ByteOrder, bits: u32, place: usize, sample: u16) -> Vec<u8> {
    let sample = order.spell(sample.into(), bits as usize / 8);
    poked(&layout.file, layout.blocks[0] + place * sample.len(), &sample)
}

/// Black 0 and white 65,535 make L the stored sample itself.
#[test]
fn the_value_of_a_call_rounds_back_to_its_level() {
    let whole = frame(&Dng::new(ByteOrder::Little, &Picture::counting(256, 256, 1, 16)));
    let one = row_of(&[0]);
    let layout = one.layout();
    for (l, value) in (0..=65_535).zip(whole) {
        let file = with_sample(&layout, one.order, 16, 0, l);
        assert_eq!(spot_value(&file, 0, 0, 0).to_bits(), value.to_bits());
        assert_eq!(level_of(value), l.into());
        assert!((value * 65535.0 - f64::from(l)).abs() < 1e-9, "{l}");
    }
}

/// A name, and the entries of 50712 if it is there.
type Table = (&'static str, Option<Vec<u16>>);

fn table(name: &'static str, size: u64, entry: impl Fn(u64) -> u64) -> Table {
    (name, Some((0..size).map(|i| entry(i) as u16).collect()))
}

/// Tables that never fall, for samples of so many bits. An absent one is the
/// identity; samples go past the end of a short one.
fn rising(bits: u32) -> Vec<Table> {
    let (size, last) = (1 << bits, (1 << bits) - 1);
    vec![
        ("absent", None),
        table("rising", size, |i| i * 65_535 / last),
        table("steeper and steeper", size, |i| i * i * 65_535 / last / last),
        table("with level stretches", size, |i| i / 7 * 7 * 65_535 / last),
        table("short", 200, |i| 320 * i + 100),
        table("short with level stretches", 200, |i| i / 50 * 20_000),
        table("of one entry", 1, |_| 30_000),
        table("of one entry, 0", 1, |_| 0),
    ]
}

/// Tables that fall.
fn falling(bits: u32) -> Vec<Table> {
    let (size, last) = (1 << bits, (1 << bits) - 1);
    let rise = |i: u64| i * 65_535 / last;
    vec![
        table("falling", size, |i| rise(last - i)),
        table("falling by 2 at one entry", size, |i| if i == 100 { rise(99) - 2 } else { rise(i) }),
        table("falling past its end", 200, |i| if i == 199 { 20_000 } else { 101 * i + 100 }),
    ]
}

fn never_falls<T: PartialOrd>(numbers: &[T]) -> bool {
    numbers.windows(2).all(|pair| pair[0] <= pair[1])
}

fn with_table(dng: Dng, (_, entries): &Table) -> Dng {
    match entries {
        Some(entries) => dng.with(Tag::shorts(50712, entries)),
        None => dng,
    }
}

/// One or three planes in either depth.
const KINDS: [(u32, u32); 4] = [(1, 8), (3, 8), (1, 16), (3, 16)];

/// Two rows and three columns with blacks of their own, all of them lower by as
/// much as is said: by 20,000, the second plane's S is above 65,535.
fn many_blacks(samples: u32, bits: u32, lower: i32) -> Dng {
    let cells: Vec<(u32, u32)> = (0..4 * samples).map(|cell| (4_097 * cell % 12_289, 256)).collect();
    Dng::new(ByteOrder::Big, &Picture::counting(3, 2, samples, bits))
        .with(Tag::shorts(50713, &[2, 2]))
        .with(Tag::rationals(50714, &cells))
        .with(Tag::srationals(50715, &[(0, 1), (-77, 2), (-1, 256)]))
        .with(Tag::srationals(50716, &[(-1 - lower, 1), (-501 - 16 * lower, 16)]))
        .with(Tag::longs(50717, &[43_690, 65_535, 200][..samples as usize]))
}

/// Row, column and plane of each of its samples.
fn places(samples: u64) -> impl Iterator<Item = [u64; 3]> {
    (0..6 * samples).map(move |place| [place / samples / 3, place / samples % 3, place % samples])
}

/// L of every sample that can be stored, at one place in one file.
fn levels_at(dng: &Dng, [row, column, plane]: [u64; 3]) -> Vec<i128> {
    let file = dng.file();
    let raw = accept(&file).expect("a valid file").raw;
    (0..1 << raw.stored.bits).map(|stored| raw.levels.level(raw.linear(stored), row, column, plane)).collect()
}

#[test]
fn a_larger_sample_never_gives_a_smaller_level() {
    for ((samples, bits), lower) in KINDS.into_iter().flat_map(|kind| [(kind, 0), (kind, 20_000)]) {
        for table in rising(bits) {
            let (name, entries) = &table;
            assert!(entries.as_ref().is_none_or(|entries| never_falls(entries)), "{name}");
            let dng = with_table(many_blacks(samples, bits, lower), &table);
            for place in places(samples.into()) {
                let levels = levels_at(&dng, place);
                assert!(never_falls(&levels), "{name}, {bits} bits, {samples} planes at {place:?}");
                let one_entry = entries.as_ref().is_some_and(|entries| entries.len() == 1);
                assert_eq!(levels[0] == levels[levels.len() - 1], one_entry, "{name}");
            }
        }
    }
}

#[test]
fn a_table_that_falls_can_give_a_smaller_level() {
    for ((samples, bits), lower) in KINDS.into_iter().flat_map(|kind| [(kind, 0), (kind, 20_000)]) {
        for table in falling(bits) {
            let (name, entries) = &table;
            assert!(!entries.as_ref().is_none_or(|entries| never_falls(entries)), "{name}");
            let dng = with_table(many_blacks(samples, bits, lower), &table);
            // The third plane's white level is below most entries.
            for place in places(samples.into()).filter(|[_, _, plane]| *plane < 2) {
                let levels = levels_at(&dng, place);
                assert!(!never_falls(&levels), "{name}, {bits} bits, {samples} planes at {place:?}");
            }
        }
    }
}

/// L of every sample that can be stored, on each plane, by a window over a frame
/// in which each stands once on each plane, above one black.
fn levels_in_frame(samples: u32, bits: u32, table: &Table) -> Vec<Vec<u32>> {
    let side = 1 << (bits / 2);
    let planes = samples as usize;
    let picture = Picture::counting(side, side, samples, bits);
    let dng = Dng::new(ByteOrder::Little, &picture)
        .with(Tag::rationals(50714, &[(0, 1), (777, 16), (3_001, 256)][..planes]))
        .with(Tag::longs(50717, &[43_690, 65_535, 50_000][..planes]));
    let mut of_planes = vec![vec![u32::MAX; 1 << bits]; planes];
    for ((place, stored), l) in picture.stored.iter().enumerate().zip(levels(&with_table(dng, table))) {
        of_planes[place % planes][usize::from(*stored)] = l;
    }
    of_planes
}

#[test]
fn a_window_of_every_sample_falls_only_where_its_table_does() {
    for (samples, bits) in KINDS {
        for (tables, rises) in [(rising(bits), true), (falling(bits), false)] {
            for table in tables {
                for of_plane in levels_in_frame(samples, bits, &table) {
                    assert!(of_plane.iter().all(|l| *l <= 65_535), "every sample stands on every plane");
                    assert_eq!(never_falls(&of_plane), rises, "{}, {bits} bits, {samples} planes", table.0);
                }
            }
        }
    }
}

/// One stored sample changes, and all else of the file stays.
#[test]
fn a_spot_never_falls_as_its_sample_grows() {
    for (samples, bits) in KINDS {
        // Of 16 bits every 97th, both ends and those next to a short table's end.
        let stored = (0..1u32 << bits).filter(|n| bits == 8 || n % 97 == 0 || (198..202).contains(n));
        let stored: Vec<u16> = stored.chain([(1 << bits) - 1]).map(|n| n as u16).collect();
        assert!(never_falls(&stored));
        // A table of 65,536 entries would be read too often.
        let few = |(_, entries): &Table| entries.as_ref().is_none_or(|entries| entries.len() <= 256);
        for table in rising(bits).into_iter().filter(few) {
            let dng = with_table(many_blacks(samples, bits, 0), &table);
            let layout = dng.layout();
            for (place, [row, column, plane]) in places(samples.into()).enumerate() {
                let mut last = 0.0;
                for stored in &stored {
                    let file = with_sample(&layout, dng.order, bits, place, *stored);
                    let value = spot_value(&file, row, column, plane);
                    assert!(value >= last, "{}: {stored} at {row} {column} {plane}", table.0);
                    last = value;
                }
                assert!(last > 0.0 || table.1 == Some(vec![0]), "{}", table.0);
            }
        }
    }
}

/// A pixel's D on three planes.
type Pixel = [i128; 3];

/// A LinearRaw of 8 x 8 pixels, each with three black cells of its own, with an S
/// for each plane. The first pixel has the greatest blacks, and D = S.
fn linear_with(s: Pixel, pixels: &[Pixel; 63]) -> Dng {
    let white = s.map(|s| s / 256 + 2);
    let (mut cells, mut stored) = (Vec::new(), Vec::new());
    for (plane, d) in [s].iter().chain(pixels).flat_map(|pixel| pixel.iter().enumerate()) {
        let greatest_black = 256 * white[plane] - s[plane];
        let value = (greatest_black + d).div_euclid(256);
        cells.push(((256 * value - d) as u32, 256));
        stored.push(u16::try_from(value).expect("a sample of 16 bits"));
    }
    Dng::new(ByteOrder::Little, &Picture { stored, ..Picture::counting(8, 8, 3, 16) })
        .with(Tag::shorts(50713, &[8, 8]))
        .with(Tag::rationals(50714, &cells))
        .with(Tag::longs(50717, &white.map(|w| w as u32)))
}

/// Of a sample: L, D and S.
#[derive(Clone, Copy, Debug)]
struct Sample {
    l: i128,
    d: i128,
    s: i128,
}

/// Every pixel's samples on two of its planes, each way, by the window call.
fn pairs(s: Pixel, pixels: &[Pixel; 63]) -> Vec<[Sample; 2]> {
    let levels = levels(&linear_with(s, pixels));
    let of_pixel = |l: &[u32], d: &Pixel| [0, 1, 2].map(|i| Sample { l: l[i].into(), d: d[i], s: s[i] });
    levels
        .chunks(3)
        .zip([s].iter().chain(pixels))
        .map(|(l, d)| of_pixel(l, d))
        .flat_map(|of| {
            [[0, 1], [0, 2], [1, 2], [1, 0], [2, 0], [2, 1]].map(|pair| pair.map(|i: usize| of[i]))
        })
        .collect()
}

/// How far (D_A / S_A) / (D_B / S_B) is above (2 L_A - 1) / (2 L_B + 1) and below
/// (2 L_A + 1) / (2 L_B - 1), multiplied by all denominators.
fn above_and_below([a, b]: [Sample; 2]) -> [i128; 2] {
    [
        a.d * b.s * (2 * b.l + 1) - (2 * a.l - 1) * a.s * b.d,
        (2 * a.l + 1) * a.s * b.d - a.d * b.s * (2 * b.l - 1),
    ]
}

/// A D of one plane: any, at an end, at a half where there is one, or beside a half.
fn any_d(random: &mut Random, s: i128) -> i128 {
    let mut odd = |count: i128| 2 * i128::from(random.between(0, count as i64 - 1)) + 1;
    let beside = odd(65_535) * s / (2 * 65_535);
    let (step, count) = exact_halves(s);
    let half = if count > 0 { odd(count) * step } else { beside };
    let any = random.between(0, s as i64).into();
    random.pick(&[any, any, 0, 1, s - 1, s, beside, beside + 1, half, half]).min(s)
}

/// "what rounding does to his zinc ratio". Neither end is ever reached: a half goes
/// up, so 65535 D / S is L - 1/2 at the least, and always below L + 1/2.
#[test]
fn a_ratio_of_two_planes_lies_between_those_of_their_levels() {
    let random = &mut Random::new(11);
    let mut looked_at = 0;
    for round in 0..400 {
        let greatest = [900, 140_000, (FULL - 512) as i64][round % 3];
        let s = [0, 1, 2].map(|plane| {
            let any = random.between(1, greatest).into();
            random.pick(&[any, any, 256 * 43_690, 131_070, 514, [2, 6, 10][plane]])
        });
        let pixels = [(); 63].map(|()| s.map(|s| any_d(random, s)));
        for pair in pairs(s, &pixels).into_iter().filter(|[_, b]| b.l >= 1) {
            assert!(above_and_below(pair).into_iter().all(|gap| gap > 0), "{pair:?}");
            looked_at += 1;
        }
    }
    assert!(looked_at > 100_000, "{looked_at}");
}

/// In whole numbers the ratio comes as near as 1 to both ends. S = 131,070 has a
/// half at D = 1, and 1,001 has no divisor in common with it, so that for some D
/// 2 x 65535 D is 1 below an odd multiple of S.
#[test]
fn a_ratio_comes_as_near_to_both_ends_as_can_be() {
    let below_half = (1..1_001).find(|d| (2 * 65_535 * d + 1) % 1_001 == 0).expect("no common divisor");
    let mut pixels = [[0; 3]; 63];
    (pixels[0], pixels[1]) = ([1, below_half, 0], [131_069, below_half, 0]);
    let all = pairs([131_070, 1_001, 1], &pixels);
    let of = |pixel: usize| &all[6 * (pixel + 1)..][..6];
    // From the first plane to the second, and back.
    assert_eq!(above_and_below(of(0)[0])[0], 1);
    assert_eq!(above_and_below(of(0)[3])[1], 1);
    assert_eq!(above_and_below(of(1)[0])[0], 131_069);
    assert_eq!(above_and_below(of(1)[3])[1], 131_069);
}
