//! The whole frame against sample by sample, and what follows from it.

mod common;

use std::ops::Range;

use common::*;
use reference::builder::{Area, Dng, GainMap, Opcode, Picture};
use reference::bytes::ByteOrder;
use reference::develop::{accept, Accepted};
use reference::generate::{generate, generate_valid};
use reference::opcodes::{FrameSize, Opcode as Read};
use reference::random::Random;

/// Every row, column and plane of an accepted file, in the frame's order.
fn places(accepted: &Accepted) -> Vec<(u64, u64, u64)> {
    let FrameSize { rows, columns, samples } = accepted.size();
    let mut places = Vec::new();
    for row in 0..rows {
        for column in 0..columns {
            places.extend((0..samples).map(|plane| (row, column, plane)));
        }
    }
    places
}

#[test]
fn the_whole_frame_equals_sample_by_sample() {
    let mut opcodes = 0;
    let mut files = 0;
    for index in 0..6_000 {
        let file = generate(20, index).file;
        let Ok(accepted) = accept(&file) else { continue };
        if accepted.size().rows * accepted.size().columns > 100_000 {
            continue;
        }
        files += 1;
        opcodes += accepted.opcodes.len();
        let one_by_one: Vec<f64> =
            places(&accepted).iter().map(|(r, c, p)| accepted.one_sample(*r, *c, *p)).collect();
        assert_eq!(bits(&accepted.whole_frame()), bits(&one_by_one));
    }
    assert!(files > 2_000 && opcodes > 2_000, "{files} files, {opcodes} opcodes");
}

#[test]
fn a_great_frame_goes_sample_by_sample_with_the_same_answers() {
    // 1,200 x 1,000 samples: above the limit of the whole frame.
    let mut picture = Picture::counting(1_200, 1_000, 1, 8);
    picture.rows_per_strip = 7;
    let area = Area { top: 1, left: 2, row_pitch: 3, column_pitch: 5, ..Area::whole(1_000, 1_200, 1) };
    let map = Opcode::gain_map(area, &GainMap::spread(&[[0.1, 0.9, 0.3], [1.3, 0.2, 0.7]]));
    let dng =
        Dng::new(ByteOrder::Big, &picture).with_opcodes(&[Opcode::map_polynomial(area, &[0.1, 0.7]), map]);
    let file = dng.file();
    let accepted = accept(&file).expect("a good file");
    assert_eq!(bits(&frame_of(&file)), bits(&accepted.whole_frame()));
}

#[test]
fn a_sample_on_no_grid_keeps_its_scaled_value() {
    let mut untouched = 0;
    for index in 0..1_500 {
        let file = generate_valid(21, index);
        let accepted = accept(&file).expect("a valid file");
        let frame = accepted.whole_frame();
        for (value, (row, column, plane)) in frame.iter().zip(places(&accepted)) {
            let on_a_grid = accepted.opcodes.iter().any(|opcode| match opcode {
                Read::Kept(grid, _) => grid.place_of(row, column, plane).is_some(),
                Read::Skipped => false,
            });
            if !on_a_grid {
                untouched += 1;
                assert_eq!(value.to_bits(), accepted.scaled(row, column, plane).to_bits());
            }
        }
    }
    assert!(untouched > 10_000, "{untouched}");
}

const SIDE: u32 = 6;

fn random_area(random: &mut Random) -> Area {
    let (top, left, plane) = (random.small(0, SIDE - 1), random.small(0, SIDE - 1), random.small(0, 2));
    Area {
        top,
        left,
        bottom: random.small(top + 1, SIDE),
        right: random.small(left + 1, SIDE),
        plane,
        planes: random.small(1, 3 - plane),
        row_pitch: random.small(1, 3),
        column_pitch: random.small(1, 3),
    }
}

fn random_opcode(random: &mut Random) -> Opcode {
    let area = random_area(random);
    let rows = (area.bottom - area.top).div_ceil(area.row_pitch);
    let columns = (area.right - area.left).div_ceil(area.column_pitch);
    let mut number = |low: i64, high: i64| random.between(low * 1000, high * 1000) as f32 / 1000.0;
    match number(0, 6) as u32 {
        0 => Opcode::map_table(area, &[5, 60_000, 300, 20_000]),
        1 => {
            Opcode::map_polynomial(area, &[number(-1, 1).into(), number(-1, 1).into(), number(-1, 1).into()])
        }
        2 => Opcode::per_line(10, area, &(0..rows).map(|_| number(-1, 1)).collect::<Vec<f32>>()),
        3 => Opcode::per_line(11, area, &(0..columns).map(|_| number(-1, 1)).collect::<Vec<f32>>()),
        4 => {
            let gains = [(); 2].map(|()| [(); 3].map(|()| number(0, 2)));
            Opcode::gain_map(area, &GainMap::spread(&gains))
        }
        _ => Opcode::per_line(12, area, &(0..rows).map(|_| number(0, 2)).collect::<Vec<f32>>()),
    }
}

/// Do the last two opcodes of an accepted list share a sample?
fn share_a_sample(accepted: &Accepted) -> bool {
    let [.., Read::Kept(a, _), Read::Kept(b, _)] = &accepted.opcodes[..] else {
        return true;
    };
    places(accepted)
        .iter()
        .any(|(r, c, p)| a.place_of(*r, *c, *p).is_some() && b.place_of(*r, *c, *p).is_some())
}

#[test]
fn neighbours_on_disjoint_grids_may_change_places() {
    let random = &mut Random::new(22);
    let base = Dng::new(ByteOrder::Little, &Picture::counting(SIDE, SIDE, 3, 8));
    let (mut disjoint, mut differing) = (0, 0);
    for _ in 0..1_500 {
        let before = random_opcode(random);
        let (a, b) = (random_opcode(random), random_opcode(random));
        let file = base.clone().with_opcodes(&[before.clone(), a.clone(), b.clone()]).file();
        let swapped = base.clone().with_opcodes(&[before, b, a]).file();
        let same = bits(&frame_of(&file)) == bits(&frame_of(&swapped));
        if share_a_sample(&accept(&file).expect("a good file")) {
            differing += u32::from(!same);
        } else {
            disjoint += 1;
            assert!(same);
        }
    }
    assert!(disjoint > 100 && differing > 100, "{disjoint} disjoint, {differing} differing");
}

#[test]
fn a_skipped_opcode_may_change_places_with_any_neighbour() {
    let random = &mut Random::new(23);
    let base = Dng::new(ByteOrder::Little, &Picture::counting(SIDE, SIDE, 3, 8));
    for _ in 0..200 {
        let (a, skipped) = (random_opcode(random), Opcode::new(14, 1, vec![7; 13]));
        let with = |opcodes: &[Opcode]| frame(&base.clone().with_opcodes(opcodes));
        let alone = with(std::slice::from_ref(&a));
        assert_eq!(bits(&with(&[a.clone(), skipped.clone()])), bits(&alone));
        assert_eq!(bits(&with(&[skipped, a])), bits(&alone));
    }
}

/// A stored sample and where its bytes stand.
#[derive(Clone)]
struct StoredSample {
    row: u64,
    column: u64,
    plane: u64,
    bytes: Range<usize>,
}

/// All stored samples, if none shares a byte with another.
fn stored_samples(accepted: &Accepted) -> Option<Vec<StoredSample>> {
    let stored = &accepted.raw.stored;
    let bytes = stored.bits / 8;
    let row_bytes = stored.width * stored.samples * bytes;
    let mut samples = Vec::new();
    for row in 0..stored.length {
        let strip = stored.strips[(row / stored.rows_per_strip) as usize];
        for column in 0..stored.width {
            for plane in 0..stored.samples {
                let in_row = (column * stored.samples + plane) * bytes;
                let start = (strip + row % stored.rows_per_strip * row_bytes + in_row) as usize;
                samples.push(StoredSample { row, column, plane, bytes: start..start + bytes as usize });
            }
        }
    }
    let mut starts: Vec<usize> = samples.iter().map(|s| s.bytes.start).collect();
    starts.sort_unstable();
    let apart = starts.windows(2).all(|pair| pair[1] - pair[0] >= bytes as usize);
    apart.then_some(samples)
}

#[test]
fn one_stored_sample_changes_one_developed_value_at_most() {
    let random = &mut Random::new(24);
    let (mut changed, mut outside) = (0, 0);
    for index in 0..1_500 {
        let file = generate_valid(25, index);
        let accepted = accept(&file).expect("a valid file");
        let Some(samples) = stored_samples(&accepted) else { continue };
        let before = accepted.whole_frame();
        for _ in 0..4 {
            let StoredSample { row, column, plane, bytes } = samples[random.index(samples.len())].clone();
            let new = poked(&file, bytes.start, &random.bytes(bytes.len()));
            let after = accept(&new).expect("samples decide no refusal").whole_frame();
            let active = accepted.raw.active;
            let inside =
                (active.top..active.bottom).contains(&row) && (active.left..active.right).contains(&column);
            for (i, (old, new)) in before.iter().zip(&after).enumerate() {
                let its_own = inside && i == accepted.index(row - active.top, column - active.left, plane);
                assert!(its_own || old.to_bits() == new.to_bits());
                changed += u32::from(old.to_bits() != new.to_bits());
            }
            outside += u32::from(!inside);
        }
    }
    assert!(changed > 300 && outside > 300, "{changed} changed, {outside} outside");
}
