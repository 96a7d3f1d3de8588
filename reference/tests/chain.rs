//! "Why is this sample what it is?" (document 02, T-06): the eight numbers, the chain
//! of the covering opcodes, the skipped ones, and the five slices.

mod common;

use std::array;
use std::collections::BTreeSet;
use std::ops::Range;

use common::*;
use reference::builder::{Area, Dng, GainMap, Opcode, Picture, Tag};
use reference::bytes::{ByteOrder, LAYOUTS};
use reference::cases::{answer_line, ask_chain, untouched, AskedChain, Call};
use reference::chain::Link;
use reference::chains::{self, skipped, Stands, Worked, FULL};
use reference::develop::{accept, Accepted};
use reference::generate::{generate, generate_valid};
use reference::opcodes::{long, FrameSize, Opcode as Read};
use reference::random::Random;
use reference::{card, chain, spot, Answer, Chain, LevelNumbers};

const HUGE: [u64; 5] = [u64::MAX, u64::MAX - 1, 1 << 63, (1 << 32) + 1, 1 << 32];

/// Places on both sides of a slice that are not lent.
const MARGIN: usize = 3;

/// The least lengths of the five slices.
const LEAST: [usize; 5] = [32; 5];

fn ask(file: &[u8], spot: [u64; 3], lengths: [usize; 5]) -> AskedChain {
    ask_chain(chain, file, spot, lengths, MARGIN)
}

/// What a chain that is answered says, read from its slices.
#[derive(Clone, Debug, PartialEq)]
struct Told {
    value: u64,
    level: [i64; 8],
    /// Place, id, and the bits before and after.
    links: Vec<[u64; 4]>,
    skipped: Vec<u64>,
}

/// The first places of the slices, as many as the counts say; every other place, and
/// every margin, must be as it was.
#[track_caller]
fn told(asked: &AskedChain) -> Told {
    let Chain { value, level, covering, skipped, .. } = asked.chain;
    assert_eq!(asked.chain.answer(), DONE);
    let counts = [covering, covering, covering, covering, skipped].map(|count| count as usize);
    for (slice, (bits, count)) in asked.slices.iter().zip(counts).enumerate() {
        for (place, bits) in bits.iter().enumerate() {
            let used = (MARGIN..MARGIN + count).contains(&place);
            assert_eq!(*bits != untouched(slice, place), used, "slice {slice}, place {place}");
        }
    }
    let used: [&[u64]; 5] = array::from_fn(|slice| &asked.slices[slice][MARGIN..MARGIN + counts[slice]]);
    let links = (0..counts[0]).map(|i| [0, 1, 2, 3].map(|slice: usize| used[slice][i])).collect();
    Told { value: value.to_bits(), level: level.numbers(), links, skipped: used[4].to_vec() }
}

#[track_caller]
fn told_of(file: &[u8], spot: [u64; 3]) -> Told {
    told(&ask(file, spot, LEAST))
}

/// A refusal has zeros, and every place of every slice is as it was.
#[track_caller]
fn is_refused(asked: &AskedChain, answer: Answer) {
    let Chain { value, level, covering, skipped, .. } = asked.chain;
    assert_eq!(asked.chain.answer(), answer);
    assert_eq!((value.to_bits(), covering, skipped), (0, 0, 0));
    assert_eq!(level, LevelNumbers::default());
    assert_eq!(level.numbers(), [0; 8]);
    for (slice, bits) in asked.slices.iter().enumerate() {
        let kept = bits.iter().enumerate().all(|(place, bits)| *bits == untouched(slice, place));
        assert!(kept, "slice {slice} of a chain refused by {answer:?}");
    }
}

fn of_link(link: &Link) -> [u64; 4] {
    [link.place, link.id, link.before.to_bits(), link.after.to_bits()]
}

fn of_worked(worked: &Worked) -> Told {
    let Worked { level, links, skipped, .. } = worked;
    let links = links.iter().map(of_link).collect();
    Told { value: worked.value().to_bits(), level: *level, links, skipped: skipped.clone() }
}

/// An 8-bit file whose samples are all 1.0.
fn full(rows: u32, columns: u32, samples: u32) -> Dng {
    chains::full(ByteOrder::Little, [rows, columns, samples])
}

/// Every active row, column and plane.
fn spots(file: &[u8]) -> Vec<[u64; 3]> {
    let card = card(file);
    let rows = (0..card.rows).flat_map(|row| (0..card.columns).map(move |column| (row, column)));
    rows.flat_map(|(row, column)| (0..card.samples).map(move |plane| [row, column, plane])).collect()
}

/// The chains worked out by hand that have these labels, in both byte orders and
/// layouts, the raw IFD as IFD 0 and below it.
#[track_caller]
fn worked_out(labels: &[&str]) {
    let mut asked = BTreeSet::new();
    for worked in BOTH.into_iter().flat_map(chains::worked) {
        if !labels.contains(&worked.label) {
            continue;
        }
        asked.insert(worked.label);
        for (widths, depth) in LAYOUTS.into_iter().flat_map(|widths| [(widths, 0), (widths, 3)]) {
            let file = Dng { widths, ..worked.dng.clone().nested(depth) }.file();
            assert_eq!(told_of(&file, worked.spot), of_worked(&worked), "{}", worked.label);
        }
    }
    assert_eq!(asked.len(), labels.len());
}

const LEVELS: [&str; 11] = [
    "example 1",
    "example 3",
    "example 4",
    "a table and deltas",
    "planes of LinearRaw",
    "no tags",
    "a table of one entry",
    "row deltas alone",
    "column deltas alone",
    "the greatest black",
    "the least black",
];
const LISTS: [&str; 9] = [
    "example 6",
    "example 7",
    "example 7 the other way round",
    "example 7 among skipped ones",
    "example 8",
    "example 11",
    "every kind",
    "between two points",
    "map planes",
];
const IDS: [&str; 2] = ["each id", "each id, later"];
const GRIDS: [&str; 1] = ["rows, columns and planes"];
const UNCHANGED: [&str; 1] = ["unchanged"];

#[test]
fn the_eight_numbers_by_hand() {
    worked_out(&LEVELS);
}

#[test]
fn chains_of_lists_by_hand() {
    worked_out(&LISTS);
}

#[test]
fn every_id_is_named() {
    worked_out(&IDS);
}

#[test]
fn a_grid_covers_its_own_spots_and_no_others() {
    worked_out(&GRIDS);
}

/// "Covering is by the grid alone."
#[test]
fn an_opcode_that_changes_nothing_covers_all_the_same() {
    worked_out(&UNCHANGED);
}

#[test]
fn every_chain_worked_out_by_hand_is_asked() {
    let all = [&LEVELS[..], &LISTS, &IDS, &GRIDS, &UNCHANGED].concat();
    let worked = chains::worked(ByteOrder::Big);
    assert!(worked.iter().all(|worked| all.contains(&worked.label)));
    assert!(worked.len() > 300, "{}", worked.len());
}

/// "the eight numbers are demand 2's for this spot, the first from the stored bytes".
#[test]
fn the_stored_sample_is_read_from_its_bytes() {
    for (bits, samples) in [(8, 1), (16, 1), (8, 3), (16, 3)] {
        let picture = Picture { rows_per_strip: 2, ..Picture::counting(5, 5, samples, bits) };
        for order in BOTH {
            let stored: Vec<u16> = (0..25 * samples as u16).map(|i| i.wrapping_mul(771) ^ 0x1234).collect();
            let picture = Picture { stored: stored.clone(), ..picture.clone() };
            let dng = Dng::new(order, &picture).with(Tag::longs(50829, &[2, 1, 5, 4]));
            let file = dng.file();
            for [row, column, plane] in spots(&file) {
                let place = ((row + 2) * 5 + column + 1) * u64::from(samples) + plane;
                let expected = i64::from(stored[place as usize]) & ((1 << bits) - 1);
                let [stored, table, ..] = told_of(&file, [row, column, plane]).level;
                assert_eq!([stored, table], [expected; 2]);
            }
        }
    }
}

/// From no opcode to 32, with skipped ones first, last, between and everywhere.
#[test]
fn lists_of_every_length() {
    let mut lists = chains::every_list();
    let random = &mut Random::new(60);
    for _ in 0..300 {
        let length = random.index(33);
        let kinds = [Stands::Covering, Stands::Beside, Stands::Skipped];
        lists.push((0..length).map(|_| random.pick(&kinds)).collect());
    }
    for (turn, list) in lists.iter().enumerate() {
        let worked = chains::of_list(BOTH[turn / 2 % 2], list);
        let file = Dng { widths: LAYOUTS[turn % 2], ..worked.dng.clone() }.file();
        assert_eq!(told_of(&file, [0; 3]), of_worked(&worked), "{list:?}");
    }
    for kind in [Stands::Covering, Stands::Beside, Stands::Skipped] {
        assert!([0, 1, 31, 32].iter().all(|length| lists.contains(&vec![kind; *length])));
    }
    // No list at all.
    let none = Told { value: 1.0f64.to_bits(), level: FULL, links: vec![], skipped: vec![] };
    assert_eq!(told_of(&full(2, 2, 1).file(), [0; 3]), none);
}

/// The skipped ones are the same for every spot.
#[test]
fn skipped_opcodes_do_not_ask_for_the_spot() {
    let area = Area { top: 1, left: 1, planes: 2, ..Area::whole(3, 3, 3) };
    let kept = Opcode::map_polynomial(area, &[0.5]);
    let file = full(3, 3, 3).with_opcodes(&[skipped(), kept.clone(), skipped(), kept, skipped()]).file();
    for [row, column, plane] in spots(&file) {
        let told = told_of(&file, [row, column, plane]);
        let covered = row >= 1 && column >= 1 && plane < 2;
        let half = 0.5f64.to_bits();
        let links = [[1, 8, 1.0f64.to_bits(), half], [3, 8, half, half]];
        assert_eq!(told.links, if covered { links.to_vec() } else { vec![] });
        assert_eq!(told.skipped, [0, 2, 4]);
    }
}

/// A file of which 32 opcodes cover the spot, one of which all are skipped, and one
/// without a list.
fn few_and_many() -> [Vec<u8>; 3] {
    let of = |kind| chains::of_list(ByteOrder::Big, &[kind; 32]).dng;
    [of(Stands::Covering), of(Stands::Skipped), full(2, 2, 1)].map(|dng| dng.file())
}

/// "14 if any of the five slices has fewer than 32 places", whatever is needed of
/// them; longer ones keep what they held.
#[test]
fn each_slice_has_32_places_or_more() {
    for file in few_and_many() {
        let expected = told_of(&file, [0; 3]);
        for slice in 0..5 {
            for length in (0..=40).chain([63, 64, 65, 1_000]) {
                let mut lengths = LEAST;
                lengths[slice] = length;
                let asked = ask(&file, [0; 3], lengths);
                if length < 32 {
                    is_refused(&asked, refusal(14, 0));
                } else {
                    assert_eq!(told(&asked), expected);
                }
            }
        }
        for length in [0, 1, 30, 31] {
            is_refused(&ask(&file, [0; 3], [length; 5]), refusal(14, 0));
            // One that will do among others that will not.
            for slice in 0..5 {
                let mut lengths = [length; 5];
                lengths[slice] = 100;
                is_refused(&ask(&file, [0; 3], lengths), refusal(14, 0));
            }
        }
        for lengths in [[33; 5], [40, 32, 33, 50, 64], [32, 33, 34, 35, 36]] {
            assert_eq!(told(&ask(&file, [0; 3], lengths)), expected);
        }
    }
}

/// "Refusals: as spot": outside in each direction, also as far as 64 bits reach; with
/// slices that would do and that would not.
#[test]
fn refusal_13_is_that_of_spot_and_comes_before_14() {
    for dng in [full(3, 4, 1), full(3, 4, 3), mosaic(6, 5).with(Tag::longs(50829, &[1, 2, 4, 6]))] {
        let file = dng.with_opcodes(&[skipped()]).file();
        let samples = card(&file).samples;
        let mut outside = vec![[3, 4, samples]];
        for (axis, whole) in [3, 4, samples].into_iter().enumerate() {
            for far in HUGE.into_iter().chain([whole, whole + 1]) {
                for inside in [[0; 3], [2, 3, samples - 1]] {
                    let mut place = inside;
                    place[axis] = far;
                    outside.push(place);
                }
            }
        }
        outside.extend(HUGE.map(|far| [far; 3]));
        for place in outside {
            let [row, column, plane] = place;
            assert_eq!(spot(&file, row, column, plane).0, refusal(13, 0));
            is_refused(&ask(&file, place, LEAST), refusal(13, 0));
            for slice in 0..5 {
                for length in [0, 31, 33] {
                    let mut lengths = LEAST;
                    lengths[slice] = length;
                    is_refused(&ask(&file, place, lengths), refusal(13, 0));
                }
            }
            is_refused(&ask(&file, place, [0; 5]), refusal(13, 0));
        }
        for place in spots(&file) {
            assert_eq!(ask(&file, place, LEAST).chain.answer(), DONE);
        }
    }
}

/// A refusal of the file comes before both, whatever else is asked.
#[test]
fn refusals_of_the_file_come_first() {
    let nan = Opcode::map_polynomial(Area::whole(2, 2, 1), &[f64::NAN]);
    let files = [
        (vec![], refusal(1, 0)),
        (b"IIII0000".to_vec(), refusal(2, 0)),
        (mosaic(2, 2).without(262).file(), refusal(5, 262)),
        (mosaic(2, 2).with(Tag::bytes(51022, &[0])).file(), refusal(8, 51022)),
        (mosaic(2, 2).with(Tag::shorts(50720, &[3, 2])).file(), refusal(4, 50720)),
        (mosaic(2, 2).with(Tag::shorts(50717, &[0])).file(), refusal(9, 0)),
        (mosaic(2, 2).with_opcodes(&[skipped(), Opcode::new(14, 0, vec![])]).file(), refusal(11, 1)),
        (
            mosaic(2, 2).with_opcodes(&[skipped(), skipped(), Opcode::new(7, 0, vec![])]).file(),
            refusal(10, 2),
        ),
        (mosaic(2, 2).with_opcodes(&vec![skipped(); 33]).file(), refusal(11, 32)),
        (mosaic(2, 2).with_opcodes(&[nan]).file(), refusal(12, 0)),
        (mosaic(2, 2).with(Tag::undefined(51009, &[0; 5])).file(), refusal(10, 0)),
    ];
    for (file, expected) in files {
        assert_eq!(answer_to(&file), expected);
        for place in [[0; 3], [2, 0, 0], [0, 2, 0], [0, 0, 1], [u64::MAX; 3]] {
            for lengths in [LEAST, [31; 5], [0; 5], [32, 32, 31, 32, 32], [32, 32, 32, 32, 31], [40; 5]] {
                is_refused(&ask(&file, place, lengths), expected);
            }
        }
    }
    // Colour's tags refuse no chain, nor does 15.
    let coloured = mosaic(2, 2).with_first(Tag::bytes(50723, &[1])).with_first(Tag::bytes(50964, &[1]));
    assert_eq!(ask(&coloured.file(), [0; 3], LEAST).chain.answer(), DONE);
    let coloured = linear(2, 2).with_first(Tag::bytes(50728, &[1])).with(Tag::bytes(33421, &[1]));
    assert_eq!(ask(&coloured.file(), [0; 3], LEAST).chain.answer(), DONE);
}

/// Every spot of generated files: the value and its number and detail are the
/// spot's; the first value before is the scaled value, each other one the value after
/// of the link before it, the last value after the spot's; the places are those of
/// the grids that hold the spot, found by walking over each grid, the ids those of
/// their headers.
#[test]
fn chains_hang_together() {
    let (mut answered, mut linked, mut none) = (0, 0, 0);
    for index in 0..1_200 {
        let file = generate(61, index).file;
        let Ok(accepted) = accept(&file) else { continue };
        let FrameSize { rows, columns, samples } = accepted.size();
        if rows * columns * samples > 400 {
            continue;
        }
        let covering = places_by_walking(&accepted);
        let ids = accepted.raw.opcode_list.map(ids_in_headers).unwrap_or_default();
        for spot_of in spots(&file) {
            let [row, column, plane] = spot_of;
            let told = told_of(&file, spot_of);
            let scaled = accepted.scaled(row, column, plane).to_bits();
            let mut x = scaled;
            for [_, _, before, after] in &told.links {
                assert_eq!(*before, x);
                x = *after;
            }
            let (of_spot, value) = spot(&file, row, column, plane);
            assert_eq!((of_spot, value.to_bits(), value.to_bits()), (DONE, told.value, x));
            let places: Vec<u64> = told.links.iter().map(|[place, ..]| *place).collect();
            assert_eq!(places, covering[accepted.index(row, column, plane)]);
            assert!(told.links.iter().all(|[place, id, ..]| ids[*place as usize] == *id));
            let card = card(&file);
            assert_eq!(told.skipped.len() as u64, card.skipped);
            let [_, table, cell, column_delta, row_delta, black, greatest, level] = told.level;
            assert_eq!(cell + column_delta + row_delta, black);
            assert!(black <= greatest);
            assert_eq!((level as f64 / 65535.0).to_bits(), scaled);
            if 256 * table <= black {
                assert_eq!(level, 0);
            }
            answered += 1;
            linked += told.links.len();
            none += u32::from(told.links.is_empty());
        }
    }
    println!("{answered} chains, {linked} links, {none} without one");
    assert!(answered > 20_000 && linked > 20_000 && none > 10_000, "{answered} {linked} {none}");
}

/// The id of every opcode of a list, by its headers.
fn ids_in_headers(list: &[u8]) -> Vec<u64> {
    let mut ids = Vec::new();
    let mut start = 4;
    while start < list.len() {
        ids.push(long(list, start));
        start += 16 + long(list, start + 12) as usize;
    }
    ids
}

/// For every sample of the frame the places of the opcodes whose grids hold it.
fn places_by_walking(accepted: &Accepted) -> Vec<Vec<u64>> {
    let FrameSize { rows, columns, samples } = accepted.size();
    let mut covering = vec![Vec::new(); (rows * columns * samples) as usize];
    for (place, opcode) in (0..).zip(&accepted.opcodes) {
        let Read::Kept(grid, _) = opcode else { continue };
        let mut row = grid.top;
        while row < grid.bottom {
            let mut column = grid.left;
            while column < grid.right {
                for plane in grid.plane..grid.plane + grid.planes {
                    covering[accepted.index(row, column, plane)].push(place);
                }
                column += grid.column_pitch;
            }
            row += grid.row_pitch;
        }
    }
    covering
}

/// M is the greatest B that is shown of any sample of the plane.
#[test]
fn the_greatest_black_is_one_that_is_shown() {
    let mut differing = 0;
    for index in 0..400 {
        let file = generate_valid(62, index);
        let all: Vec<([u64; 3], [i64; 8])> =
            spots(&file).into_iter().map(|spot| (spot, told_of(&file, spot).level)).collect();
        let samples = card(&file).samples;
        let greatest: Vec<i64> = (0..samples)
            .map(|plane| all.iter().filter(|(spot, _)| spot[2] == plane).map(|(_, level)| level[5]).max())
            .map(|greatest| greatest.expect("an area has a sample"))
            .collect();
        assert!(all.iter().all(|(spot, level)| level[6] == greatest[spot[2] as usize]));
        differing += u32::from(greatest.iter().any(|m| *m != greatest[0]));
    }
    assert!(differing > 80, "{differing}");
}

/// Above the limit of the whole frame the program goes sample by sample.
#[test]
fn a_great_frame_has_chains() {
    for worked in BOTH.into_iter().flat_map(chains::great) {
        for widths in LAYOUTS {
            let file = Dng { widths, ..worked.dng.clone() }.file();
            assert_eq!(told_of(&file, worked.spot), of_worked(&worked));
        }
    }
}

const SIDE: u32 = 4;

fn random_opcode(random: &mut Random) -> Opcode {
    if random.one_in(5) {
        return skipped();
    }
    let (top, left, plane) = (random.small(0, SIDE - 1), random.small(0, SIDE - 1), random.small(0, 2));
    let area = Area {
        top,
        left,
        bottom: random.small(top + 1, SIDE),
        right: random.small(left + 1, SIDE),
        plane,
        planes: random.small(1, 3 - plane),
        row_pitch: random.small(1, 3),
        column_pitch: random.small(1, 3),
    };
    let rows = (area.bottom - area.top).div_ceil(area.row_pitch) as usize;
    let columns = (area.right - area.left).div_ceil(area.column_pitch) as usize;
    let number = random.between(1, 999) as f32 / 1000.0;
    match random.small(7, 13) {
        7 => Opcode::map_table(area, &[5, 60_000, 300, 20_000]),
        8 => Opcode::map_polynomial(area, &[0.125, number.into()]),
        9 => Opcode::gain_map(area, &GainMap::spread(&[[number, 0.5], [0.25, 1.5]])),
        id @ (10 | 12) => Opcode::per_line(id, area, &vec![number; rows]),
        id => Opcode::per_line(id, area, &vec![number; columns]),
    }
}

/// Have the opcodes at k and k + 1 no sample in common?
fn apart(accepted: &Accepted, k: usize) -> bool {
    let shares = |places: &Vec<u64>| [k, k + 1].iter().all(|place| places.contains(&(*place as u64)));
    !places_by_walking(accepted).iter().any(shares)
}

/// Demand 3, as reading 73 has it: two neighbours whose grids are apart change places,
/// and of the chain nothing changes but the places: k for k + 1 and k + 1 for k, in
/// list order.
#[test]
fn neighbours_on_disjoint_grids_change_places_in_the_chain() {
    let random = &mut Random::new(63);
    let base = Dng::new(ByteOrder::Little, &Picture::counting(SIDE, SIDE, 3, 8));
    let exchange = |places: Vec<u64>, k: u64| {
        let mut places: Vec<u64> = places
            .into_iter()
            .map(|place| match place {
                _ if place == k => k + 1,
                _ if place == k + 1 => k,
                _ => place,
            })
            .collect();
        places.sort_unstable();
        places
    };
    let (mut swaps, mut moved, mut moved_skipped) = (0, 0, 0);
    for _ in 0..600 {
        let list: Vec<Opcode> = (0..2 + random.index(4)).map(|_| random_opcode(random)).collect();
        let k = random.index(list.len() - 1);
        let mut exchanged = list.clone();
        exchanged.swap(k, k + 1);
        let [file, other] = [&list, &exchanged].map(|list| base.clone().with_opcodes(list).file());
        if !apart(&accept(&file).expect("a good file"), k) {
            continue;
        }
        swaps += 1;
        for place in spots(&file) {
            let [before, after] = [&file, &other].map(|file| told_of(file, place));
            assert_eq!((before.value, before.level), (after.value, after.level));
            let split = |told: &Told| -> (Vec<u64>, Vec<[u64; 3]>) {
                told.links.iter().map(|[place, id, before, after]| (*place, [*id, *before, *after])).unzip()
            };
            let ((places, links), (new_places, new_links)) = (split(&before), split(&after));
            assert_eq!(links, new_links);
            assert_eq!(exchange(places.clone(), k as u64), new_places);
            assert_eq!(exchange(before.skipped.clone(), k as u64), after.skipped);
            moved += u32::from(places != new_places);
            moved_skipped += u32::from(before.skipped != after.skipped);
        }
    }
    assert!(swaps > 150 && moved > 1_000 && moved_skipped > 1_000, "{swaps} {moved} {moved_skipped}");
}

/// Demand 3: one stored sample changes, and every other sample's chain stays, whole.
#[test]
fn one_stored_sample_changes_one_chain() {
    let random = &mut Random::new(64);
    let (mut changed, mut outside) = (0, 0);
    for (samples, bits) in [(1, 8), (1, 16), (3, 8), (3, 16)] {
        let picture = Picture { rows_per_strip: 2, ..Picture::counting(5, 5, samples, bits) };
        let list: Vec<Opcode> = [7, 8, 9]
            .map(|id| {
                let area = Area { row_pitch: 2, ..Area::whole(3, 4, samples) };
                match id {
                    7 => Opcode::map_table(area, &[9, 20_000, 40_000]),
                    8 => Opcode::map_polynomial(area, &[0.125, 0.5]),
                    _ => Opcode::gain_map(area, &GainMap::spread(&[[0.5, 0.25], [0.75, 0.625]])),
                }
            })
            .into_iter()
            .chain([skipped()])
            .collect();
        let dng = Dng::new(ByteOrder::Big, &picture)
            .with(Tag::longs(50829, &[1, 1, 4, 5]))
            .with(Tag::shorts(50714, &vec![3; samples as usize]))
            .with_opcodes(&list);
        let layout = dng.layout();
        let all = |file: &[u8]| -> Vec<Told> {
            spots(file).into_iter().map(|place| told_of(file, place)).collect()
        };
        let before = all(&layout.file);
        let size = (bits / 8) as usize;
        for sample in 0..25 * samples as usize {
            let (row, column, plane) =
                (sample / (5 * samples as usize), sample / samples as usize % 5, sample % samples as usize);
            let in_strip = (row % 2 * 5 + column) * samples as usize + plane;
            let start = layout.blocks[row / 2] + size * in_strip;
            let after = all(&poked(&layout.file, start, &random.bytes(size)));
            let active: [Range<usize>; 2] = [1..4, 1..5];
            let own = (active[0].contains(&row) && active[1].contains(&column))
                .then(|| ((row - 1) * 4 + column - 1) * samples as usize + plane);
            for (place, (before, after)) in before.iter().zip(&after).enumerate() {
                assert!(Some(place) == own || before == after, "{place} of {own:?}");
                changed += u32::from(before != after);
            }
            outside += u32::from(own.is_none());
        }
    }
    assert!(changed > 80 && outside > 80, "{changed} changed, {outside} outside");
}

/// The line of a chain that is answered, and of two that are not.
#[test]
fn a_chain_as_a_line_of_text() {
    let dng = full(1, 1, 1).with_opcodes(&list_of_one());
    let line =
        |file: &[u8], row, slices| answer_line(file, &Call::Chain { row, column: 0, plane: 0, slices });
    let untouched = |count: usize| " -".repeat(count);
    let [one, half, quarter] = ["3ff0000000000000", "3fe0000000000000", "3fd0000000000000"];
    let expected = [
        "chain 0 0 0 32 33 32 34 32 -> 0 0 3fd0000000000000 255 255 0 0 0 0 0 65535 2 1".to_string(),
        format!("| 0 2{}", untouched(30)),
        format!("| 12 10{}", untouched(31)),
        format!("| {one} {half}{}", untouched(30)),
        format!("| {half} {quarter}{}", untouched(32)),
        format!("| 1{}", untouched(31)),
    ];
    assert_eq!(line(&dng.file(), 0, [32, 33, 32, 34, 32]), expected.join(" "));
    let zeros = "0000000000000000 0 0 0 0 0 0 0 0 0 0";
    assert_eq!(
        line(&dng.file(), 0, [1, 0, 2, 0, 31]),
        format!("chain 0 0 0 1 0 2 0 31 -> 14 0 {zeros} | - | | - - | |{}", untouched(31))
    );
    assert_eq!(line(&[], 9, [0; 5]), format!("chain 9 0 0 0 0 0 0 0 -> 1 0 {zeros} | | | | |"));
    let words = ["chain", "0", "0", "0", "32", "32", "32", "32", "32"];
    let call = Call::Chain { row: 0, column: 0, plane: 0, slices: LEAST };
    assert_eq!(Call::parse(&words), Some(call));
    assert_eq!((Call::parse(&words[..8]), Call::parse(&[&words[..], &["0"]].concat())), (None, None));
}

fn list_of_one() -> [Opcode; 3] {
    let one = Area::whole(1, 1, 1);
    [Opcode::per_line(12, one, &[0.5]), skipped(), Opcode::per_line(10, one, &[-0.25])]
}
