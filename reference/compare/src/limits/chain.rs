//! The chain behind a spot (document 02, T-06): chains worked out by hand, lists of every
//! length, slices on both sides of 32 places, 13 and 14 behind every other refusal, and
//! what of a chain stays under the two changes of demand 3.

use reference::builder::{Area, Dng, GainMap, Opcode, Picture, Tag};
use reference::bytes::{ByteOrder, LAYOUTS};
use reference::cases::{Call, SLICES};
use reference::chain::LEAST_PLACES;
use reference::chains::{self, skipped, Stands, Worked};

use super::{each_way, framed, Answer, DONE, HALF, LINEAR, LONG8_MAX, MOSAIC, ORDERS, PAST_LONG, WAYS};
use crate::questions::{chain, chain_with};
use crate::tally::Tally;

const LEAST: [usize; SLICES] = [LEAST_PLACES; SLICES];

/// Slices that are longer, all of them or some.
const LONGER: [[usize; SLICES]; 5] =
    [[33; SLICES], [40, 32, 33, 64, 35], [32, 33, 34, 35, 36], [32, 32, 32, 32, 33], [100; SLICES]];

const NO_PLACES: Answer = (14, 0);
const OUTSIDE: Answer = (13, 0);

/// Every case of a chain that stands nowhere else.
pub fn check(tally: &mut Tally) {
    worked(tally);
    lists(tally);
    lengths(tally);
    several_lengths(tally);
    order(tally);
    exchanges(tally);
    samples(tally);
}

/// Asks for a chain with slices of these lengths. It must be the one worked out.
fn hold(tally: &mut Tally, label: &str, file: &[u8], worked: &Worked, slices: [usize; SLICES]) {
    let [row, column, plane] = worked.spot;
    let call = Call::Chain { row, column, plane, slices };
    let found = tally.ask(label, file, &call, Some(DONE));
    let counts = [worked.links.len(), worked.skipped.len()].map(|count| count as i64);
    let numbers = [&worked.level[..], &counts].concat();
    let links = worked.links.iter();
    let links: Vec<[u64; 4]> =
        links.map(|link| [link.place, link.id, link.before.to_bits(), link.after.to_bits()]).collect();
    let stated = (numbers, links, worked.skipped.clone());
    let told = found.told(slices);
    if told != stated || found.values(&call) != [worked.value().to_bits()] {
        tally.differs(&format!("{label}: {call:?}: {told:?}, stated {stated:?}"));
    }
}

/// With the shortest slices, and with longer ones, others at every turn.
fn worked(tally: &mut Tally) {
    for order in ORDERS {
        let all = chains::worked(order).into_iter().chain(chains::great(order));
        for (turn, worked) in all.enumerate() {
            for (widths, depth) in LAYOUTS.into_iter().flat_map(|widths| [(widths, 0), (widths, 1)]) {
                tally.files += 1;
                let file = Dng { widths, ..worked.dng.clone().nested(depth) }.file();
                let label = format!("chain, {}, {order:?}, {widths:?}, depth {depth}", worked.label);
                hold(tally, &label, &file, &worked, LEAST);
                hold(tally, &label, &file, &worked, LONGER[turn % LONGER.len()]);
            }
        }
    }
}

/// Lists of no opcode to 32, of those that cover the sample, that do not, and that are
/// skipped.
fn lists(tally: &mut Tally) {
    for (turn, list) in chains::every_list().iter().enumerate() {
        let (order, widths) = WAYS[turn % WAYS.len()];
        let worked = chains::of_list(order, list);
        tally.files += 1;
        let file = Dng { widths, ..worked.dng.clone() }.file();
        hold(tally, &format!("chain of {list:?}"), &file, &worked, LEAST);
    }
}

/// A list of which 32 opcodes cover the sample, one of which all are skipped, one of
/// half and half, and an empty one.
fn few_and_many(order: ByteOrder) -> [Worked; 4] {
    let half = [Stands::Covering, Stands::Skipped].repeat(16);
    let lists = [vec![Stands::Covering; 32], vec![Stands::Skipped; 32], half, vec![]];
    lists.map(|list| chains::of_list(order, &list))
}

/// Each slice of every length around 32, and far from it.
fn lengths(tally: &mut Tally) {
    for (order, widths) in WAYS {
        for worked in few_and_many(order) {
            tally.files += 1;
            let file = Dng { widths, ..worked.dng.clone() }.file();
            for slice in 0..SLICES {
                for length in (0..=40).chain([63, 64, 65, 256, 1_000]) {
                    let label = format!("slice {slice} of {length}, {order:?}, {widths:?}");
                    if length < 32 {
                        tally.ask(&label, &file, &chain_with(worked.spot, slice, length), Some(NO_PLACES));
                    } else {
                        let mut slices = LEAST;
                        slices[slice] = length;
                        hold(tally, &label, &file, &worked, slices);
                    }
                }
            }
        }
    }
}

/// All five of one of two lengths, in every combination.
fn several_lengths(tally: &mut Tally) {
    for (order, widths) in WAYS {
        for worked in few_and_many(order) {
            tally.files += 1;
            let file = Dng { widths, ..worked.dng.clone() }.file();
            for (combination, pair) in
                (0..1 << SLICES).flat_map(|c| [[32, 31], [33, 0], [64, 1], [32, 33]].map(|pair| (c, pair)))
            {
                let slices = [0, 1, 2, 3, 4].map(|slice| pair[combination >> slice & 1]);
                let label = format!("slices of {slices:?}, {order:?}, {widths:?}");
                if slices.iter().all(|length| *length >= 32) {
                    hold(tally, &label, &file, &worked, slices);
                } else {
                    let [row, column, plane] = worked.spot;
                    let call = Call::Chain { row, column, plane, slices };
                    tally.ask(&label, &file, &call, Some(NO_PLACES));
                }
            }
        }
    }
}

/// A file for each refusal that stands before 13, and good ones, of base files.
pub fn refused(base_file: fn(usize) -> Dng) -> Vec<(Answer, Vec<u8>)> {
    let good = |base| base_file(base).with_opcodes(&[skipped()]);
    let list = |opcodes: &[Opcode]| base_file(MOSAIC).with_opcodes(opcodes);
    let whole = Area::whole(super::ROWS, super::COLUMNS, 1);
    let dngs = [
        ((4, 256), good(MOSAIC).with(Tag::longs(256, &[0]))),
        ((5, 262), good(LINEAR).without(262)),
        ((6, 0), good(MOSAIC).with(Tag::longs(254, &[1]))),
        ((7, 0), good(MOSAIC).with_first(Tag::bytes(50707, &[1, 7, 1, 1]))),
        ((8, 259), good(LINEAR).with(Tag::shorts(259, &[7]))),
        ((4, 50720), good(MOSAIC).with(Tag::shorts(50720, &[8, 1]))),
        ((8, 51022), good(MOSAIC).with(Tag::bytes(51022, &[1]))),
        ((4, 51009), good(LINEAR).with(Tag::undefined(51009, &[0; 3]))),
        ((9, 0), good(MOSAIC).with(Tag::shorts(50717, &[0]))),
        ((11, 32), list(&vec![skipped(); 33])),
        ((10, 1), list(&[skipped(), Opcode::new(8, 1, vec![0; 35])])),
        ((11, 1), list(&[skipped(), Opcode::new(14, 0, vec![])])),
        ((12, 0), list(&[Opcode::map_polynomial(whole, &[f64::INFINITY])])),
        (DONE, good(MOSAIC)),
        (DONE, good(LINEAR)),
    ];
    let mut files = vec![((1, 0), vec![]), ((2, 0), b"II\x2A\x01\x08\x00\x00\x00".to_vec())];
    for (answer, dng) in dngs {
        files.extend(each_way(&dng).map(|dng| (answer, dng.file())));
    }
    let cut = good(MOSAIC).with(Tag::bytes(65_000, &[0; 9]).with_field(1 << 30));
    files.extend(each_way(&cut).map(|dng| ((3, 0), dng.file())));
    files
}

/// "Refusals: as spot; then 14": what the file refuses comes before 13, and 13 before
/// 14, in every combination.
fn order(tally: &mut Tally) {
    let (rows, columns) = (u64::from(super::ROWS), u64::from(super::COLUMNS));
    let inside = [[0; 3], [rows - 1, columns - 1, 0]];
    let mut outside = vec![[rows, 0, 0], [0, columns, 0], [0, 0, 3], [rows, columns, 3]];
    for far in [PAST_LONG, PAST_LONG + 1, HALF, LONG8_MAX - 1, LONG8_MAX] {
        outside.extend([[far, 0, 0], [0, far, 0], [0, 0, far], [far; 3]]);
    }
    for (answer, file) in refused(framed) {
        tally.files += 1;
        let places = inside.iter().map(|place| (DONE, *place));
        for (of_place, place) in places.chain(outside.iter().map(|place| (OUTSIDE, *place))) {
            let first = [answer, of_place].into_iter().find(|answer| *answer != DONE);
            let mut ask = |call: Call, of_slices: Answer| {
                let stated = first.unwrap_or(of_slices);
                tally.ask(&format!("{answer:?}, {of_place:?}, {of_slices:?}"), &file, &call, Some(stated));
            };
            ask(chain(place), DONE);
            for slice in 0..SLICES {
                for (length, of_slices) in [(0, NO_PLACES), (31, NO_PLACES), (33, DONE)] {
                    ask(chain_with(place, slice, length), of_slices);
                }
            }
        }
    }
}

/// Of a frame of 4 x 4 pixels.
const SIDE: u32 = 4;

/// An opcode on an area that takes its numbers; none for a listed id is skipped.
fn on_area(id: u32, area: Area) -> Opcode {
    let rows = (area.bottom - area.top).div_ceil(area.row_pitch) as usize;
    let columns = (area.right - area.left).div_ceil(area.column_pitch) as usize;
    match id {
        7 => Opcode::map_table(area, &[9, 20_000, 40_000]),
        8 => Opcode::map_polynomial(area, &[0.125, 0.5]),
        9 => Opcode::gain_map(area, &GainMap::spread(&[[0.3, 1.5], [0.9, 0.2]])),
        10 => Opcode::per_line(id, area, &[0.25, -0.125, 0.5, 0.125][..rows]),
        11 => Opcode::per_line(id, area, &[0.25, -0.125, 0.5, 0.125][..columns]),
        12 => Opcode::per_line(id, area, &[0.25, 1.5, 0.75, 1.0][..rows]),
        13 => Opcode::per_line(id, area, &[0.25, 1.5, 0.75, 1.0][..columns]),
        _ => Opcode::new(id, 1, vec![0x77; 21]),
    }
}

/// Two halves of the frame: of its rows, its columns, its planes, or by a pitch.
fn halves() -> [[Area; 2]; 5] {
    let whole = Area::whole(SIDE, SIDE, 3);
    [
        [Area { bottom: 2, ..whole }, Area { top: 2, ..whole }],
        [Area { right: 1, ..whole }, Area { left: 1, ..whole }],
        [Area { planes: 1, ..whole }, Area { plane: 1, planes: 2, ..whole }],
        [0, 1].map(|top| Area { top, row_pitch: 2, ..whole }),
        [0, 1].map(|left| Area { left, column_pitch: 2, ..whole }),
    ]
}

fn spots(rows: u64, columns: u64, samples: u64) -> impl Iterator<Item = [u64; 3]> {
    let pixels = (0..rows).flat_map(move |row| (0..columns).map(move |column| (row, column)));
    pixels.flat_map(move |(row, column)| (0..samples).map(move |plane| [row, column, plane]))
}

/// Places k and k + 1 for each other, in list order.
fn exchanged(places: impl Iterator<Item = u64>, k: u64) -> Vec<u64> {
    let other = |place: u64| match place {
        _ if place == k => k + 1,
        _ if place == k + 1 => k,
        _ => place,
    };
    let mut places: Vec<u64> = places.map(other).collect();
    places.sort_unstable();
    places
}

/// Two neighbours whose grids are apart, or of which one is skipped, change places. Of
/// the core's own answers all stays but the places.
fn exchanges(tally: &mut Tally) {
    let picture = Picture::counting(SIDE, SIDE, 3, 8);
    let halves = halves();
    let ids = [7, 8, 9, 10, 11, 12, 13, 14];
    for (turn, (a, b)) in ids.into_iter().flat_map(|a| ids.map(|b| (a, b))).enumerate() {
        let [first, second] = halves[turn % halves.len()];
        let around = on_area([8, 12, 10][turn % 3], Area::whole(SIDE, SIDE, 3));
        let k = turn % 4;
        let mut list = vec![around.clone(), skipped(), around];
        list.splice(k..k, [on_area(a, first), on_area(b, second)]);
        let mut other = list.clone();
        other.swap(k, k + 1);
        let (order, widths) = WAYS[turn / 4 % WAYS.len()];
        let [before, after] =
            [list, other].map(|list| Dng { widths, ..Dng::new(order, &picture).with_opcodes(&list) }.file());
        tally.files += 2;
        let label = format!("opcodes {a} and {b} change places at {k}");
        for spot in spots(SIDE.into(), SIDE.into(), 3) {
            let call = chain(spot);
            let [old, new] = [&before, &after].map(|file| tally.ask_now(&label, file, &call, Some(DONE)));
            let ((numbers, links, skipped), (new_numbers, new_links, new_skipped)) =
                (old.told(LEAST), new.told(LEAST));
            let places = exchanged(links.iter().map(|link| link[0]), k as u64);
            let stay = old.values(&call) == new.values(&call)
                && numbers == new_numbers
                && links.iter().map(|link| &link[1..]).eq(new_links.iter().map(|link| &link[1..]))
                && places.into_iter().eq(new_links.iter().map(|link| link[0]))
                && exchanged(skipped.into_iter(), k as u64) == new_skipped;
            if !stay {
                tally.differs(&format!("{label}: {call:?}: more than places changed"));
            }
        }
    }
}

/// Each stored sample in turn takes another number. The chain of every other sample
/// stays, whole, by the core's own answers.
fn samples(tally: &mut Tally) {
    let [rows, columns] = [3, 4];
    for (turn, (samples, bits)) in [(1, 8), (1, 16), (3, 8), (3, 16)].into_iter().enumerate() {
        let picture = Picture { rows_per_strip: 2, ..Picture::counting(5, 5, samples, bits) };
        let area = Area { row_pitch: 2, ..Area::whole(rows, columns, samples) };
        let (order, widths) = WAYS[turn];
        let dng = Dng::new(order, &picture)
            .with(Tag::longs(50829, &[1, 1, 1 + rows, 1 + columns]))
            .with(Tag::shorts(50714, &vec![3; samples as usize]))
            .with_opcodes(&[on_area(8, area), skipped(), on_area(9, area), on_area(7, area)]);
        let layout = Dng { widths, ..dng }.layout();
        let all: Vec<[u64; 3]> = spots(rows.into(), columns.into(), samples.into()).collect();
        let label = format!("a stored sample of {samples} x {bits} bits");
        let mut told = |file: &[u8]| -> Vec<_> {
            tally.files += 1;
            all.iter().map(|spot| tally.ask_now(&label, file, &chain(*spot), Some(DONE))).collect()
        };
        let before = told(&layout.file);
        let mut changed = Vec::new();
        let [width, bytes] = [samples, bits / 8].map(|n| n as usize);
        for sample in 0..25 * width {
            let (row, column, plane) = (sample / (5 * width), sample / width % 5, sample % width);
            let start = layout.blocks[row / 2] + bytes * ((row % 2 * 5 + column) * width + plane);
            let mut file = layout.file.clone();
            file[start..start + bytes].iter_mut().for_each(|byte| *byte ^= 0x5B);
            let after = told(&file);
            let own = [row, column, plane].map(|n| n as u64);
            for (spot, (before, after)) in all.iter().zip(before.iter().zip(&after)) {
                let is_own = [spot[0] + 1, spot[1] + 1, spot[2]] == own;
                if (before == after) == is_own {
                    changed.push(format!("{label}: {own:?} changed, and the chain of {spot:?} did not fit"));
                }
            }
        }
        changed.iter().for_each(|line| tally.differs(line));
    }
}
