//! The crop (document 02, T-03): the tags 50719 and 50720, the crop's own test, both
//! in their place among the others, and what the calls give outside the crop.

use std::collections::BTreeSet;

use reference::builder::{Dng, Opcode, OpcodeList, Picture, Tag};
use reference::bytes::{ByteOrder, Widths, LAYOUTS};
use reference::cases::Call;
use reference::fractions::FRACTIONS;
use reference::tag_test::{LONG, LONG8, RATIONAL, SHORT};

use super::{
    check_file, each_way, entry, every_type, far, framed, plain, takes, Answer, COLUMNS, DONE, HALF, LINEAR,
    LONG8_MAX, LONG_MAX, MAX, MOSAIC, PAST_LONG, ROWS,
};
use crate::questions::{colour_window, half_window, window};
use crate::tally::Tally;

const ORIGIN: u16 = 50719;
const SIZE: u16 = 50720;

/// The crop's own refusal.
const NO_CROP: Answer = (4, SIZE as u32);

/// The types that both tags take, LONG8 in 64 bits only.
const KINDS: [u16; 4] = [SHORT, LONG, RATIONAL, LONG8];

/// The sides of the active area of `framed`: columns, rows.
const SIDES: [u64; 2] = [COLUMNS as u64, ROWS as u64];

/// The crop on the card, left, top, columns and rows, or the refusal.
type Expected = Result<[u64; 4], Answer>;

/// A file with what its card must have.
pub struct Case {
    pub label: String,
    pub file: Vec<u8>,
    expected: Expected,
}

/// Every case, and the calls that do not see a crop.
pub fn check(tally: &mut Tally) {
    for Case { label, file, expected } in cases() {
        check_file(tally, &label, &file, expected.err().unwrap_or(DONE));
        if let Ok(crop) = expected {
            let card = tally.ask(&label, &file, &Call::Card, Some(DONE));
            if card.bits[5..] != crop {
                tally.differs(&format!("{label}: crop {:?}, stated {crop:?}", &card.bits[5..]));
            }
        }
    }
    outside_the_crop(tally);
}

/// Every file of the crop's limits.
pub fn cases() -> Vec<Case> {
    let mut cases = Cases(Vec::new());
    defaults(&mut cases);
    types(&mut cases);
    counts(&mut cases);
    fractions(&mut cases);
    stored_order(&mut cases);
    edges(&mut cases);
    greatest_sides(&mut cases);
    wide_numbers(&mut cases);
    order_of_tests(&mut cases);
    cases.0
}

struct Cases(Vec<Case>);

impl Cases {
    /// The file as it is described.
    fn one(&mut self, label: &str, dng: &Dng, expected: Expected) {
        let label = format!("{label}, {:?}, {} bits", dng.order, 8 * dng.widths.word);
        self.0.push(Case { label, file: dng.file(), expected });
    }

    /// In both byte orders and in both layouts.
    fn add(&mut self, label: &str, dng: &Dng, expected: Expected) {
        each_way(dng).for_each(|dng| self.one(label, &dng, expected));
    }

    /// In both byte orders and in the layouts that know the type.
    fn add_of_type(&mut self, label: &str, kind: u16, dng: &Dng, expected: Expected) {
        for dng in each_way(dng).filter(|dng| kind != LONG8 || dng.widths == Widths::BITS_64) {
            self.one(&format!("{label}, type {kind}"), &dng, expected);
        }
    }
}

/// A base file with an area inside its frame, colour tags and a pattern.
fn subject(base: usize) -> Dng {
    framed(base)
        .with_pattern([1, 0, 2, 1])
        .with_first(Tag::srationals(50964, &[(1, 3); 9]))
        .with_first(Tag::rationals(50728, &[(1, 2); 3]))
}

fn cropped(dng: &Dng, origin: [u64; 2], size: [u64; 2]) -> Dng {
    dng.clone().with(pair(ORIGIN, SHORT, origin)).with(pair(SIZE, SHORT, size))
}

/// Two whole numbers of a type.
fn pair(tag: u16, kind: u16, values: [u64; 2]) -> Tag {
    match kind {
        LONG8 => Tag::long8s(tag, &values),
        _ => entry(tag, kind, &values.map(|n| n as u32)),
    }
}

/// No tag, one of the two, and both where nobody reads them.
fn defaults(cases: &mut Cases) {
    let [columns, rows] = SIDES;
    for base in [MOSAIC, LINEAR] {
        let dng = subject(base);
        let whole = Ok([0, 0, columns, rows]);
        cases.add(&format!("no crop, base {base}"), &dng, whole);
        cases.add(&format!("no crop in a child, base {base}"), &dng.clone().nested(1), whole);
        cases.add(&format!("no crop, base {base}, no area"), &plain(base), Ok([0, 0, 3, 2]));
        let above =
            dng.clone().nested(1).with_first(Tag::bytes(ORIGIN, &[1])).with_first(Tag::bytes(SIZE, &[]));
        cases.add("a crop in IFD 0 above the raw IFD", &above, whole);
        let child = cropped(&dng, [2, 1], [3, 4]).nested(2);
        cases.add("a crop in a child", &child, Ok([2, 1, 3, 4]));
        cases.add("size alone", &dng.clone().with(pair(SIZE, SHORT, [3, 4])), Ok([0, 0, 3, 4]));
        cases.add("size alone, all", &dng.clone().with(pair(SIZE, SHORT, SIDES)), whole);
        cases.add("size alone, the frame's", &dng.clone().with(pair(SIZE, SHORT, [10, 8])), Err(NO_CROP));
        for (origin, expected) in [
            ([0, 0], whole),
            ([1, 0], Err(NO_CROP)),
            ([0, 1], Err(NO_CROP)),
            (SIDES, Err(NO_CROP)),
            ([65_535, 65_535], Err(NO_CROP)),
        ] {
            let dng = dng.clone().with(pair(ORIGIN, SHORT, origin));
            cases.add(&format!("origin {origin:?} alone, base {base}"), &dng, expected);
        }
    }
}

/// Every type of the origin beside every type of the size, and types that are not
/// taken.
fn types(cases: &mut Cases) {
    for (base, kind) in [MOSAIC, LINEAR].into_iter().flat_map(|base| KINDS.map(|kind| (base, kind))) {
        for other in KINDS {
            let dng = subject(base).with(pair(ORIGIN, kind, [3, 1])).with(pair(SIZE, other, [2, 5]));
            let widest = if other == LONG8 { other } else { kind };
            cases.add_of_type(&format!("types {kind}, {other}"), widest, &dng, Ok([3, 1, 2, 5]));
        }
    }
    for (tag, kind) in [ORIGIN, SIZE].into_iter().flat_map(|tag| every_type().map(move |kind| (tag, kind))) {
        let dng = cropped(&subject(MOSAIC), [0, 0], [1, 1]).with(entry(tag, kind, &[1, 1]));
        for widths in LAYOUTS.into_iter().filter(|widths| !takes(*widths, &KINDS[..3], kind)) {
            for order in super::ORDERS {
                let dng = Dng { order, widths, ..dng.clone() };
                cases.one(&format!("{tag} of type {kind}"), &dng, Err((4, tag.into())));
            }
        }
    }
}

fn counts(cases: &mut Cases) {
    for (tag, kind) in [ORIGIN, SIZE].into_iter().flat_map(|tag| KINDS.map(|kind| (tag, kind))) {
        for count in [0, 1, 3, 4] {
            let dng = cropped(&subject(LINEAR), [0, 0], [1, 1]).with(entry(tag, kind, &vec![1; count]));
            cases.add_of_type(&format!("{count} values of {tag}"), kind, &dng, Err((4, tag.into())));
        }
    }
}

/// Each as the first and as the second value of either tag.
fn fractions(cases: &mut Cases) {
    for (tag, place) in [(ORIGIN, 0), (ORIGIN, 1), (SIZE, 0), (SIZE, 1)] {
        for (fraction, value) in FRACTIONS {
            let mut values = [(1, 1); 2];
            values[place] = fraction;
            let dng = cropped(&subject(MOSAIC), [0, 0], [1, 1]).with(Tag::rationals(tag, &values));
            let (mut crop, at) = if tag == ORIGIN { ([1; 4], place) } else { ([0, 0, 1, 1], 2 + place) };
            let expected = match value {
                Err(number) => Err((number, tag.into())),
                Ok(value) if value > SIDES[place] || (tag == SIZE && value == 0) => Err(NO_CROP),
                Ok(value) => {
                    crop[at] = value;
                    Ok(crop)
                }
            };
            cases.add(&format!("{tag} = {values:?}"), &dng, expected);
        }
    }
}

/// The first value before the second, in either tag; both before the crop.
fn stored_order(cases: &mut Cases) {
    let (illegal, broken, far, none) = ((1, 0), (1, 2), (MAX, 1), (0, 1));
    for (tag, values, number) in [
        (ORIGIN, [illegal, broken], 4),
        (ORIGIN, [broken, illegal], 8),
        (SIZE, [illegal, broken], 4),
        (SIZE, [broken, illegal], 8),
        (ORIGIN, [far, broken], 8),
        (ORIGIN, [far, illegal], 4),
        (SIZE, [far, broken], 8),
        (SIZE, [far, illegal], 4),
        (SIZE, [none, broken], 8),
        (SIZE, [none, illegal], 4),
    ] {
        let dng = cropped(&subject(MOSAIC), [0, 0], [1, 1]).with(Tag::rationals(tag, &values));
        cases.add(&format!("{tag} = {values:?}"), &dng, Err((number, tag.into())));
        // A size of no row and column beside it comes behind both tags.
        if tag == ORIGIN {
            let dng = dng.with(Tag::shorts(SIZE, &[0, 0]));
            cases.add(&format!("{tag} = {values:?}, no size"), &dng, Err((number, tag.into())));
        }
    }
}

/// Starts and lengths at the edge and beside it, in one direction and then in the
/// other, of an area inside its frame and of a whole frame.
fn edges(cases: &mut Cases) {
    let frames = [(subject(MOSAIC), SIDES), (subject(LINEAR), SIDES), (plain(MOSAIC), [3, 2])];
    for ((dng, sides), across) in frames.iter().flat_map(|of| [(of, true), (of, false)]) {
        let whole = sides[usize::from(!across)];
        let near: BTreeSet<u64> = [0, 1, 2, whole - 1, whole, whole + 1].into();
        for (start, length) in near.iter().flat_map(|start| near.iter().map(|length| (*start, *length))) {
            let [origin, size] =
                [(start, 0), (length, 1)].map(
                    |(of_side, other)| {
                        if across {
                            [of_side, other]
                        } else {
                            [other, of_side]
                        }
                    },
                );
            let inside = length > 0 && start + length <= whole;
            let crop = [origin[0], origin[1], size[0], size[1]];
            let expected = if inside { Ok(crop) } else { Err(NO_CROP) };
            cases.add(&format!("crop {crop:?} of {sides:?}"), &cropped(dng, origin, size), expected);
        }
        cases.add("no row and column", &cropped(dng, [0, 0], [0, 0]), Err(NO_CROP));
        cases.add("at the corner past it", &cropped(dng, *sides, [1, 1]), Err(NO_CROP));
        let [columns, rows] = *sides;
        let last = cropped(dng, [columns - 1, rows - 1], [1, 1]);
        cases.add("the last sample", &last, Ok([columns - 1, rows - 1, 1, 1]));
        // Seven columns and six rows, or three and two, the other way round.
        cases.add("sides swapped", &cropped(dng, [0, 0], [rows, columns]), Err(NO_CROP));
        cases.add("origin swapped", &cropped(dng, [0, columns - 1], [1, 1]), Err(NO_CROP));
        cases.add("a column", &cropped(dng, [columns - 1, 0], [1, rows]), Ok([columns - 1, 0, 1, rows]));
    }
}

/// Frames of the greatest width and of the greatest length.
fn greatest_sides(cases: &mut Cases) {
    const SIDE: u64 = 16_384;
    for (across, kind) in [true, false].into_iter().flat_map(|across| KINDS.map(|kind| (across, kind))) {
        let (width, length) = if across { (SIDE as u32, 1) } else { (1, SIDE as u32) };
        let dng = Dng::new(ByteOrder::Little, &Picture::counting(width, length, 1, 8));
        for (start, length) in [(0, SIDE), (1, SIDE - 1), (SIDE - 1, 1), (0, SIDE + 1), (SIDE, 1), (1, SIDE)]
        {
            let order = |of_side, other| if across { [of_side, other] } else { [other, of_side] };
            let (origin, size) = (order(start, 0), order(length, 1));
            let dng = dng.clone().with(pair(ORIGIN, kind, origin)).with(pair(SIZE, kind, size));
            let crop = [origin[0], origin[1], size[0], size[1]];
            let expected = if start + length <= SIDE { Ok(crop) } else { Err(NO_CROP) };
            cases.add_of_type(&format!("crop {crop:?} of {SIDE}"), kind, &dng, expected);
        }
    }
}

/// Starts and lengths whose sums are inside but for 2^64 or 2^32.
const WRAPPING: [[u64; 2]; 20] = [
    [LONG8_MAX, 1],
    [LONG8_MAX, 2],
    [LONG8_MAX - 1, 3],
    [1, LONG8_MAX],
    [2, LONG8_MAX],
    [3, LONG8_MAX - 1],
    [LONG8_MAX, LONG8_MAX],
    [HALF, HALF],
    [HALF, HALF + 1],
    [HALF + 1, HALF + 1],
    [HALF - 1, HALF + 2],
    [LONG8_MAX, 0],
    [PAST_LONG, 1],
    [PAST_LONG + 1, 1],
    [0, PAST_LONG + 1],
    [PAST_LONG, PAST_LONG],
    [LONG_MAX, 1],
    [LONG_MAX, 2],
    [1, LONG_MAX],
    [2, LONG_MAX],
];

/// LONG8 numbers up to the greatest, and LONGs and fractions up to theirs.
fn wide_numbers(cases: &mut Cases) {
    let mut case = |origin: [u64; 2], size: [u64; 2]| {
        for kind in [LONG, RATIONAL, LONG8] {
            let fits = [origin, size].concat().iter().all(|n| *n <= LONG_MAX);
            if fits || kind == LONG8 {
                let dng = subject(MOSAIC).with(pair(ORIGIN, kind, origin)).with(pair(SIZE, kind, size));
                cases.add_of_type(&format!("crop {origin:?}, {size:?}"), kind, &dng, Err(NO_CROP));
            }
        }
    };
    for [start, length] in WRAPPING {
        case([start, 0], [length, 1]);
        case([0, start], [1, length]);
        case([start, start], [length, length]);
    }
    for place in 0..4 {
        for value in far(1) {
            let mut crop = [1, 1, 1, 1];
            crop[place] = value;
            case([crop[0], crop[1]], [crop[2], crop[3]]);
        }
    }
}

/// A refusal, and the tags that make it.
type Fault = (Answer, Vec<Tag>);

/// The faults of each tag and of the crop, which the origin alone makes, in order of
/// test.
fn crop_faults() -> [Vec<Fault>; 3] {
    let [of_origin, of_size] = [ORIGIN, SIZE].map(|tag| {
        let of = |number, tag: Tag| ((number, tag.tag.into()), vec![tag]);
        vec![
            of(4, entry(tag, 14, &[1, 1])),
            of(4, entry(tag, SHORT, &[1])),
            of(4, Tag::rationals(tag, &[(1, 1), (1, 0)])),
            of(8, Tag::rationals(tag, &[(3, 2), (1, 0)])),
        ]
    });
    let outside = [[SIDES[0], 0], [0, SIDES[1]]].map(|origin| (NO_CROP, vec![pair(ORIGIN, SHORT, origin)]));
    [of_origin, of_size, outside.to_vec()]
}

/// Those that stand before 50719, and those behind the crop.
fn faults_around() -> [Vec<Fault>; 2] {
    let list = |opcode| OpcodeList::new(&[opcode]).tag();
    let before = vec![
        ((8, 50716), vec![Tag::srationals(50716, &[(1, 3); ROWS as usize])]),
        ((4, 50717), vec![entry(50717, 14, &[1])]),
        ((8, 50717), vec![Tag::longs(50717, &[65_536])]),
    ];
    let behind = vec![
        ((8, 51008), vec![Tag::bytes(51008, &[1])]),
        ((8, 51022), vec![Tag::bytes(51022, &[1])]),
        ((4, 51009), vec![Tag::undefined(51009, &[0; 3])]),
        ((9, 0), vec![Tag::shorts(50717, &[0])]),
        ((11, 0), vec![list(Opcode::new(99, 0, vec![]))]),
        ((10, 0), vec![list(Opcode::new(7, 0, vec![]))]),
    ];
    [before, behind]
}

/// Of two faults the first in order of test answers.
fn order_of_tests(cases: &mut Cases) {
    let good = cropped(&framed(MOSAIC), [1, 1], [2, 2]);
    let with = |tags: &[Tag]| tags.iter().cloned().fold(good.clone(), Dng::with);
    let [before, behind] = faults_around();
    let [of_origin, of_size, outside] = crop_faults();
    let in_order = [before, of_origin, of_size, outside, behind];
    for (i, (answer, first)) in in_order.iter().enumerate().flat_map(|(i, of)| of.iter().map(move |f| (i, f)))
    {
        cases.add(&format!("{answer:?} alone"), &with(first), Err(*answer));
        for (other, second) in in_order[i + 1..].iter().flatten() {
            // A tag of both is that of the first.
            let dng = with(&[&second[..], first].concat());
            cases.add(&format!("{answer:?} before {other:?}"), &dng, Err(*answer));
        }
    }
}

/// Windows, spots, colour windows and half windows over each pixel or block of the
/// area, and one past it, with a crop and without one: "The calls' coordinates stay
/// with the active corner."
fn outside_the_crop(tally: &mut Tally) {
    for (base, samples) in [(MOSAIC, 1), (LINEAR, 3)] {
        for (origin, size) in [([2, 1], [3, 4]), ([6, 5], [1, 1]), ([0, 0], [1, 1])] {
            for dng in each_way(&subject(base)) {
                let label = format!("outside {origin:?}, {size:?}, {:?}, {:?}", dng.order, dng.widths);
                let [of_whole, of_crop] = [dng.file(), cropped(&dng, origin, size).file()].map(|file| {
                    tally.files += 1;
                    let calls = calls_of_all(samples);
                    calls.map(|call| (call, tally.ask(&label, &file, &call, None))).collect::<Vec<_>>()
                });
                for ((call, whole), (_, crop)) in of_whole.iter().zip(&of_crop) {
                    if whole != crop {
                        tally.differs(&format!("{label}: {call:?}: otherwise without a crop"));
                    }
                }
            }
        }
    }
}

fn calls_of_all(samples: usize) -> impl Iterator<Item = Call> {
    let [columns, rows] = SIDES;
    let places = (0..=rows).flat_map(move |row| (0..=columns).map(move |column| (row, column)));
    let of_places = places.flat_map(move |(row, column)| {
        let one = [row, column, 1, 1];
        let spot = Call::Spot { row, column, plane: 0 };
        [spot, window(one, samples), colour_window(one, 3), half_window(one, 3)]
    });
    let whole = [0, 0, rows, columns];
    let all = (rows * columns) as usize;
    let blocks = [rows / 2, columns / 2];
    let blocks = half_window([0, 0, blocks[0], blocks[1]], (3 * blocks[0] * blocks[1]) as usize);
    of_places.chain([window(whole, all * samples), colour_window(whole, all * 3), blocks])
}
