//! "Crop on the card" (document 02, T-03): DefaultCropOrigin and DefaultCropSize,
//! their values, the crop's own test and its place among the others.

mod common;

use common::*;
use reference::builder::{Area, Dng, Opcode, OpcodeList, Tag};
use reference::bytes::{Widths, LAYOUTS};
use reference::cases::{answer_line, Call};
use reference::fractions::FRACTIONS;
use reference::tag_test::{IFD8, LONG, LONG8, RATIONAL, SHORT, SLONG8, SRATIONAL};
use reference::{card, colour_window, half_window, spot, window, Answer, Card, Crop};

const ORIGIN: u16 = 50719;
const SIZE: u16 = 50720;
const MAX: u64 = u64::MAX;
const PAST_LONG: u64 = 1 << 32;
const HALF: u64 = 1 << 63;

/// Of the active area of `base`.
const COLUMNS: u64 = 7;
const ROWS: u64 = 5;

/// All of the frame is active; colour tags and a pattern let every call but one
/// develop it.
fn base() -> Dng {
    counting_mosaic(COLUMNS as u32, ROWS as u32)
}

/// The same area inside a greater frame, its corner at stored row 2, column 3.
fn framed() -> Dng {
    let sides = [2, 3, 2 + ROWS as u32, 3 + COLUMNS as u32];
    counting_mosaic(COLUMNS as u32 + 9, ROWS as u32 + 6).with(Tag::longs(50829, &sides))
}

fn linear_base() -> Dng {
    linear(COLUMNS as u32, ROWS as u32)
        .with_first(Tag::srationals(50964, &IDENTITY))
        .with_first(Tag::shorts(50728, &[1; 3]))
}

/// A pair of numbers as SHORT, LONG, LONG8 or RATIONAL.
fn pair(tag: u16, kind: u16, values: [u64; 2]) -> Tag {
    match kind {
        LONG8 => Tag::long8s(tag, &values),
        _ => Tag::of_type(tag, kind, &values.map(|n| u32::try_from(n).expect("it is small"))),
    }
}

fn cropped(dng: &Dng, origin: [u64; 2], size: [u64; 2]) -> Dng {
    dng.clone().with(pair(ORIGIN, SHORT, origin)).with(pair(SIZE, SHORT, size))
}

/// Both byte orders in both layouts.
fn each_way(dng: &Dng) -> impl Iterator<Item = Dng> + '_ {
    LAYOUTS.into_iter().flat_map(move |widths| BOTH.map(move |order| Dng { order, widths, ..dng.clone() }))
}

/// The crop of an accepted file: left, top, columns, rows.
#[track_caller]
fn has_crop(dng: &Dng, [left, top, columns, rows]: [u64; 4]) {
    let card = card(&dng.file());
    assert_eq!((card.answer(), card.crop), (DONE, Crop { left, top, columns, rows }), "{dng:?}");
}

#[track_caller]
fn crops(dng: &Dng, expected: [u64; 4]) {
    each_way(dng).for_each(|dng| has_crop(&dng, expected));
}

/// Every call answers so. The card has zeros, the spot +0.0, and the slices stay.
#[track_caller]
fn refused(dng: &Dng, expected: Answer) {
    let file = dng.file();
    let zeros = Crop { left: 0, top: 0, columns: 0, rows: 0 };
    let Answer { number, detail } = expected;
    let of_card = Card { number, detail, rows: 0, columns: 0, samples: 0, kept: 0, skipped: 0, crop: zeros };
    assert_eq!(card(&file), of_card, "{dng:?}");
    for place in [0, COLUMNS, MAX] {
        let (answer, value) = spot(&file, place, place, place);
        assert_eq!((answer, value.to_bits()), (expected, 0));
        for (call, values) in [(window as WindowCall, 1), (colour_window, 3), (half_window, 3)] {
            for slice in [values, values + 1] {
                let mut out = vec![UNTOUCHED; slice];
                assert_eq!(call(&file, place, place, 1, 1, &mut out), expected);
                assert!(out.iter().all(|value| *value == UNTOUCHED));
            }
        }
    }
}

#[track_caller]
fn refused_each_way(dng: &Dng, number: u32, detail: u16) {
    each_way(dng).for_each(|dng| refused(&dng, refusal(number, detail.into())));
}

#[test]
fn the_default_is_the_active_area() {
    crops(&base(), [0, 0, COLUMNS, ROWS]);
    crops(&framed(), [0, 0, COLUMNS, ROWS]);
    crops(&linear_base(), [0, 0, COLUMNS, ROWS]);
    crops(&base().nested(2), [0, 0, COLUMNS, ROWS]);
    // In IFD 0 above the raw IFD nobody reads them.
    let above = base().nested(1).with_first(Tag::bytes(ORIGIN, &[1])).with_first(Tag::bytes(SIZE, &[1]));
    crops(&above, [0, 0, COLUMNS, ROWS]);
}

/// Number and detail, the five counts, then the crop: left, top, columns, rows.
#[test]
fn the_line_of_a_card_ends_with_the_crop() {
    let dng = cropped(&base(), [3, 1], [2, 4]);
    assert_eq!(answer_line(&dng.file(), &Call::Card), "card -> 0 0 5 7 1 0 0 3 1 2 4");
    let dng = cropped(&base(), [3, 1], [2, 5]);
    assert_eq!(answer_line(&dng.file(), &Call::Card), "card -> 4 50720 0 0 0 0 0 0 0 0 0");
}

#[test]
fn a_size_without_an_origin_begins_at_the_active_corner() {
    for dng in [base(), framed(), linear_base()] {
        crops(&dng.clone().with(pair(SIZE, SHORT, [3, 2])), [0, 0, 3, 2]);
        crops(&dng.with(pair(SIZE, SHORT, [COLUMNS, ROWS])), [0, 0, COLUMNS, ROWS]);
    }
}

/// "the crop .. is 4 on 50720, also where 50720 is absent"
#[test]
fn an_origin_without_a_size_is_the_active_corner() {
    for dng in [base(), framed(), linear_base()] {
        crops(&dng.clone().with(pair(ORIGIN, SHORT, [0, 0])), [0, 0, COLUMNS, ROWS]);
        for origin in [[1, 0], [0, 1], [1, 1], [COLUMNS, 0], [0, ROWS], [65_535, 65_535]] {
            refused_each_way(&dng.clone().with(pair(ORIGIN, SHORT, origin)), 4, SIZE);
        }
    }
}

/// The types that a layout's tags take.
fn kinds(widths: Widths) -> Vec<u16> {
    let narrow = [SHORT, LONG, RATIONAL];
    if widths == Widths::BITS_64 {
        [&narrow[..], &[LONG8]].concat()
    } else {
        narrow.to_vec()
    }
}

#[test]
fn every_type_of_either_tag_beside_every_type_of_the_other() {
    for dng in [base(), framed(), linear_base()].iter().flat_map(each_way) {
        for of_origin in kinds(dng.widths) {
            for of_size in kinds(dng.widths) {
                let dng = dng.clone().with(pair(ORIGIN, of_origin, [3, 1]));
                has_crop(&dng.with(pair(SIZE, of_size, [2, 4])), [3, 1, 2, 4]);
            }
        }
    }
}

#[test]
fn other_types_are_4_on_their_tag() {
    for (dng, tag) in
        [base(), linear_base()].iter().flat_map(each_way).flat_map(|d| [ORIGIN, SIZE].map(|t| (d.clone(), t)))
    {
        let taken = kinds(dng.widths);
        for kind in (0..=19).chain([256 + SHORT, 65_535]).filter(|kind| !taken.contains(kind)) {
            let dng = cropped(&dng, [0, 0], [1, 1]).with(Tag::of_type(tag, kind, &[1, 1]));
            refused(&dng, refusal(4, tag.into()));
        }
        for kind in [SRATIONAL, SLONG8, IFD8] {
            assert!(!taken.contains(&kind));
        }
    }
}

#[test]
fn the_count_is_2() {
    for (dng, tag) in each_way(&base()).flat_map(|dng| [ORIGIN, SIZE].map(|tag| (dng.clone(), tag))) {
        for (kind, count) in kinds(dng.widths).into_iter().flat_map(|kind| [0, 1, 3, 4].map(|n| (kind, n))) {
            let dng = cropped(&dng, [0, 0], [1, 1]).with(Tag::of_type(tag, kind, &vec![1; count]));
            refused(&dng, refusal(4, tag.into()));
        }
    }
}

#[test]
fn a_fraction_is_a_whole_number_or_refused() {
    for (tag, place) in [(ORIGIN, 0), (ORIGIN, 1), (SIZE, 0), (SIZE, 1)] {
        for (fraction, outcome) in FRACTIONS {
            let mut fractions = [(1, 1); 2];
            fractions[place] = fraction;
            let dng = cropped(&base(), [0, 0], [1, 1]).with(Tag::rationals(tag, &fractions));
            let mut crop = if tag == ORIGIN { [1; 4] } else { [0, 0, 1, 1] };
            let at = if tag == ORIGIN { place } else { 2 + place };
            match outcome {
                Err(number) => refused_each_way(&dng, number, tag),
                Ok(value) if value > COLUMNS || value == 0 && tag == SIZE => refused_each_way(&dng, 4, SIZE),
                Ok(value) => {
                    crop[at] = value;
                    crops(&dng, crop);
                }
            }
        }
    }
}

#[test]
fn the_values_of_a_tag_are_tested_in_stored_order() {
    let (illegal, not_whole) = ((1, 0), (1, 2));
    for tag in [ORIGIN, SIZE] {
        let of = |fractions: [(u32, u32); 2]| {
            cropped(&base(), [0, 0], [1, 1]).with(Tag::rationals(tag, &fractions))
        };
        refused_each_way(&of([illegal, not_whole]), 4, tag);
        refused_each_way(&of([not_whole, illegal]), 8, tag);
        refused_each_way(&of([(1, 1), illegal]), 4, tag);
        refused_each_way(&of([(1, 1), not_whole]), 8, tag);
    }
}

/// Every origin and every size, to two past each edge.
#[test]
fn a_crop_is_not_empty_and_inside_the_active_area() {
    let pairs = || (0..=COLUMNS + 2).flat_map(|across| (0..=ROWS + 2).map(move |down| [across, down]));
    for (dng, [left, top]) in [base(), framed()].iter().flat_map(|dng| pairs().map(move |at| (dng, at))) {
        for [columns, rows] in pairs() {
            let dng = cropped(dng, [left, top], [columns, rows]);
            let empty = columns == 0 || rows == 0;
            if empty || left + columns > COLUMNS || top + rows > ROWS {
                assert_eq!(card(&dng.file()), Card::refused(refusal(4, SIZE.into())));
            } else {
                has_crop(&dng, [left, top, columns, rows]);
            }
        }
    }
}

#[test]
fn a_crop_at_each_edge_and_one_past_it_by_every_call() {
    for dng in [base(), framed(), linear_base()] {
        crops(&cropped(&dng, [COLUMNS - 1, ROWS - 1], [1, 1]), [COLUMNS - 1, ROWS - 1, 1, 1]);
        crops(&cropped(&dng, [2, 1], [COLUMNS - 2, ROWS - 1]), [2, 1, COLUMNS - 2, ROWS - 1]);
        for (origin, size) in [
            ([COLUMNS, 0], [1, 1]),
            ([0, ROWS], [1, 1]),
            ([COLUMNS, 0], [0, 1]),
            ([0, ROWS], [1, 0]),
            ([0, 0], [0, ROWS]),
            ([0, 0], [COLUMNS, 0]),
            ([0, 0], [0, 0]),
            ([0, 0], [COLUMNS + 1, ROWS]),
            ([0, 0], [COLUMNS, ROWS + 1]),
            ([2, 1], [COLUMNS - 1, ROWS - 1]),
            ([2, 1], [COLUMNS - 2, ROWS]),
        ] {
            refused_each_way(&cropped(&dng, origin, size), 4, SIZE);
        }
    }
}

/// 7 columns and 5 rows: what fits one way does not fit the other way round.
#[test]
fn horizontal_comes_first() {
    for dng in [base(), framed(), linear_base()] {
        crops(&cropped(&dng, [6, 0], [1, 5]), [6, 0, 1, 5]);
        crops(&cropped(&dng, [0, 4], [7, 1]), [0, 4, 7, 1]);
        refused_each_way(&cropped(&dng, [0, 6], [1, 1]), 4, SIZE);
        refused_each_way(&cropped(&dng, [0, 0], [5, 7]), 4, SIZE);
        crops(&cropped(&dng, [6, 3], [1, 2]), [6, 3, 1, 2]);
    }
}

/// The area's corner is at stored row 2, column 3, and the frame goes on past it.
#[test]
fn the_crop_counts_from_the_active_corner_and_not_from_the_stored_one() {
    crops(&cropped(&framed(), [0, 0], [1, 1]), [0, 0, 1, 1]);
    crops(&cropped(&framed(), [5, 2], [2, 3]), [5, 2, 2, 3]);
    refused_each_way(&cropped(&framed(), [6, 2], [2, 3]), 4, SIZE);
    refused_each_way(&cropped(&framed(), [5, 3], [2, 3]), 4, SIZE);
    let picture = [COLUMNS + 9, ROWS + 6];
    refused_each_way(&framed().with(pair(SIZE, SHORT, picture)), 4, SIZE);
}

/// Numbers up to the greatest, whose sums would be inside but for 2^32 or 2^64.
#[test]
fn long8_numbers_do_not_wrap() {
    let stretches = [
        [MAX, 1],
        [MAX, 2],
        [MAX - 1, 3],
        [1, MAX],
        [2, MAX],
        [3, MAX - 1],
        [0, MAX],
        [MAX, MAX],
        [HALF, HALF],
        [HALF, HALF + 1],
        [HALF + 1, HALF + 1],
        [HALF, 1],
        [0, HALF + 1],
        [PAST_LONG, 1],
        [PAST_LONG + 1, 1],
        [0, PAST_LONG + 1],
        [PAST_LONG - 1, 1],
        [PAST_LONG - 1, 2],
        [2, PAST_LONG - 1],
        [MAX, 0],
    ];
    for (order, [start, length]) in BOTH.into_iter().flat_map(|order| stretches.map(|s| (order, s))) {
        for (origin, size) in
            [([start, 0], [length, 1]), ([0, start], [1, length]), ([start, start], [length, length])]
        {
            let dng = Dng { order, ..base().in_64_bits() };
            let dng = dng.with(pair(ORIGIN, LONG8, origin)).with(pair(SIZE, LONG8, size));
            refused(&dng, refusal(4, SIZE.into()));
        }
    }
}

/// The faults of the two tags and of the crop itself, in the order of their tests.
fn crop_faults() -> Vec<Vec<(Answer, Fault)>> {
    let set = |number, tag: Tag| -> (Answer, Fault) {
        let answer = refusal(number, tag.tag.into());
        (answer, Box::new(move |q: &mut Question| q.set_raw(tag.clone())))
    };
    let of = |tag: u16| {
        vec![
            set(4, Tag::bytes(tag, &[1, 1])),
            set(4, Tag::shorts(tag, &[1, 1]).with_kind(14)),
            set(4, Tag::srationals(tag, &[(1, 1); 2])),
            set(4, Tag::shorts(tag, &[1])),
            set(4, Tag::rationals(tag, &[(1, 1), (1, 0)])),
            set(8, Tag::rationals(tag, &[(1, 2), (1, 0)])),
            set(8, Tag::rationals(tag, &[(1, 1), (1, 2)])),
        ]
    };
    // The crop's own faults are made by the origin alone, so that they stand
    // beside any fault of the size.
    let outside = |origin: [u16; 2]| -> (Answer, Fault) {
        let fault = move |q: &mut Question| q.set_raw(Tag::shorts(ORIGIN, &origin));
        (refusal(4, SIZE.into()), Box::new(fault))
    };
    vec![of(ORIGIN), of(SIZE), vec![outside([COLUMNS as u16, 0]), outside([0, ROWS as u16])]]
}

/// The tests around: 50717 before, and behind it all that stands after it.
fn faults_around() -> [Vec<Vec<(Answer, Fault)>>; 2] {
    let raw = |answer: Answer, tag: Tag| -> Vec<(Answer, Fault)> {
        vec![(answer, Box::new(move |q: &mut Question| q.set_raw(tag.clone())))]
    };
    let list = |opcode: Opcode| OpcodeList::new(&[opcode]).tag();
    let before = vec![
        raw(refusal(4, 50714), Tag::rationals(50714, &[(1, 0)])),
        raw(refusal(8, 50716), Tag::srationals(50716, &[(1, 3); ROWS as usize])),
        raw(refusal(4, 50717), Tag::shorts(50717, &[1, 1])),
        raw(refusal(8, 50717), Tag::longs(50717, &[65_536])),
    ];
    let behind = vec![
        raw(refusal(8, 51008), Tag::bytes(51008, &[1])),
        raw(refusal(8, 51022), Tag::bytes(51022, &[1])),
        raw(refusal(4, 51009), Tag::undefined(51009, &[0; 3])),
        raw(refusal(9, 0), Tag::shorts(50714, &[255])),
        raw(refusal(11, 0), list(Opcode::new(99, 0, vec![]))),
        raw(refusal(10, 0), list(Opcode::new(7, 0, vec![]))),
        vec![(refusal(8, 50723), Box::new(|q| q.set_first(Tag::bytes(50723, &[1]))))],
        vec![(refusal(5, 33421), Box::new(|q| q.dng = q.dng.clone().without(33421)))],
        vec![(refusal(13, 0), Box::new(|q| q.height = 5))],
        vec![(refusal(14, 0), Box::new(|q| q.slice = 4))],
    ];
    [before, behind]
}

/// Of two faults that stand at different tests the first one answers, and both
/// sides of the crop's three tests have their places.
#[test]
fn the_tests_of_the_crop_stand_behind_50717_and_before_51008() {
    let good = Question::new(half_window, cropped(&base(), [1, 1], [2, 2]));
    assert_eq!(good.answer(), DONE);
    let crop = crop_faults();
    each_alone_answers(&good, &crop);
    first_of_two_answers(&good, &crop);
    let [before, behind] = faults_around();
    each_alone_answers(&good, &before);
    each_alone_answers(&good, &behind);
    for (expected, first) in before.iter().flatten() {
        for (_, second) in crop.iter().flatten() {
            assert_eq!(good.changed(&[second, first]).answer(), *expected);
        }
    }
    for (expected, first) in crop.iter().flatten() {
        for (other, second) in behind.iter().flatten() {
            assert_eq!(good.changed(&[second, first]).answer(), *expected, "beside {other:?}");
        }
    }
}

/// The faults of the first and of the second tag, and of both and the crop.
#[test]
fn the_tags_are_tested_whole_before_the_crop() {
    let of = |origin: &Tag, size: &Tag| base().with(origin.clone()).with(size.clone());
    let [not_whole, illegal] = [(1, 2), (1, 0)];
    let origin = |v| Tag::rationals(ORIGIN, &[v, (0, 1)]);
    let size = |v| Tag::rationals(SIZE, &[v, (1, 1)]);
    refused_each_way(&of(&origin(not_whole), &size(illegal)), 8, ORIGIN);
    refused_each_way(&of(&origin(illegal), &size(not_whole)), 4, ORIGIN);
    refused_each_way(&of(&origin(not_whole), &Tag::bytes(SIZE, &[1])), 8, ORIGIN);
    // An origin far outside and a size of no column are the crop's affair.
    let far = Tag::rationals(ORIGIN, &[(u32::MAX, 1), (u32::MAX, 1)]);
    refused_each_way(&of(&far, &size(not_whole)), 8, SIZE);
    refused_each_way(&of(&far, &Tag::rationals(SIZE, &[(0, 1), (1, 2)])), 8, SIZE);
    refused_each_way(&of(&far, &Tag::rationals(SIZE, &[(0, 1), (1, 1)])), 4, SIZE);
    refused_each_way(&base().with(Tag::rationals(SIZE, &[(0, 1), (1, 2)])), 8, SIZE);
}

/// "The calls' coordinates stay with the active corner": all of the active area
/// is developed, as without a crop, and nothing past it.
#[test]
fn the_calls_do_not_see_the_crop() {
    for dng in [base(), framed(), linear_base()] {
        for (origin, size) in [([3, 2], [2, 1]), ([6, 4], [1, 1]), ([0, 0], [1, 1]), ([1, 0], [6, 4])] {
            let (plain, cropped) = (dng.file(), cropped(&dng, origin, size).file());
            assert_eq!(bits(&frame_of(&cropped)), bits(&frame_of(&plain)));
            for (row, column) in (0..=ROWS).flat_map(|row| (0..=COLUMNS).map(move |column| (row, column))) {
                assert_eq!(spot(&cropped, row, column, 0), spot(&plain, row, column, 0));
                let one = |call: WindowCall, file: &[u8], values| {
                    let mut out = vec![UNTOUCHED; values];
                    (call(file, row, column, 1, 1, &mut out), bits(&out))
                };
                let samples = card(&plain).samples as usize;
                let outside = row == ROWS || column == COLUMNS;
                assert_eq!(one(window, &cropped, samples).0, if outside { refusal(13, 0) } else { DONE });
                assert_eq!(one(window, &cropped, samples), one(window, &plain, samples));
                assert_eq!(one(colour_window, &cropped, 3), one(colour_window, &plain, 3));
                assert_eq!(one(half_window, &cropped, 3), one(half_window, &plain, 3));
            }
        }
    }
    assert_eq!(halves(&cropped(&base(), [6, 4], [1, 1])), halves(&base()));
    assert_eq!(colours(&cropped(&linear_base(), [6, 4], [1, 1])), colours(&linear_base()));
}

/// Black levels, deltas and corrections count from the active corner, whatever
/// the crop, and the greatest black is that of the whole active area.
#[test]
fn levels_and_opcodes_do_not_see_the_crop() {
    let area = Area { top: 1, left: 1, row_pitch: 2, column_pitch: 3, ..whole_area() };
    let deltas: Vec<(i32, i32)> = (0..COLUMNS as i32).map(|i| (i * i, 2)).collect();
    let dng = framed()
        .with(Tag::shorts(50713, &[2, 3]))
        .with(Tag::shorts(50714, &[1, 2, 3, 4, 5, 6]))
        .with(Tag::srationals(50715, &deltas))
        .with_opcodes(&[Opcode::per_line(11, area, &[0.25, 0.5])]);
    let cropped = cropped(&dng, [1, 1], [2, 2]);
    assert_eq!(bits(&frame(&cropped)), bits(&frame(&dng)));
    // The greatest black is in the last column, 4 + 18; in the crop's columns it
    // would be 8.
    for white in [8, 9, 21, 22, 23, 24] {
        let [of_whole, of_crop] =
            [&dng, &cropped].map(|dng| answer(&dng.clone().with(Tag::shorts(50717, &[white]))));
        assert_eq!(of_whole, of_crop);
        assert_eq!(of_crop, if white <= 22 { refusal(9, 0) } else { DONE }, "{white}");
    }
}

fn whole_area() -> Area {
    Area::whole(ROWS as u32, COLUMNS as u32, 1)
}
