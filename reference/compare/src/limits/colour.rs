//! The colour tags, through the colour window: refusals 15, 8, 5 and 4, their
//! order, and what stands before and after them.

use reference::builder::{Data, Dng, Opcode, Tag};
use reference::bytes::LAYOUTS;
use reference::cases::Call;
use reference::tag_test::{RATIONAL, SHORT, SRATIONAL};

use super::lists::{good, whole};
use super::{
    case, case_in, each_way, entry, every_type_in_layouts, framed, takes, Answer, COLUMNS, DONE, LINEAR, MAX,
    MOSAIC, ROWS,
};
use crate::questions::{colour_window, window};
use crate::tally::Tally;

const FORBIDDEN: [u16; 3] = [50723, 50727, 50965];
pub const MATRIX: u16 = 50964;
pub const NEUTRAL: u16 = 50728;
/// In order of test.
pub const TAGS: [u16; 5] = [50723, 50727, 50965, MATRIX, NEUTRAL];

const PIXELS: usize = (ROWS * COLUMNS) as usize;
const FRAME: [u64; 4] = [0, 0, ROWS as u64, COLUMNS as u64];

/// Numerators and denominators: 0 and both ends of 31 and 32 bits.
const LONGS: [u32; 7] = [0, 1, 2, 0x7FFF_FFFF, 0x8000_0000, 0x8000_0001, MAX];

/// Every case of the colour tags.
pub fn check(tally: &mut Tally) {
    forbidden(tally);
    types_and_counts(tally);
    fractions(tally);
    where_the_tags_stand(tally);
    order(tally);
    before_and_after(tally);
}

/// A base file with carried colour tags.
pub fn coloured(base: usize) -> Dng {
    with_colour(framed(base))
}

/// The same file with carried colour tags.
pub fn with_colour(dng: Dng) -> Dng {
    let matrix: Vec<(i32, i32)> = (0..9).map(|i| (3 * i - 10, 7 + i)).collect();
    let neutral = [(1, 2), (1, 1), (3, 5)];
    dng.with_first(Tag::srationals(MATRIX, &matrix)).with_first(Tag::rationals(NEUTRAL, &neutral))
}

/// The same file without a tag of IFD 0.
pub fn without(mut dng: Dng, tag: u16) -> Dng {
    dng.first_ifd().remove(tag);
    dng
}

/// The colour window of the whole frame; the colour tags refuse no other call.
fn file_case(tally: &mut Tally, label: &str, file: &[u8], answer: Answer) {
    tally.files += 1;
    tally.ask(label, file, &colour_window(FRAME, 3 * PIXELS), Some(answer));
    let card = tally.ask(label, file, &Call::Card, Some(DONE));
    tally.ask(label, file, &window(FRAME, card.bits[2] as usize * PIXELS), Some(DONE));
    tally.ask(label, file, &Call::Spot { row: 1, column: 2, plane: 0 }, Some(DONE));
}

/// Not carried with any type and any count.
fn forbidden(tally: &mut Tally) {
    case(tally, file_case, "carried colour", &coloured(LINEAR), DONE);
    for (tag, (widths, kind)) in
        FORBIDDEN.into_iter().flat_map(|tag| every_type_in_layouts().map(move |of_type| (tag, of_type)))
    {
        for count in [0, 1, 9] {
            let dng = coloured(LINEAR).with_first(entry(tag, kind, &vec![1; count]));
            case_in(
                tally,
                file_case,
                widths,
                &format!("{tag} type {kind}, {count} values"),
                &dng,
                (8, tag.into()),
            );
        }
    }
}

/// Absence, every type, and counts around the right one.
fn types_and_counts(tally: &mut Tally) {
    for (tag, kinds, count) in [(MATRIX, &[SRATIONAL][..], 9), (NEUTRAL, &[SHORT, RATIONAL], 3)] {
        let wrong = (4, tag.into());
        case(tally, file_case, &format!("{tag} absent"), &without(coloured(LINEAR), tag), (5, tag.into()));
        for (widths, kind) in every_type_in_layouts() {
            let answer = if takes(widths, kinds, kind) { DONE } else { wrong };
            let dng = coloured(LINEAR).with_first(entry(tag, kind, &vec![1; count]));
            case_in(tally, file_case, widths, &format!("{tag} type {kind}"), &dng, answer);
        }
        for (kind, count) in
            kinds.iter().flat_map(|kind| [0, 1, count - 1, count + 1, 2 * count].map(|c| (kind, c)))
        {
            let dng = coloured(LINEAR).with_first(entry(tag, *kind, &vec![1; count]));
            case(tally, file_case, &format!("{tag} type {kind}, {count} values"), &dng, wrong);
        }
    }
}

/// Every fraction at every place of both tags, alone and with a zero behind.
fn fractions(tally: &mut Tally) {
    let mut one = |tag: u16, kind: u16, count: usize, place: usize, (n, d): (u32, u32), legal: bool| {
        let mut values = vec![(1, 1); count];
        values[place] = (n, d);
        let dng = coloured(LINEAR).with_first(Tag::new(tag, kind, Data::Rationals(values)));
        let answer = if legal { DONE } else { (4, tag.into()) };
        case(tally, file_case, &format!("{tag}: {n}/{d} at {place}"), &dng, answer);
    };
    for (n, d) in LONGS.into_iter().flat_map(|n| LONGS.map(|d| (n, d))) {
        (0..9).for_each(|place| one(MATRIX, SRATIONAL, 9, place, (n, d), d != 0));
        (0..3).for_each(|place| one(NEUTRAL, RATIONAL, 3, place, (n, d), n != 0 && d != 0));
    }
    for (value, place) in [0, 1, 255, 256, 32_768, 65_535].into_iter().flat_map(|v| [(v, 0), (v, 1), (v, 2)])
    {
        let mut values = [1; 3];
        values[place] = value;
        let answer = if value == 0 { (4, NEUTRAL.into()) } else { DONE };
        let dng = coloured(LINEAR).with_first(Tag::shorts(NEUTRAL, &values));
        case(tally, file_case, &format!("neutral {values:?}"), &dng, answer);
    }
}

/// A LinearRaw in a child of IFD 0, in each layout.
fn below() -> [Dng; 2] {
    LAYOUTS.map(|widths| Dng { widths, ..coloured(LINEAR).nested(1) })
}

/// Only IFD 0 has colour tags; the raw IFD's are not read.
fn where_the_tags_stand(tally: &mut Tally) {
    for (tag, dng) in FORBIDDEN.into_iter().flat_map(|tag| below().map(move |dng| (tag, dng))) {
        let dng = dng.with(entry(tag, SHORT, &[1]));
        file_case(tally, &format!("{tag} of the raw IFD"), &dng.file(), DONE);
    }
    for (tag, dng) in [MATRIX, NEUTRAL].into_iter().flat_map(|tag| below().map(move |dng| (tag, dng))) {
        let dng = dng.with(entry(tag, 14, &[1]));
        file_case(tally, &format!("{tag} of the raw IFD"), &dng.file(), DONE);
        let moved = dng.ifds[0].get(tag).cloned().expect("IFD 0 has it");
        let dng = without(dng, tag).with(moved);
        file_case(tally, &format!("{tag} in the raw IFD alone"), &dng.file(), (5, tag.into()));
    }
}

/// A file with a tag's fault, which is its presence or its type.
pub fn faulty(dng: Dng, tag: u16) -> (Dng, Answer) {
    let number = if FORBIDDEN.contains(&tag) { 8 } else { 4 };
    (dng.with_first(entry(tag, 14, &[1])), (number, tag.into()))
}

/// Of two faults the first in order of test answers, absence too.
fn order(tally: &mut Tally) {
    for (i, tag) in TAGS.into_iter().enumerate() {
        let (dng, answer) = faulty(coloured(LINEAR), tag);
        for later in &TAGS[i + 1..] {
            case(tally, file_case, &format!("{tag} before {later}"), &faulty(dng.clone(), *later).0, answer);
            case(
                tally,
                file_case,
                &format!("{tag} before {later}, absent"),
                &without(dng.clone(), *later),
                answer,
            );
        }
    }
    let neither = without(without(coloured(LINEAR), MATRIX), NEUTRAL);
    case(tally, file_case, "neither matrix nor neutral", &neither, (5, MATRIX.into()));
    let zeros = coloured(LINEAR).with_first(Tag::srationals(MATRIX, &[(1, 0); 9]));
    case(
        tally,
        file_case,
        "zeros in both",
        &zeros.with_first(Tag::rationals(NEUTRAL, &[(0, 1); 3])),
        (4, MATRIX.into()),
    );
}

/// The list before 15, 15 before the colour tags, these before 13, 13 before 14.
fn before_and_after(tally: &mut Tally) {
    let list = [Opcode::new(14, 0, vec![])];
    let nan = [good(8, whole()), Opcode::map_polynomial(whole(), &[f64::NAN])];
    let mut rows =
        vec![(framed(MOSAIC), (15, 0)), (coloured(MOSAIC), (15, 0)), (framed(LINEAR), (5, MATRIX.into()))];
    for tag in TAGS {
        rows.push((faulty(coloured(MOSAIC), tag).0, (15, 0)));
        let (dng, answer) = faulty(coloured(LINEAR), tag);
        rows.push((dng.clone().with_opcodes(&list), (11, 0)));
        rows.push((dng.clone().with_opcodes(&nan), (12, 1)));
        rows.push((dng, answer));
    }
    rows.push((framed(MOSAIC).with_opcodes(&list), (11, 0)));
    rows.push((framed(MOSAIC).with_opcodes(&nan), (12, 1)));
    let calls = [
        (FRAME, 3 * PIXELS),
        (FRAME, 3 * PIXELS - 1),
        (FRAME, 0),
        ([0, 0, 0, 0], 0),
        ([0, 0, ROWS as u64 + 1, 1], 3),
        ([u64::MAX; 4], 3),
    ];
    for (dng, answer) in rows.iter().flat_map(|(dng, answer)| each_way(dng).map(move |dng| (dng, answer))) {
        tally.files += 1;
        let file = dng.file();
        for (i, (rectangle, slice)) in calls.into_iter().enumerate() {
            let label = format!("colour, call {i} of a file that answers {answer:?}");
            tally.ask(&label, &file, &colour_window(rectangle, slice), Some(*answer));
        }
    }
    for dng in each_way(&coloured(LINEAR)) {
        let file = dng.file();
        for ((rectangle, slice), number) in calls.into_iter().zip([0, 14, 14, 13, 13, 13]) {
            tally.ask("colour, 13 and 14", &file, &colour_window(rectangle, slice), Some((number, 0)));
        }
    }
}
