//! Files at each limit of documents 01 and 02 and on both sides of it, each with
//! the answer that they give. Both programs must give that answer, and where
//! nothing else is said they must give it in both layouts.

mod accuracy;
mod blacks;
mod chain;
mod colour;
pub mod crop;
mod denormals;
mod gain_map;
mod headers;
mod index;
mod levels;
mod lists;
mod numbers;
mod parameters;
mod parts;
mod pattern;
mod places;
mod shapes;
mod tables;
mod tags;
mod trees;
mod values;
mod wide;

use reference::builder::{Dng, Picture, Tag};
use reference::bytes::{ByteOrder, Widths, LAYOUTS};
use reference::cases::Call;
use reference::tag_test::{IFD, IFD8, LONG, LONG8};

use crate::questions::{chain, chain_with, colour_window, half_window, table_window, window};
use crate::tally::Tally;

/// A number and a detail.
type Answer = (u32, u32);

const DONE: Answer = (0, 0);
const SHAPE: Answer = (3, 0);
const TREE: Answer = (6, 0);

const ORDERS: [ByteOrder; 2] = [ByteOrder::Little, ByteOrder::Big];
const MAX: u32 = u32::MAX;

/// As offsets and counts; in 32 bits the last one is the greatest LONG too.
const LONG_MAX: u64 = MAX as u64;
const PAST_LONG: u64 = 1 << 32;
const HALF: u64 = 1 << 63;
const LONG8_MAX: u64 = u64::MAX;

/// A number that is another one but for 2^32 or 2^63, and both ends of 32, 63
/// and 64 bits with their neighbours.
fn far(right: u64) -> Vec<u64> {
    let ends = [LONG_MAX - 1, LONG_MAX, PAST_LONG, PAST_LONG + 1, HALF - 1, HALF, HALF + 1];
    let mut numbers = [&ends[..], &[LONG8_MAX - 1, LONG8_MAX, PAST_LONG + right, HALF + right]].concat();
    numbers.sort_unstable();
    numbers.dedup();
    numbers
}

/// Two base files of three columns and two rows, in one strip: an 8-bit
/// mosaic and a 16-bit LinearRaw.
const MOSAIC: usize = 0;
const LINEAR: usize = 1;

/// Every case, with its answer.
pub fn check(tally: &mut Tally) {
    headers::check(tally);
    shapes::check(tally);
    trees::check(tally);
    tags::check(tally);
    blacks::check(tally);
    levels::check(tally);
    accuracy::check(tally);
    crop::check(tally);
    parts::check(tally);
    wide::check(tally);
    lists::check(tally);
    parameters::check(tally);
    numbers::check(tally);
    values::check(tally);
    index::check(tally);
    gain_map::check(tally);
    denormals::check(tally);
    colour::check(tally);
    pattern::check(tally);
    places::check(tally);
    chain::check(tally);
    tables::check(tally);
}

/// The calls of a file whose card is stated; the table window of every third file.
/// What refuses the card refuses every call, whatever else is asked.
fn check_file(tally: &mut Tally, label: &str, file: &[u8], answer: Answer) {
    tally.files += 1;
    let card = tally.ask(label, file, &Call::Card, Some(answer));
    let (stated, by_tables) = (Some(answer), tally.files % 3 == 0);
    if card.answer.number != 0 {
        for rectangle in [[0, 0, 1, 1], [u64::MAX; 4]] {
            tally.ask(label, file, &window(rectangle, 1), stated);
            tally.ask(label, file, &colour_window(rectangle, 3), stated);
            tally.ask(label, file, &half_window(rectangle, 3), stated);
        }
        if by_tables {
            tally.ask(label, file, &table_window([0, 0, 1, 1], 1), stated);
        }
        tally.ask(label, file, &Call::Spot { row: 0, column: 0, plane: 0 }, stated);
        tally.ask(label, file, &chain_with([0; 3], 0, 31), stated);
        return;
    }
    let [rows, columns, samples] = [0, 1, 2].map(|i| card.bits[i]);
    let (height, width) = if rows * columns <= 100 { (rows, columns) } else { (1, 1) };
    let rectangle = [rows - height, columns - width, height, width];
    let pixels = (height * width) as usize;
    tally.ask(label, file, &window(rectangle, pixels * samples as usize), stated);
    if by_tables {
        tally.ask(label, file, &table_window(rectangle, pixels * samples as usize), stated);
    }
    let [row, column, plane] = [rows - 1, columns - 1, samples - 1];
    tally.ask(label, file, &Call::Spot { row, column, plane }, stated);
    tally.ask(label, file, &chain([row, column, plane]), stated);
    let other_kind = Some((15, 0));
    let (of_colour, of_half) = if samples == 1 { (other_kind, None) } else { (None, other_kind) };
    tally.ask(label, file, &colour_window(rectangle, pixels * 3), of_colour);
    tally.ask(label, file, &half_window([0, 0, 1, 1], 3), of_half);
}

/// The description in one layout, in both byte orders, with its raw IFD as IFD 0
/// and as a child of IFD 0.
fn each_file(widths: Widths, label: &str, dng: &Dng, mut visit: impl FnMut(&str, &[u8])) {
    for (order, depth) in ORDERS.into_iter().flat_map(|order| [(order, 0), (order, 1)]) {
        let file = Dng { order, widths, ..dng.clone().nested(depth) }.file();
        visit(&format!("{label}, {order:?}, {widths:?}, depth {depth}"), &file);
    }
}

/// Asks one file, given its label and the answer that it must give.
type FileCase = fn(&mut Tally, &str, &[u8], Answer);

/// Every file of the description in both layouts, with the raw IFD as IFD 0 and
/// below it.
fn case(tally: &mut Tally, ask: FileCase, label: &str, dng: &Dng, answer: Answer) {
    LAYOUTS.into_iter().for_each(|widths| case_in(tally, ask, widths, label, dng, answer));
}

/// The same in one layout.
fn case_in(tally: &mut Tally, ask: FileCase, widths: Widths, label: &str, dng: &Dng, answer: Answer) {
    each_file(widths, label, dng, |label, file| ask(tally, label, file, answer));
}

/// Both byte orders in both layouts.
const WAYS: [(ByteOrder, Widths); 4] = [
    (ByteOrder::Little, Widths::BITS_32),
    (ByteOrder::Big, Widths::BITS_32),
    (ByteOrder::Little, Widths::BITS_64),
    (ByteOrder::Big, Widths::BITS_64),
];

/// The description in both byte orders and in both layouts.
fn each_way(dng: &Dng) -> impl Iterator<Item = Dng> + '_ {
    WAYS.into_iter().map(|(order, widths)| Dng { widths, order, ..dng.clone() })
}

/// The file in both byte orders, in the layout that it has.
fn in_orders(tally: &mut Tally, label: &str, dng: &Dng, answer: Answer) {
    for order in ORDERS {
        let dng = Dng { order, ..dng.clone() };
        let bits = 8 * dng.widths.word;
        check_file(tally, &format!("{label}, {order:?}, {bits} bits"), &dng.file(), answer);
    }
}

/// The file in both byte orders and in both layouts.
fn both(tally: &mut Tally, label: &str, dng: &Dng, answer: Answer) {
    for widths in LAYOUTS {
        in_orders(tally, label, &Dng { widths, ..dng.clone() }, answer);
    }
}

/// The file in the layout that it has, its raw IFD as IFD 0 and as a child of
/// IFD 0.
fn at_depths(tally: &mut Tally, label: &str, dng: &Dng, answer: Answer) {
    in_orders(tally, label, dng, answer);
    in_orders(tally, &format!("{label}, in a child"), &dng.clone().nested(1), answer);
}

/// The same in both layouts.
fn everywhere(tally: &mut Tally, label: &str, dng: &Dng, answer: Answer) {
    for widths in LAYOUTS {
        at_depths(tally, label, &Dng { widths, ..dng.clone() }, answer);
    }
}

/// Only 4, 5 and 8 have a tag for detail.
fn answer(number: u32, tag: u16) -> Answer {
    (number, if [4, 5, 8].contains(&number) { tag.into() } else { 0 })
}

/// A tag whose values have the size of its type; an unknown type has bytes.
fn entry(tag: u16, kind: u16, values: &[u32]) -> Tag {
    Tag::of_type(tag, kind, values)
}

fn every_type() -> impl Iterator<Item = u16> {
    (0..=19).chain([256, 256 + 16, 65_535])
}

/// Every type in each layout.
fn every_type_in_layouts() -> impl Iterator<Item = (Widths, u16)> {
    LAYOUTS.into_iter().flat_map(|widths| every_type().map(move |kind| (widths, kind)))
}

/// Does a tag of these types take this one? "LONG8 is accepted wherever LONG
/// is, IFD8 wherever IFD is, in this layout only."
fn takes(widths: Widths, kinds: &[u16], kind: u16) -> bool {
    let wide = widths == Widths::BITS_64
        && (kind == LONG8 && kinds.contains(&LONG) || kind == IFD8 && kinds.contains(&IFD));
    kinds.contains(&kind) || wide
}

/// A base file with few tags.
fn plain(base: usize) -> Dng {
    let (samples, bits) = [(1, 8), (3, 16)][base];
    Dng::new(ByteOrder::Little, &Picture::counting(3, 2, samples, bits))
}

/// Rows and columns of the active area of `framed`.
const ROWS: u32 = 6;
const COLUMNS: u32 = 7;

/// A base file of ten columns and eight rows with an active area inside, black
/// levels that repeat, and deltas.
fn framed(base: usize) -> Dng {
    let (samples, bits) = [(1, 8), (3, 16)][base];
    let picture = Picture { rows_per_strip: 3, ..Picture::counting(10, 8, samples, bits) };
    let cells: Vec<u16> = (0..6 * samples as u16).map(|cell| 11 * cell % 40).collect();
    let deltas = |count: u32| (0..count as i32).map(|i| (5 * i % 7 - 3, 4)).collect::<Vec<_>>();
    Dng::new(ByteOrder::Little, &picture)
        .with(Tag::longs(50829, &[1, 2, 1 + ROWS, 2 + COLUMNS]))
        .with(Tag::shorts(50713, &[2, 3]))
        .with(Tag::shorts(50714, &cells))
        .with(Tag::srationals(50715, &deltas(COLUMNS)))
        .with(Tag::srationals(50716, &deltas(ROWS)))
        .with(Tag::shorts(50717, &vec![250; samples as usize]))
}
