//! Half-size colour of mosaics, through the half window: 15, the four tags of
//! the pattern (5, 4, 8), their order, and the blocks of an area (13, 14).

use reference::blocks;
use reference::builder::{Area, Data, Dng, Opcode, Picture, Place, Tag, PATTERN_TAGS};
use reference::bytes::{ByteOrder, LAYOUTS};
use reference::cases::Call;
use reference::tag_test::{BYTE, SHORT};

use super::colour::{self, coloured, MATRIX, NEUTRAL};
use super::lists::{good, whole};
use super::{
    answer, case, case_in, each_file, each_way, entry, every_type_in_layouts, Answer, COLUMNS, DONE, LINEAR,
    MOSAIC, ROWS,
};
use crate::questions::{colour_window, half_window, window};
use crate::tally::Tally;

/// A tag, its type, carried values, and the number that answers its absence.
type Rule = (u16, u16, &'static [u32], u32);

/// In order of test.
const RULES: [Rule; 4] = [
    (33421, SHORT, &[2, 2], 5),
    (33422, BYTE, &[0, 1, 1, 2], 5),
    (50710, BYTE, &[0, 1, 2], 0),
    (50711, SHORT, &[1], 0),
];

/// All blocks of the base file.
const BLOCKS: [u64; 4] = [0, 0, ROWS as u64 / 2, COLUMNS as u64 / 2];
const SLICE: usize = (3 * (ROWS / 2) * (COLUMNS / 2)) as usize;

/// Every case of the pattern and of its blocks.
pub fn check(tally: &mut Tally) {
    types_and_counts(tally);
    values(tally);
    values_in_their_entries(tally);
    patterns(tally);
    blocks_of_patterns(tally);
    means(tally);
    where_the_tags_stand(tally);
    within_a_tag(tally);
    order(tally);
    linear(tally);
    areas(tally);
    grids_on_one_colour(tally);
    greatest_frame(tally);
}

/// The base mosaic with colour tags and a pattern, all of its tags present.
fn patterned() -> Dng {
    coloured(MOSAIC).with_pattern([0, 1, 1, 2])
}

/// The half window of all blocks; the pattern refuses no other call.
fn file_case(tally: &mut Tally, label: &str, file: &[u8], answer: Answer) {
    tally.files += 1;
    tally.ask(label, file, &half_window(BLOCKS, SLICE), Some(answer));
    tally.ask(label, file, &Call::Card, Some(DONE));
    let frame = [0, 0, ROWS as u64, COLUMNS as u64];
    tally.ask(label, file, &window(frame, (ROWS * COLUMNS) as usize), Some(DONE));
    tally.ask(label, file, &Call::Spot { row: 1, column: 2, plane: 0 }, Some(DONE));
    tally.ask(label, file, &colour_window(frame, 3 * (ROWS * COLUMNS) as usize), Some((15, 0)));
}

/// Absence, every type, and counts around the right one.
fn types_and_counts(tally: &mut Tally) {
    case(tally, file_case, "all tags of the pattern", &patterned(), DONE);
    case(tally, file_case, "the two required ones", &patterned().without(50710).without(50711), DONE);
    for (tag, right, values, absent) in RULES {
        case(tally, file_case, &format!("{tag} absent"), &patterned().without(tag), answer(absent, tag));
        for (widths, kind) in every_type_in_layouts() {
            let number = if kind == right { 0 } else { 4 };
            let dng = patterned().with(entry(tag, kind, values));
            case_in(tally, file_case, widths, &format!("{tag} type {kind}"), &dng, answer(number, tag));
        }
        let count = values.len();
        for count in
            [0, 1, count - 1, count + 1, 2 * count, 2 * count + 1].into_iter().filter(|n| *n != count)
        {
            let values: Vec<u32> = values.iter().copied().cycle().take(count).collect();
            let dng = patterned().with(entry(tag, right, &values));
            case(tally, file_case, &format!("{tag}, {count} values"), &dng, (4, tag.into()));
        }
    }
}

/// Each place one less and one more, and others that are the carried value but
/// for a byte or its order.
fn values(tally: &mut Tally) {
    for (tag, kind, carried, _) in RULES {
        let limit = if kind == BYTE { 0xFF } else { 0xFFFF };
        for (place, right) in carried.iter().enumerate() {
            let others = [right.wrapping_sub(1), right + 1, 0, 3, 128, 255, right + 256, right << 8, 65_535];
            for other in others.into_iter().map(|other| other & limit).filter(|other| other != right) {
                let mut values = carried.to_vec();
                values[place] = other;
                let dng = patterned().with(entry(tag, kind, &values));
                case(tally, file_case, &format!("{tag} = {values:?}"), &dng, (8, tag.into()));
            }
        }
        let other: Vec<u32> = carried.iter().map(|_| 7).collect();
        case(
            tally,
            file_case,
            &format!("{tag} = {other:?}"),
            &patterned().with(entry(tag, kind, &other)),
            (8, tag.into()),
        );
    }
    for values in [[1, 4], [4, 1], [0, 0], [1, 1], [3, 3], [8, 8], [2, 0], [0, 2]] {
        let dng = patterned().with(Tag::shorts(33421, &values));
        case(tally, file_case, &format!("repeat {values:?}"), &dng, (8, 33421));
    }
    for values in [[0, 2, 1], [1, 0, 2], [1, 2, 0], [2, 0, 1], [2, 1, 0], [0, 0, 0], [1, 1, 1], [2, 2, 2]] {
        let dng = patterned().with(Tag::bytes(50710, &values));
        case(tally, file_case, &format!("planes {values:?}"), &dng, (8, 50710));
    }
    for layout in 2..=10 {
        case(tally, file_case, "a layout", &patterned().with(Tag::shorts(50711, &[layout])), (8, 50711));
    }
}

/// Values stand left-justified in their entries: what is behind them does not
/// count, and what is before the last of them does.
fn values_in_their_entries(tally: &mut Tally) {
    for ((tag, kind, carried, _), widths) in RULES.into_iter().flat_map(|rule| LAYOUTS.map(|w| (rule, w))) {
        let size = if kind == BYTE { 1 } else { 2 };
        let room = widths.word as usize / size - carried.len();
        for others in 0..=room {
            let of =
                |values: &[u32]| patterned().with(entry(tag, kind, values).with_count(carried.len() as u64));
            let behind = [carried, &vec![9; others]].concat();
            case_in(tally, file_case, widths, &format!("{tag}: {others} behind"), &of(&behind), DONE);
            let before = [&vec![9; others], carried].concat();
            let number = if others == 0 { 0 } else { 8 };
            case_in(
                tally,
                file_case,
                widths,
                &format!("{tag}: {others} before"),
                &of(&before),
                answer(number, tag),
            );
        }
    }
}

/// All patterns of 0, 1, 2, and carried ones with another value at each place.
fn patterns(tally: &mut Tally) {
    let mut carried = Vec::new();
    for number in 0..81u8 {
        let pattern = [27, 9, 3, 1].map(|power| number / power % 3);
        let held = [0, 1, 2].map(|colour| pattern.iter().filter(|found| **found == colour).count());
        if held == [1, 2, 1] {
            carried.push(pattern);
        }
        let answer = if held == [1, 2, 1] { DONE } else { (8, 33422) };
        case(
            tally,
            file_case,
            &format!("pattern {pattern:?}"),
            &patterned().with(Tag::bytes(33422, &pattern)),
            answer,
        );
    }
    if carried.len() != 12 {
        tally.differs(&format!("{} patterns are carried", carried.len()));
    }
    for (pattern, place) in carried.into_iter().flat_map(|pattern| [0, 1, 2, 3].map(|place| (pattern, place)))
    {
        for other in [3, 4, 16, 128, 129, 254, 255] {
            let mut pattern = pattern;
            pattern[place] = other;
            let dng = patterned().with(Tag::bytes(33422, &pattern));
            case(tally, file_case, &format!("pattern {pattern:?}"), &dng, (8, 33422));
        }
    }
}

/// One block whose four samples are developed to these numbers, row by row, and
/// colour tags that leave its three values as they are.
fn one_block(numbers: [f64; 4], colours: [u8; 4]) -> Dng {
    let of = |value: i32| if value == 1 { (1, 1) } else { (0, 1) };
    let identity = [1, 0, 0, 0, 1, 0, 0, 0, 1].map(of);
    let opcodes: Vec<Opcode> = (0..4)
        .map(|place| {
            let (top, left) = (place / 2, place % 2);
            let area = Area { top, left, bottom: top + 1, right: left + 1, ..Area::whole(2, 2, 1) };
            Opcode::map_polynomial(area, &[numbers[place as usize]])
        })
        .collect();
    Dng::new(ByteOrder::Little, &Picture::counting(2, 2, 1, 16))
        .with_pattern(colours)
        .with_opcodes(&opcodes)
        .with_first(Tag::srationals(MATRIX, &identity))
        .with_first(Tag::shorts(NEUTRAL, &[1; 3]))
}

fn block_case(tally: &mut Tally, label: &str, dng: &Dng, stated: [f64; 3]) {
    for dng in each_way(dng) {
        tally.files += 1;
        tally.ask_values(label, &dng.file(), &half_window([0, 0, 1, 1], 3), &stated);
    }
}

/// The same four samples, and what each pattern makes of them.
fn blocks_of_patterns(tally: &mut Tally) {
    for (colours, stated) in blocks::VALUES {
        let dng = one_block(blocks::SAMPLES, colours);
        block_case(tally, &format!("block of {colours:?}"), &dng, stated);
    }
}

/// Greens whose sum is rounded, and those of which a half is rounded.
fn means(tally: &mut Tally) {
    let next = f64::EPSILON;
    let rows = [
        ([1.0, 1.0], 1.0),
        ([0.0, 0.0], 0.0),
        ([0.0, 1.0], 0.5),
        // 1 + 3/4, 1 + 1/2 and 1 + 1/4 of the step from 1 to the next number.
        ([0.75, 0.25 + 0.75 * next], 0.5 + 0.5 * next),
        ([0.75, 0.25 + 0.5 * next], 0.5),
        ([0.75, 0.25 + 0.25 * next], 0.5),
        ([0.75 + 0.5 * next, 0.25 + 0.75 * next], 0.5 + 0.5 * next),
        ([0.75 + 0.5 * next, 0.25 + next], 0.5 + next),
    ];
    for ([first, second], stated) in rows {
        for [first, second] in [[first, second], [second, first]] {
            let dng = one_block([0.25, first, second, 0.75], [0, 1, 1, 2]);
            block_case(tally, &format!("mean of {first:e} and {second:e}"), &dng, [0.25, stated, 0.75]);
        }
    }
    // Times 2^-1022, 2^-52 is the least number above 0; half of it is 0.
    let least = f64::from_bits(1);
    for (greens, stated) in [([1.0, 1.0], 1.0), ([1.0, 0.0], 0.0), ([0.0, 1.0], 0.0), ([3.0, 0.0], 2.0)] {
        let [first, second] = greens.map(|steps| steps * next);
        let mut dng = one_block([0.0, first, second, 0.0], [0, 1, 1, 2]);
        let before = dng.raw_ifd().get(51009).cloned().expect("it has a list");
        let scaled = Opcode::map_polynomial(Area::whole(2, 2, 1), &[0.0, f64::MIN_POSITIVE]);
        block_case(
            tally,
            "mean of denormal greens",
            &dng.with(appended(before, &scaled)),
            [0.0, stated * least, 0.0],
        );
    }
}

/// A list of four opcodes with a fifth behind them.
fn appended(list: Tag, fifth: &Opcode) -> Tag {
    let Data::Bytes(mut bytes) = list.data else {
        panic!("a list is of bytes");
    };
    bytes[3] = 5;
    bytes.extend(fifth.spell());
    Tag::undefined(51009, &bytes)
}

/// In a child of IFD 0 the raw IFD's tags are read, and IFD 0's are not.
fn where_the_tags_stand(tally: &mut Tally) {
    for widths in LAYOUTS {
        let below = Dng { widths, ..patterned().nested(1) };
        let mut case = |label: String, dng: Dng, answer| file_case(tally, &label, &dng.file(), answer);
        for (tag, kind, values, absent) in RULES {
            let carried = entry(tag, kind, values);
            let faults = [(entry(tag, 14, values), 4), (entry(tag, kind, &vec![9; values.len()]), 8)];
            let moved = below.clone().without(tag).with_first(carried.clone());
            case(format!("{tag} in IFD 0 alone"), moved, answer(absent, tag));
            for (faulty, number) in faults {
                case(format!("{tag} of IFD 0, {number}"), below.clone().with_first(faulty.clone()), DONE);
                let both = below.clone().with_first(carried.clone()).with(faulty);
                case(format!("{tag} of the raw IFD, {number}"), both, (number, tag.into()));
            }
        }
        let all = PATTERN_TAGS.into_iter().fold(below.clone(), Dng::without);
        case(
            "all in IFD 0".into(),
            RULES.iter().fold(all, |dng, r| dng.with_first(entry(r.0, r.1, r.2))),
            (5, 33421),
        );
    }
}

/// Type and count before values.
fn within_a_tag(tally: &mut Tally) {
    for (tag, kind, carried, _) in RULES {
        let wrong = (4, tag.into());
        let other_kind = if kind == BYTE { SHORT } else { BYTE };
        for count in [carried.len() - 1, carried.len() + 1] {
            let values = vec![9; count];
            case(
                tally,
                file_case,
                &format!("{tag}: count before values"),
                &patterned().with(entry(tag, kind, &values)),
                wrong,
            );
            let dng = patterned().with(entry(tag, other_kind, &values));
            case(tally, file_case, &format!("{tag}: type and count before values"), &dng, wrong);
        }
        let dng = patterned().with(entry(tag, other_kind, &vec![9; carried.len()]));
        case(tally, file_case, &format!("{tag}: type before values"), &dng, wrong);
    }
}

/// A half window that can be made faulty.
#[derive(Clone)]
struct Question {
    dng: Dng,
    rectangle: [u64; 4],
    slice: usize,
}

type Fault = (Answer, Box<dyn Fn(&mut Question)>);

fn fault(answer: Answer, change: impl Fn(&mut Question) + 'static) -> Fault {
    (answer, Box::new(change))
}

/// A change of the file.
fn in_file(answer: Answer, change: impl Fn(Dng) -> Dng + 'static) -> Fault {
    fault(answer, move |question| question.dng = change(question.dng.clone()))
}

/// 10, 11 and 12 of the list, on a plane that both base files have.
fn list_faults() -> Vec<Fault> {
    let lists = [
        ((10, 0), vec![good(8, whole()).with_long(6, 0)]),
        ((11, 0), vec![Opcode::new(14, 0, vec![])]),
        ((12, 1), vec![good(8, whole()), Opcode::map_polynomial(whole(), &[f64::NAN])]),
    ];
    lists.into_iter().map(|(answer, list)| in_file(answer, move |dng| dng.with_opcodes(&list))).collect()
}

/// A colour tag of IFD 0 with a wrong type, or absent.
fn colour_faults(tag: u16) -> Vec<Fault> {
    let (_, answer) = colour::faulty(coloured(MOSAIC), tag);
    let mut faults = vec![in_file(answer, move |dng| colour::faulty(dng, tag).0)];
    if [MATRIX, NEUTRAL].contains(&tag) {
        faults.push(in_file((5, tag.into()), move |dng| colour::without(dng, tag)));
    }
    faults
}

/// A tag of the pattern absent, of another type or count, or with other values.
fn pattern_faults((tag, kind, carried, absent): Rule) -> Vec<Fault> {
    let detail = u32::from(tag);
    let mut faults = vec![
        in_file((4, detail), move |dng| dng.with(entry(tag, 14, carried))),
        in_file((4, detail), move |dng| dng.with(entry(tag, kind, &carried[1..]))),
        in_file((8, detail), move |dng| dng.with(entry(tag, kind, &vec![9; carried.len()]))),
    ];
    if absent == 5 {
        faults.push(in_file((5, detail), move |dng| dng.without(tag)));
    }
    faults
}

/// In order of test, without 15; the list comes first.
fn faults_in_order() -> Vec<Vec<Fault>> {
    let outside = |rectangle: [u64; 4]| fault((13, 0), move |question| question.rectangle = rectangle);
    let slice = |length: usize| fault((14, 0), move |question| question.slice = length);
    let mut faults = vec![list_faults()];
    faults.extend(colour::TAGS.map(colour_faults));
    faults.extend(RULES.map(pattern_faults));
    faults.push(vec![outside([0; 4]), outside([0, 0, 4, 3]), outside([0, 3, 1, 1]), outside([u64::MAX; 4])]);
    faults.push(vec![slice(SLICE - 1), slice(SLICE + 1), slice(0), slice((ROWS * COLUMNS * 3) as usize)]);
    faults
}

/// In both byte orders and layouts, with the raw IFD as IFD 0 and below it.
fn ask(tally: &mut Tally, label: &str, question: &Question, answer: Answer) {
    let call = half_window(question.rectangle, question.slice);
    for widths in LAYOUTS {
        each_file(widths, label, &question.dng, |label, file| {
            tally.files += 1;
            tally.ask(label, file, &call, Some(answer));
        });
    }
}

/// Of two faults the first in order of test answers.
fn order(tally: &mut Tally) {
    let faults = faults_in_order();
    let good = Question { dng: patterned(), rectangle: BLOCKS, slice: SLICE };
    ask(tally, "no fault", &good, DONE);
    for (i, (answer, first)) in faults.iter().enumerate().flat_map(|(i, f)| f.iter().map(move |f| (i, f))) {
        let mut alone = good.clone();
        first(&mut alone);
        ask(tally, &format!("{answer:?} alone"), &alone, *answer);
        for (later, second) in faults[i + 1..].iter().flatten() {
            let mut two = good.clone();
            second(&mut two);
            first(&mut two);
            ask(tally, &format!("{answer:?} before {later:?}"), &two, *answer);
        }
    }
}

/// 15 for LinearRaw: after the list, before everything else.
fn linear(tally: &mut Tally) {
    let of_colour = coloured(LINEAR);
    for dng in [of_colour.clone(), of_colour.with_pattern([0, 1, 1, 2])] {
        let good = Question { dng, rectangle: BLOCKS, slice: SLICE };
        ask(tally, "LinearRaw", &good, (15, 0));
        for (place, of_test) in faults_in_order().iter().enumerate() {
            for (answer, fault) in of_test {
                let mut question = good.clone();
                fault(&mut question);
                let stated = if place == 0 { *answer } else { (15, 0) };
                ask(tally, &format!("LinearRaw with {answer:?}"), &question, stated);
            }
        }
    }
}

/// Areas of one to five rows and columns from even and odd corners: every window
/// of blocks up to one past the last, and the area's own size.
fn areas(tally: &mut Tally) {
    let base = coloured(MOSAIC).with_pattern([2, 1, 1, 0]);
    let bare = [50713, 50714, 50715, 50716].into_iter().fold(base, Dng::without);
    for (rows, columns) in (1..=5).flat_map(|rows| (1..=5).map(move |columns| (rows, columns))) {
        for (top, left) in [(0, 0), (0, 1), (1, 0), (1, 1), (2, 3)] {
            let dng = bare.clone().with(Tag::longs(50829, &[top, left, top + rows, left + columns]));
            for dng in each_way(&dng) {
                tally.files += 1;
                let label = format!("{rows} x {columns} from {top}, {left}, {:?}", dng.order);
                windows_of_area(tally, &label, &dng.file(), rows.into(), columns.into());
            }
        }
    }
}

fn windows_of_area(tally: &mut Tally, label: &str, file: &[u8], rows: u64, columns: u64) {
    let (down, across) = (rows / 2, columns / 2);
    let lines =
        |blocks: u64| (0..=blocks).flat_map(move |from| (0..=blocks + 1 - from).map(move |n| [from, n]));
    let mut ask = |rectangle: [u64; 4]| {
        let [top, left, height, width] = rectangle;
        let inside = height > 0 && width > 0 && top + height <= down && left + width <= across;
        let call = half_window(rectangle, (3 * height * width) as usize);
        tally.ask(label, file, &call, Some((if inside { 0 } else { 13 }, 0)));
    };
    for ([top, height], [left, width]) in
        lines(down).flat_map(|of_rows| lines(across).map(move |l| (of_rows, l)))
    {
        ask([top, left, height, width]);
    }
    ask([0, 0, rows, columns]);
    ask([0, 0, 1, 1]);
    ask([rows - 1, columns - 1, 1, 1]);
}

/// Grids of pitch 2 both ways, from each place of the first block and of one
/// further on, through each kind of opcode.
fn grids_on_one_colour(tally: &mut Tally) {
    for (id, (top, left)) in super::lists::LISTED
        .into_iter()
        .flat_map(|id| [(0, 0), (0, 1), (1, 0), (1, 1), (2, 3)].map(|corner| (id, corner)))
    {
        let area = Area { top, left, row_pitch: 2, column_pitch: 2, ..whole() };
        for colours in [[0, 1, 1, 2], [1, 2, 0, 1], [1, 1, 2, 0]] {
            let dng = coloured(MOSAIC).with_pattern(colours).with_opcodes(&[good(id, area), good(8, area)]);
            case(tally, file_case, &format!("opcode {id} on one colour of {colours:?}"), &dng, DONE);
        }
    }
}

/// 16,384 x 16,384 samples in strips that overlap, with column deltas.
fn greatest_mosaic() -> Dng {
    let picture =
        Picture { width: SIDE, length: SIDE, samples: 1, bits: 8, rows_per_strip: 1, stored: Vec::new() };
    let places = (0..SIDE).map(|row| Place::Block(0, row % 251)).collect();
    let mut dng = Dng::new(ByteOrder::Little, &picture)
        .with(Tag::new(273, SHORT, Data::ShortPlaces(places)))
        .with(Tag::longs(279, &vec![SIDE; SIDE as usize]))
        .with_pattern([1, 0, 2, 1])
        .with_first(Tag::srationals(MATRIX, &[(2, 3); 9]))
        .with_first(Tag::rationals(NEUTRAL, &[(1, 2), (1, 1), (3, 4)]));
    dng.blocks = vec![(0..SIDE + 256).map(|i| (i * i % 253) as u8).collect()];
    dng
}

const SIDE: u32 = 16_384;

/// The greatest frame and one of a row and a column less: its last blocks, its
/// whole width and its whole length.
fn greatest_frame(tally: &mut Tally) {
    for (less, last) in [(0, 8_191), (1, 8_190)] {
        let deltas: Vec<(i32, i32)> = (less..SIDE).map(|column| (column as i32 % 7 - 3, 4)).collect();
        let dng = greatest_mosaic()
            .with(Tag::longs(50829, &[less, less, SIDE, SIDE]))
            .with(Tag::srationals(50715, &deltas));
        for dng in each_way(&dng) {
            tally.files += 1;
            let file = dng.file();
            let label = format!("greatest frame less {less}, {:?}, {:?}", dng.order, dng.widths);
            let mut ask = |rectangle: [u64; 4], number| {
                let slice = if number == 14 { 3 } else { 3 * rectangle[2] * rectangle[3] };
                tally.ask(&label, &file, &half_window(rectangle, slice as usize), Some((number, 0)));
            };
            ask([last, last, 1, 1], 0);
            ask([last - 3, last - 5, 4, 6], 0);
            ask([last - 1, 0, 2, last + 1], 0);
            ask([0, last, last + 1, 1], 0);
            ask([last + 1, last, 1, 1], 13);
            ask([last, last + 1, 1, 1], 13);
            ask([last, last, 2, 1], 13);
            ask([last, last, 1, 2], 13);
            ask([0, 0, last + 1, last + 1], 14);
        }
    }
}
