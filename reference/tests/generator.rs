//! The generator: the same cases everywhere, spread over all answers.

use std::collections::{BTreeMap, BTreeSet};

use reference::bytes::{ByteOrder, Widths};
use reference::cases::{answer_line, ask_chain, Call, Fingerprint};
use reference::chain::LEAST_PLACES;
use reference::chain_kinds;
use reference::denormals::{self, Signed};
use reference::develop::{accept, Accepted};
use reference::directory::walk;
use reference::gain_map::{Axis, GainMap};
use reference::generate::{generate, generate_valid};
use reference::opcodes::{Action, FrameSize, Grid, Opcode};
use reference::pattern;
use reference::tag_test::{fine, Fraction, Tags, LONG, RATIONAL, SHORT, SRATIONAL};
use reference::{card, chain, colour_window, half_window, spot, table_window, window, Answer, Crop};

/// The number and detail of a call's answer.
fn answer(file: &[u8], call: &Call) -> Answer {
    match *call {
        Call::Card => card(file).answer(),
        Call::Spot { row, column, plane } => spot(file, row, column, plane).0,
        Call::Window { top, left, height, width, slice } => {
            window(file, top, left, height, width, &mut vec![0.0; slice])
        }
        Call::ColourWindow { top, left, height, width, slice } => {
            colour_window(file, top, left, height, width, &mut vec![0.0; slice])
        }
        Call::HalfWindow { top, left, height, width, slice } => {
            half_window(file, top, left, height, width, &mut vec![0.0; slice])
        }
        Call::TableWindow { top, left, height, width, slice } => {
            table_window(file, top, left, height, width, &mut vec![0.0; slice])
        }
        Call::Chain { row, column, plane, slices } => {
            ask_chain(chain, file, [row, column, plane], slices, 0).chain.answer()
        }
    }
}

/// Of the first 3,000 cases of seed 1: their files and calls, their answers; and the
/// same of the chains and of the table windows, which stand behind the other calls.
const FILES: Fingerprint = Fingerprint(861626033547058021);
const ANSWERS: Fingerprint = Fingerprint(2361291969163616845);
const CHAINS: [Fingerprint; 2] = [Fingerprint(14066818725354212841), Fingerprint(6553163881868417308)];
const TABLE_WINDOWS: [Fingerprint; 2] = [Fingerprint(12232140267825911892), Fingerprint(5618810411310844158)];

#[test]
fn the_first_cases_have_a_known_fingerprint() {
    let (mut files, mut answers) = (Fingerprint::new(), Fingerprint::new());
    let [mut chains, mut table_windows] = [[Fingerprint::new(); 2]; 2];
    for index in 0..3_000 {
        let case = generate(1, index);
        files.add(&case.file);
        for call in &case.calls {
            let (question, line) = (format!("{call:?}"), answer_line(&case.file, call));
            let [asked, answered] = match call {
                Call::Chain { .. } => chains.each_mut(),
                Call::TableWindow { .. } => table_windows.each_mut(),
                _ => [&mut files, &mut answers],
            };
            asked.add(question.as_bytes());
            answered.add(line.as_bytes());
        }
    }
    assert_eq!((files, answers), (FILES, ANSWERS));
    assert_eq!(chains, CHAINS);
    assert_eq!(table_windows, TABLE_WINDOWS);
}

/// Of a file with several faults, the first one's name.
#[test]
fn every_kind_of_file_comes_in_both_layouts() {
    let mut kinds: BTreeMap<String, [u32; 2]> = BTreeMap::new();
    for index in 0..6_000 {
        let case = generate(6, index);
        let kind = case.label.split(" + ").next().unwrap_or_default().to_string();
        let of_layouts = kinds.entry(kind).or_default();
        for (mark, layout) in [(0x2A, 0), (0x2B, 1)] {
            of_layouts[layout] += u32::from(case.file.iter().take(4).any(|byte| *byte == mark));
        }
    }
    assert!(kinds.len() >= 30, "{kinds:?}");
    assert!(kinds.values().all(|of_layouts| of_layouts.iter().all(|count| *count >= 4)), "{kinds:?}");
}

#[test]
fn cases_differ_by_seed_and_index() {
    let files: BTreeSet<Vec<u8>> =
        (0..10).flat_map(|seed| (0..10).map(move |index| generate(seed, index).file)).collect();
    assert!(files.len() > 95);
    assert_eq!(generate(5, 6).file, generate(5, 6).file);
}

#[test]
fn a_call_is_read_back_from_its_line() {
    for index in 0..50 {
        let case = generate(4, index);
        for call in &case.calls {
            let line = answer_line(&case.file, call);
            let words: Vec<&str> = line.split(' ').take_while(|word| *word != "->").collect();
            assert_eq!(Call::parse(&words), Some(*call));
        }
    }
}

#[test]
fn valid_files_are_accepted() {
    for index in 0..3_000 {
        assert_eq!(card(&generate_valid(2, index)).answer(), Answer::DONE, "{index}");
    }
}

#[test]
fn every_refusal_occurs_with_every_tag() {
    let mut counts: BTreeMap<Answer, u32> = BTreeMap::new();
    let (mut done, cases) = (0, 12_000);
    for index in 0..cases {
        let case = generate(3, index);
        done += u32::from(card(&case.file).number == 0);
        for call in &case.calls {
            *counts.entry(answer(&case.file, call)).or_default() += 1;
        }
    }
    for number in 0..=15 {
        let of_number: u32 = counts.iter().filter(|(a, _)| a.number == number).map(|(_, n)| n).sum();
        println!("{number:2}: {of_number} answers");
        assert!(of_number > 100, "refusal {number} occurs {of_number} times");
    }
    let wrong = [
        254, 330, 50706, 50707, 256, 257, 262, 277, 258, 259, 284, 339, 50975, 52547, 278, 273, 279, 50829,
        50712, 50713, 50714, 50715, 50716, 50717, 50719, 50720, 51009, 50964, 50728, 33421, 33422, 50710,
        50711,
    ];
    let absent = [50706, 256, 257, 262, 258, 273, 279, 50964, 50728, 33421, 33422];
    let not_carried = [
        256, 257, 262, 277, 258, 259, 284, 339, 50975, 52547, 50713, 50714, 50715, 50716, 50717, 50719,
        50720, 51008, 51022, 50723, 50727, 50965, 33421, 33422, 50710, 50711,
    ];
    for (number, tags) in [(4, &wrong[..]), (5, &absent[..]), (8, &not_carried[..])] {
        for tag in tags {
            assert!(counts.contains_key(&Answer { number, detail: *tag }), "refusal {number} on {tag}");
        }
    }
    for place in 0..3 {
        for number in [10, 11, 12] {
            assert!(counts.contains_key(&Answer { number, detail: place }), "refusal {number} at {place}");
        }
    }
    assert!(counts.contains_key(&Answer::TOO_MANY_OPCODES));
    println!("{done} of {cases} files are accepted");
    assert!(done * 3 >= cases as u32, "{done} of {cases} files are accepted");
}

/// The kinds of half-size colour to which a mosaic that has it belongs.
fn kinds_of_halves(accepted: &Accepted) -> Vec<String> {
    let pattern = pattern::read(&accepted.file, &accepted.raw_ifd).expect("half windows were accepted");
    let (area, size) = (accepted.raw.active, accepted.size());
    let one_colour = |opcode: &Opcode| match opcode {
        Opcode::Kept(grid, _) => {
            grid.row_pitch == 2 && grid.column_pitch == 2 && grid.rows() * grid.columns() > 1
        }
        Opcode::Skipped => false,
    };
    let kinds = [
        (area.top % 2 == 1, "odd top"),
        (area.left % 2 == 1, "odd left"),
        (area.top % 2 == 1 && area.left % 2 == 1, "odd corner"),
        (size.rows % 2 == 1 && size.rows > 1, "odd rows"),
        (size.columns % 2 == 1 && size.columns > 1, "odd columns"),
        (size.rows == 1, "one row"),
        (size.columns == 1, "one column"),
        (accepted.opcodes.iter().any(one_colour), "one colour"),
        (accepted.raw.stored.bits == 8, "8 bits"),
        (accepted.raw.stored.bits == 16, "16 bits"),
        (accepted.file.order == ByteOrder::Little, "II"),
        (accepted.file.order == ByteOrder::Big, "MM"),
        (accepted.file.widths == Widths::BITS_32, "32-bit layout"),
        (accepted.file.widths == Widths::BITS_64, "64-bit layout"),
    ];
    let met = kinds.into_iter().filter(|(met, _)| *met).map(|(_, kind)| kind.to_string());
    met.chain([format!("{pattern:?}"), "all".into()]).collect()
}

/// In 6,000 files; of the patterns there are twelve.
#[test]
fn half_size_colour_is_often_accepted() {
    let mut counts: BTreeMap<String, u32> = BTreeMap::new();
    for index in 0..6_000 {
        let file = generate(7, index).file;
        // One block, or 13 where there is none.
        let answer = half_window(&file, 0, 0, 1, 1, &mut [0.0; 3]);
        if [0, 13].contains(&answer.number) {
            let accepted = accept(&file).expect("half windows were accepted");
            for kind in kinds_of_halves(&accepted) {
                *counts.entry(kind).or_default() += 1;
            }
        }
    }
    println!("{counts:?}");
    assert!(counts["all"] >= 1_000, "{counts:?}");
    assert_eq!(counts.keys().filter(|kind| kind.starts_with("Pattern")).count(), 12);
    assert_eq!(counts.len(), 12 + 15, "{counts:?}");
    assert!(counts.values().all(|count| *count >= 50), "{counts:?}");
}

/// The kinds of GainMaps to which one belongs.
fn kinds_of_gain_map(grid: &Grid, map: &GainMap) -> Vec<&'static str> {
    let axes = [&map.vertical, &map.horizontal];
    let several = axes.map(|axis| axis.points > 1);
    let rows = (grid.top..grid.bottom).step_by(grid.row_pitch as usize);
    let columns = (grid.left..grid.right).step_by(grid.column_pitch as usize);
    let mut places: Vec<(f64, f64)> = Vec::new();
    let mut add = |axis: &Axis, line: u64| {
        if axis.points > 1 {
            places.push((axis.place(line), (axis.points - 1) as f64));
        }
    };
    rows.for_each(|row| add(&map.vertical, row));
    columns.for_each(|column| add(&map.horizontal, column));
    let any = |met: fn(f64, f64) -> bool| places.iter().any(|(place, last)| met(*place, *last));
    let kinds = [
        (several == [false, false], "one point"),
        (several == [false, true], "one row"),
        (several == [true, false], "one column"),
        (several == [true, true], "rows and columns"),
        (map.planes < grid.planes, "fewer planes"),
        (map.planes == grid.planes, "as many planes"),
        (map.planes > grid.planes, "more planes"),
        (axes.iter().any(|axis| axis.spacing <= 0.0), "spacing not above 0"),
        (axes.iter().any(|axis| axis.origin < 0.0), "negative origin"),
        (any(|place, _| place < 0.0), "below the first"),
        (any(|place, _| place == 0.0), "at the first"),
        (any(|place, last| place > 0.0 && place < last && place == place.floor()), "on a point"),
        (any(|place, last| place > 0.0 && place < last && place != place.floor()), "between"),
        (any(|place, last| place == last), "at the last"),
        (any(|place, last| place > last), "above the last"),
        (any(|place, _| place.is_infinite()), "infinite place"),
        (map.gains.iter().any(|gain| *gain < 0.0), "negative gain"),
        (map.gains.iter().any(|gain| *gain > 1.0), "gain above 1"),
        (grid.row_pitch > 1 && grid.rows() > 1, "row pitch"),
        (grid.top > 0 && grid.left > 0, "grid off the corner"),
    ];
    kinds.into_iter().filter(|(met, _)| *met).map(|(_, kind)| kind).collect()
}

#[test]
fn gain_maps_of_every_kind_are_accepted_and_refused() {
    let mut counts: BTreeMap<&str, u32> = BTreeMap::new();
    let mut faulty: BTreeMap<u32, u32> = BTreeMap::new();
    for index in 0..4_000 {
        let case = generate(8, index);
        if case.label == "gain map" {
            *faulty.entry(card(&case.file).number).or_default() += 1;
        }
        let Ok(accepted) = accept(&case.file) else { continue };
        for opcode in &accepted.opcodes {
            if let Opcode::Kept(grid, Action::GainMap(map)) = opcode {
                kinds_of_gain_map(grid, map)
                    .into_iter()
                    .for_each(|kind| *counts.entry(kind).or_default() += 1);
            }
        }
    }
    println!("{counts:?}, {faulty:?}");
    assert!(counts.len() == 20 && counts.values().all(|count| *count >= 10), "{counts:?}");
    assert!([0, 10, 12].iter().all(|number| faulty[number] >= 3), "{faulty:?}");
}

/// In the files that are accepted every kind occurs with both signs, but for a
/// spacing below 0 of several points; developed values are denormal too.
#[test]
fn denormals_of_every_kind_are_accepted() {
    let mut counts: BTreeMap<Signed, u32> = BTreeMap::new();
    let mut refused: BTreeMap<u32, u32> = BTreeMap::new();
    for index in 0..4_000 {
        let case = generate(9, index);
        if case.label == "opcode numbers" {
            *refused.entry(card(&case.file).number).or_default() += 1;
        }
        let Ok(accepted) = accept(&case.file) else { continue };
        let mut kinds: BTreeSet<Signed> = BTreeSet::new();
        for opcode in &accepted.opcodes {
            if let Opcode::Kept(_, action) = opcode {
                kinds.extend(denormals::of_action(action));
            }
        }
        let FrameSize { rows, columns, samples } = accepted.size();
        if rows * columns * samples <= 3_000 {
            let frame = accepted.whole_frame();
            kinds.extend(denormals::denormals("value", &frame, f64::is_subnormal));
            kinds.extend(denormals::denormals("least value", &frame, |value| value.to_bits() == 1));
        }
        kinds.into_iter().for_each(|kind| *counts.entry(kind).or_default() += 1);
    }
    println!("{counts:?}, {refused:?}");
    for (kind, signs) in [
        ("denormal coefficient", 2),
        ("denormal row delta", 2),
        ("denormal column delta", 2),
        ("denormal row factor", 2),
        ("denormal column factor", 2),
        ("denormal gain", 2),
        ("denormal spacing", 1),
        ("denormal spacing of one point", 2),
        ("denormal origin", 2),
        ("value", 1),
        ("least value", 1),
    ] {
        for below_0 in [false, true] {
            let count = counts.get(&(kind, below_0)).copied().unwrap_or(0);
            let wanted = if below_0 && signs == 1 { count == 0 } else { count >= 10 };
            assert!(wanted, "{kind}, below 0: {below_0}: {counts:?}");
        }
    }
    assert!([0, 12].iter().all(|number| refused[number] >= 10), "{refused:?}");
}

/// The kinds of crops to which that of an accepted file belongs.
fn kinds_of_crop(accepted: &Accepted) -> Vec<String> {
    let tags = Tags { file: &accepted.file, directory: &accepted.raw_ifd };
    let [origin, size] = [50719, 50720].map(|tag| accepted.raw_ifd.find(tag));
    let of_layout = if accepted.file.widths == Widths::BITS_32 { 32 } else { 64 };
    let types = [("origin", origin), ("size", size)].into_iter();
    let types =
        types.filter_map(|(name, entry)| Some(format!("{name} of type {} in {of_layout}", entry?.kind)));
    let fractions = [50719, 50720].map(|tag| tags.optional(tag, &[SHORT, LONG, RATIONAL], 2..=2, fine));
    let fractions: Vec<Fraction> =
        fractions.into_iter().flat_map(|values| values.expect("it was accepted")).flatten().collect();
    let (area, frame) = (accepted.raw.active, accepted.size());
    let Crop { left, top, columns, rows } = accepted.raw.crop;
    let kinds = [
        (origin.is_none() && size.is_none(), "no tag"),
        (origin.is_some() && size.is_none(), "origin alone"),
        (origin.is_none() && size.is_some(), "size alone"),
        (origin.is_some() && size.is_some(), "both"),
        ([columns, rows] == [frame.columns, frame.rows], "all of the area"),
        (left > 0 && top > 0, "off the corner"),
        (left > 0 && top > 0 && area.left > 0 && area.top > 0, "three corners"),
        (left > 0 && left + columns == frame.columns, "to the right edge"),
        (left > 0 && left + columns < frame.columns, "between the sides"),
        (top > 0 && top + rows == frame.rows, "to the bottom edge"),
        (top > 0 && top + rows < frame.rows, "between top and bottom"),
        (left + columns > frame.rows || top + rows > frame.columns, "not inside the other way round"),
        (fractions.iter().any(|v| v.denominator > 1 && v.numerator > 0), "by a fraction"),
        (fractions.iter().any(|v| v.denominator > 1 && v.numerator == 0), "0 by a fraction"),
        (frame.samples == 1 && columns < frame.columns, "of a mosaic"),
        (frame.samples == 3 && columns < frame.columns, "of LinearRaw"),
    ];
    let met = kinds.into_iter().filter(|(met, _)| *met).map(|(_, kind)| kind.to_string());
    met.chain(types).collect()
}

/// The two faults of a pair give the answer of the first, and now and then, where
/// it lands on the good side, that of the second.
const CROP_FAULTS: [(&str, &[(u32, u32)]); 6] = [
    ("crop", &[(0, 0), (4, 50719), (8, 50719), (4, 50720), (8, 50720)]),
    ("50717 and 50719", &[(4, 50717), (8, 50717)]),
    ("50719 and 50720", &[(4, 50719), (8, 50719)]),
    ("50720 and the crop", &[(4, 50720), (8, 50720)]),
    ("the crop and 51008", &[(4, 50720), (8, 51008)]),
    ("the crop and 9", &[(4, 50720), (9, 0)]),
];

#[test]
fn crops_of_every_kind_are_accepted_and_refused() {
    let mut counts: BTreeMap<String, u32> = BTreeMap::new();
    let mut faulty: BTreeMap<(String, Answer), u32> = BTreeMap::new();
    for index in 0..8_000 {
        let case = generate(10, index);
        *faulty.entry((case.label, card(&case.file).answer())).or_default() += 1;
        let Ok(accepted) = accept(&case.file) else { continue };
        for kind in kinds_of_crop(&accepted) {
            *counts.entry(kind).or_default() += 1;
        }
    }
    println!("{counts:?}");
    // SHORT, LONG, RATIONAL in both layouts and LONG8 in one, of either tag.
    assert!(counts.len() == 16 + 14 && counts.values().all(|count| *count >= 60), "{counts:?}");
    for (label, answers) in CROP_FAULTS {
        for (number, detail) in answers.iter().copied() {
            let count = faulty.get(&(label.to_string(), Answer { number, detail }));
            println!("{label}: {number} {detail}, {count:?}");
            assert!(count.is_some_and(|count| *count >= 3), "{label}: {number} {detail}, {count:?}");
        }
    }
}

/// The kinds of a chain's question: where its spot lies, which of its slices are too
/// short or longer, and what it is answered.
fn kinds_of_question(file: &[u8], spot: [u64; 3], slices: [usize; 5]) -> Vec<String> {
    let card = card(file);
    let sides = [card.rows, card.columns, card.samples];
    let answer = ask_chain(chain, file, spot, slices, 0).chain.answer();
    let mut kinds = vec![format!("number {}", answer.number)];
    if card.number == 0 {
        for (axis, (at, whole)) in ["row", "column", "plane"].into_iter().zip(spot.into_iter().zip(sides)) {
            let places =
                [(0, "first"), (whole - 1, "last"), (whole, "one past the last"), (u64::MAX, "huge")];
            kinds.extend(places.iter().filter(|(n, _)| *n == at).map(|(_, name)| format!("{name} {axis}")));
        }
    }
    let names = ["places", "ids", "before", "after", "skipped"];
    for (name, length) in names.into_iter().zip(slices) {
        let of_length = match length {
            0 => "no",
            _ if length + 1 == LEAST_PLACES => "31",
            _ if length == LEAST_PLACES + 1 => "33",
            _ => continue,
        };
        let outcome =
            if answer == Answer::DONE || answer == Answer::SLICE { "" } else { ", refused before 14" };
        kinds.push(format!("{of_length} {name}{outcome}"));
    }
    kinds
}

/// In 12,000 files; where the spot is answered, the kinds of its chain.
#[test]
fn chains_of_every_kind_are_asked() {
    let mut counts: BTreeMap<&str, u32> = BTreeMap::new();
    let mut questions: BTreeMap<String, u32> = BTreeMap::new();
    for index in 0..12_000 {
        let case = generate(11, index);
        let accepted = accept(&case.file).ok();
        for call in &case.calls {
            let Call::Chain { row, column, plane, slices } = *call else { continue };
            let spot = [row, column, plane];
            let kinds = kinds_of_question(&case.file, spot, slices);
            let answered = kinds[0] == "number 0";
            kinds.into_iter().for_each(|kind| *questions.entry(kind).or_default() += 1);
            if let Some(accepted) = accepted.as_ref().filter(|_| answered) {
                let kinds = chain_kinds::kinds(accepted, spot);
                kinds.into_iter().for_each(|kind| *counts.entry(kind).or_default() += 1);
            }
        }
    }
    println!("{counts:?}");
    println!("{questions:?}");
    for kind in chain_kinds::KINDS {
        assert!(counts.get(kind).is_some_and(|count| *count >= 300), "{kind}: {counts:?}");
    }
    assert_eq!(counts.len(), chain_kinds::KINDS.len(), "{counts:?}");
    // Every number up to 14; four places on each of three axes; three lengths of each of
    // five slices, and two of these beside another refusal.
    let numbers = (0..=14).map(|number| (format!("number {number}"), 250));
    let places = [("first", 5_000), ("last", 5_000), ("one past the last", 850), ("huge", 450)];
    let places = places
        .into_iter()
        .flat_map(|(place, least)| ["row", "column", "plane"].map(|axis| (format!("{place} {axis}"), least)));
    let slices = ["places", "ids", "before", "after", "skipped"].into_iter().flat_map(|name| {
        let alone = [("no", 40), ("31", 80), ("33", 700)];
        let alone = alone.map(|(length, least)| (format!("{length} {name}"), least));
        let beside = [("no", 40), ("31", 80)];
        let beside = beside.map(|(length, least)| (format!("{length} {name}, refused before 14"), least));
        alone.into_iter().chain(beside)
    });
    for (kind, least) in numbers.chain(places).chain(slices) {
        assert!(questions.get(&kind).is_some_and(|count| *count >= least), "{kind}: {questions:?}");
    }
}

/// What the level tags of an accepted file say, in 256ths.
struct LevelTags {
    repeat: [usize; 2],
    /// Row, column, plane.
    cells: Vec<i128>,
    columns: Option<Vec<i128>>,
    rows: Option<Vec<i128>>,
    white: Vec<i128>,
}

impl LevelTags {
    fn read(accepted: &Accepted) -> LevelTags {
        let tree = walk(&accepted.file).expect("the file was accepted");
        let tags = Tags { file: &accepted.file, directory: &tree.raw };
        let read = |tag| {
            let kinds = [SHORT, LONG, RATIONAL, SRATIONAL];
            tags.optional(tag, &kinds, 1..=u64::MAX, fine).expect("the file was accepted")
        };
        let in_256ths = |tag| {
            let values = read(tag)?;
            Some(values.iter().map(|v| 256 * v.numerator / v.denominator).collect::<Vec<i128>>())
        };
        let repeat = read(50713).map_or([1, 1], |sides| [0, 1].map(|i: usize| sides[i].whole() as usize));
        let samples = accepted.size().samples as usize;
        let default_white = 256 * ((1 << accepted.raw.stored.bits) - 1);
        LevelTags {
            repeat,
            cells: in_256ths(50714).unwrap_or_else(|| vec![0; repeat[0] * repeat[1] * samples]),
            columns: in_256ths(50715),
            rows: in_256ths(50716),
            white: in_256ths(50717).unwrap_or_else(|| vec![default_white; samples]),
        }
    }

    /// The greatest cell of a plane among those that are taken.
    fn greatest_cell(&self, plane: usize, taken: impl Fn(usize, usize) -> bool) -> i128 {
        let samples = self.white.len();
        let of_plane = self.cells.iter().skip(plane).step_by(samples).enumerate();
        let taken = of_plane.filter(|(cell, _)| taken(cell / self.repeat[1], cell % self.repeat[1]));
        *taken.map(|(_, black)| black).max().expect("a sample meets the first cell")
    }

    /// What document 01 adds to a cell: "the greatest 50715 + the greatest 50716".
    fn greatest_deltas(&self) -> i128 {
        let greatest = |deltas: &Option<Vec<i128>>| deltas.iter().flatten().max().copied().unwrap_or(0);
        greatest(&self.columns) + greatest(&self.rows)
    }
}

/// The kinds of document 02's greatest black to which an accepted file belongs.
fn kinds_of_greatest_black(accepted: &Accepted) -> Vec<&'static str> {
    let tags = LevelTags::read(accepted);
    let (rows, columns) = (accepted.size().rows as usize, accepted.size().columns as usize);
    let past = [tags.repeat[0] > rows, tags.repeat[1] > columns];
    let negative = |deltas: &Option<Vec<i128>>| deltas.iter().any(|d| d.iter().all(|delta| *delta < 0));
    let mut kinds = vec![
        (past == [true, false], "repeat past the rows"),
        (past == [false, true], "repeat past the columns"),
        (past == [true, true], "repeat past both"),
        (tags.columns.is_some() && tags.rows.is_none(), "column deltas alone"),
        (tags.columns.is_none() && tags.rows.is_some(), "row deltas alone"),
        (negative(&tags.columns), "column deltas all negative"),
        (negative(&tags.rows), "row deltas all negative"),
    ];
    for plane in 0..tags.white.len() {
        let m = accepted.raw.levels.greatest_black(plane as u64);
        let of_all = tags.greatest_cell(plane, |_, _| true);
        let of_met = tags.greatest_cell(plane, |row, column| row < rows && column < columns);
        let sum = of_all + tags.greatest_deltas();
        assert!(m <= sum);
        kinds.extend([
            (of_met < of_all, "greatest cell unmet"),
            (m < of_met + tags.greatest_deltas(), "maxima that never meet"),
            (m < sum, ["less on plane 0", "less on plane 1", "less on plane 2"][plane]),
            (tags.white[plane] <= sum, "refused by the sum of the maxima"),
        ]);
    }
    let of_file: BTreeSet<&str> = kinds.into_iter().filter(|(met, _)| *met).map(|(_, kind)| kind).collect();
    of_file.into_iter().collect()
}

#[test]
fn the_greatest_black_that_occurs_often_differs_from_the_sum_of_maxima() {
    let mut counts: BTreeMap<&str, u32> = BTreeMap::new();
    for index in 0..1_500 {
        let file = generate(1, index).file;
        let Ok(accepted) = accept(&file) else { continue };
        for kind in kinds_of_greatest_black(&accepted) {
            *counts.entry(kind).or_default() += 1;
        }
    }
    println!("{counts:?}");
    for (kind, least) in [
        ("repeat past the rows", 40),
        ("repeat past the columns", 40),
        ("repeat past both", 30),
        ("column deltas alone", 120),
        ("row deltas alone", 120),
        ("column deltas all negative", 80),
        ("row deltas all negative", 80),
        ("greatest cell unmet", 100),
        ("maxima that never meet", 80),
        ("less on plane 0", 150),
        ("less on plane 1", 70),
        ("less on plane 2", 70),
        ("refused by the sum of the maxima", 70),
    ] {
        assert!(counts.get(kind).is_some_and(|count| *count >= least), "{kind}: {counts:?}");
    }
}

/// What a table window of an accepted file meets; it must be answered.
fn kinds_of_table_window(accepted: &Accepted, [top, left, height, width]: [u64; 4]) -> Vec<String> {
    let raw = &accepted.raw;
    let [repeat_rows, repeat_columns] = raw.levels.repeat();
    if !accepted.takes_tables() {
        let mosaic = raw.stored.bits == 8 && raw.stored.samples == 1;
        return vec![if mosaic { "deltas" } else { "another kind of file" }.into()];
    }
    let cells = height.min(repeat_rows) * width.min(repeat_columns);
    let mut kinds = vec![format!("repeat of {repeat_rows} x {repeat_columns}")];
    if height * width >= 1_024 * cells {
        kinds.push("1,024 samples to a cell".into());
        kinds.push(format!("the same, of {cells} cells"));
        kinds.push(format!("the same, {:?}", accepted.file.order));
        kinds.push(format!("the same, {} bits", 8 * accepted.file.widths.word));
    }
    let table = raw.table.as_ref().map(Vec::len);
    for (is, kind) in [
        (table.is_some_and(|length| length < 256), "short table"),
        (table.is_some_and(|length| length == 256), "table of 256"),
        (table.is_some_and(|length| length > 256), "long table"),
        (accepted.opcodes.iter().any(|opcode| matches!(opcode, Opcode::Kept(..))), "list"),
        (raw.stored.strips.len() > 1, "several strips"),
        (raw.active.top % repeat_rows != 0 && raw.active.left % repeat_columns != 0, "corner off the repeat"),
        (top % repeat_rows != 0 && left % repeat_columns != 0, "window off the repeat"),
        (height < repeat_rows, "some rows of the repeat"),
        (width < repeat_columns, "some columns of the repeat"),
    ] {
        kinds.extend(is.then(|| kind.into()));
    }
    kinds
}

#[test]
fn table_windows_of_every_kind_are_asked() {
    let mut counts: BTreeMap<String, u32> = BTreeMap::new();
    for index in 0..12_000 {
        let case = generate(12, index);
        let Ok(accepted) = accept(&case.file) else { continue };
        for call in &case.calls {
            let Call::TableWindow { top, left, height, width, .. } = *call else { continue };
            if answer(&case.file, call) == Answer::DONE {
                let kinds = kinds_of_table_window(&accepted, [top, left, height, width]);
                kinds.into_iter().for_each(|kind| *counts.entry(kind).or_default() += 1);
            }
        }
    }
    println!("{counts:?}");
    let repeats = counts.keys().filter(|kind| kind.starts_with("repeat of")).count();
    assert!(repeats > 50, "{repeats} repeats");
    for (kind, least) in [
        ("deltas", 1_000),
        ("another kind of file", 5_000),
        ("1,024 samples to a cell", 200),
        ("the same, of 1 cells", 40),
        ("the same, of 2 cells", 40),
        ("the same, of 4 cells", 30),
        ("the same, of 6 cells", 30),
        ("the same, of 16 cells", 8),
        ("the same, Little", 80),
        ("the same, Big", 80),
        ("the same, 32 bits", 80),
        ("the same, 64 bits", 80),
        ("short table", 200),
        ("table of 256", 40),
        ("long table", 20),
        ("list", 1_000),
        ("several strips", 1_000),
        ("corner off the repeat", 100),
        ("window off the repeat", 100),
        ("some rows of the repeat", 100),
        ("some columns of the repeat", 100),
    ] {
        assert!(counts.get(kind).is_some_and(|count| *count >= least), "{kind}: {counts:?}");
    }
}
