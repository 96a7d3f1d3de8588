//! `compare SEED COUNT`: so many generated files through the core and through
//! the independent program, by all seven calls. Every answer must be the same
//! in every bit, and every refusal must have been met; then the same of the
//! files at the limits, whose answers are stated; then listings of some of
//! these files by the core's listing program.

use std::path::Path;
use std::process::ExitCode;

use compare::kinds::Kinds;
use compare::limits;
use compare::listing::{self, Listed};
use compare::questions::questions;
use compare::tally::{Stated, Tally, CARD, CHAIN, COLOUR_WINDOW, HALF_WINDOW, PRINTED, TABLE_WINDOW};
use reference::bytes::{Widths, MARKS};
use reference::generate::generate;

/// What the card must have answered before the opcode list is read, with its
/// detail where it is a tag.
const PLAIN: [u32; 6] = [1, 2, 3, 6, 7, 9];
const WRONG: [u32; 27] = [
    254, 330, 50706, 50707, 256, 257, 262, 277, 258, 259, 284, 339, 50975, 52547, 278, 273, 279, 50829,
    50712, 50713, 50714, 50715, 50716, 50717, 50719, 50720, 51009,
];
const ABSENT: [u32; 7] = [50706, 256, 257, 262, 258, 273, 279];
const NOT_CARRIED: [u32; 19] = [
    256, 257, 262, 277, 258, 259, 284, 339, 50975, 52547, 50713, 50714, 50715, 50716, 50717, 50719, 50720,
    51008, 51022,
];

/// Of the opcode list: at its first place, at a later one, and over 32.
const LIST: [Stated; 7] = [(10, 0), (10, 1), (11, 0), (11, 1), (11, 32), (12, 0), (12, 1)];

/// Of the colour tags.
const COLOUR: [Stated; 7] =
    [(8, 50723), (8, 50727), (8, 50965), (5, 50964), (4, 50964), (5, 50728), (4, 50728)];

/// Of the pattern's tags, two of which have a default.
const PATTERN: [Stated; 10] = [
    (5, 33421),
    (4, 33421),
    (8, 33421),
    (5, 33422),
    (4, 33422),
    (8, 33422),
    (4, 50710),
    (8, 50710),
    (4, 50711),
    (8, 50711),
];

/// Every answer that must have been met and was not.
fn missing(tally: &Tally) -> Vec<String> {
    let mut of_card: Vec<Stated> = PLAIN.iter().map(|number| (*number, 0)).collect();
    for (number, tags) in [(4, &WRONG[..]), (5, &ABSENT[..]), (8, &NOT_CARRIED[..])] {
        of_card.extend(tags.iter().map(|tag| (number, *tag)));
    }
    of_card.extend(LIST);
    let of_half = [&of_card, &COLOUR[..], &PATTERN].concat();
    let details = [
        tally.missing(CARD, &of_card),
        tally.missing(COLOUR_WINDOW, &COLOUR),
        tally.missing(HALF_WINDOW, &of_half),
        tally.missing(CHAIN, &of_card),
        tally.missing(TABLE_WINDOW, &of_card),
    ]
    .concat();
    let numbers = tally.missing_numbers();
    let details = details.into_iter().map(|(name, (number, detail))| format!("{name} {number} {detail}"));
    let numbers = numbers.into_iter().map(|(name, number)| format!("{name} {number}"));
    let values = (tally.denormal == 0).then(|| "denormal values".to_string());
    details.chain(numbers).chain(values).collect()
}

/// Prints what came of it, and gives how many differences there are.
fn report(title: &str, tally: &mut Tally) -> u64 {
    let differences = tally.differences();
    println!(
        "{title}: {} files, {} calls, {} values ({} neither 0 nor 1, {} denormal), {differences} differences",
        tally.files,
        tally.calls(),
        tally.values,
        tally.between,
        tally.denormal
    );
    tally.print_numbers();
    differences
}

fn listed<T: AsRef<str>>(words: &[T]) -> String {
    let words: Vec<&str> = words.iter().map(T::as_ref).collect();
    if words.is_empty() {
        "none".into()
    } else {
        words.join(", ")
    }
}

/// Of so many of the first generated files the listing is asked.
const LISTED: u64 = 3_000;

/// What came of the generated files of one layout, and some of the files.
#[derive(Default)]
struct Generated {
    tally: Tally,
    kinds: Kinds,
    listed: Vec<Listed>,
}

/// Does a file begin with a mark of the 64-bit layout?
fn in_64_bits(file: &[u8]) -> bool {
    MARKS.iter().any(|(mark, _, widths)| *widths == Widths::BITS_64 && file.starts_with(mark))
}

/// Files without any mark are counted with those of the 32-bit layout.
fn generated(seed: u64, count: u64) -> [Generated; 2] {
    let mut of_layouts = <[Generated; 2]>::default();
    for index in 0..count {
        let case = generate(seed, index);
        let Generated { tally, kinds, listed } = &mut of_layouts[usize::from(in_64_bits(&case.file))];
        let label = format!("case {seed} {index} ({})", case.label);
        if index < LISTED {
            listed.extend(Listed::new(&label, &case.file));
        }
        tally.files += 1;
        let more = questions(&reference::card(&case.file), index);
        let calls = [case.calls, more].concat();
        kinds.add(&case.file, &calls);
        for call in &calls {
            tally.ask(&label, &case.file, call, None);
        }
    }
    of_layouts
}

fn main() -> ExitCode {
    let mut words = std::env::args().skip(1).map(|word| word.parse::<u64>());
    let (Some(Ok(seed)), Some(Ok(count)), None) = (words.next(), words.next(), words.next()) else {
        eprintln!("usage: compare SEED COUNT");
        return ExitCode::FAILURE;
    };
    compare(seed, count)
}

fn compare(seed: u64, count: u64) -> ExitCode {
    let program = match listing::program() {
        Ok(program) => program,
        Err(line) => {
            eprintln!("{line}");
            return ExitCode::FAILURE;
        }
    };
    let (mut unmet, mut no_kind, mut differences) = (Vec::new(), Vec::new(), 0);
    let mut to_list = Vec::new();
    let of_layouts = ["32 bits", "64 bits"].into_iter().zip(generated(seed, count));
    for (bits, Generated { mut tally, kinds, listed }) in of_layouts {
        differences += report(&format!("generated, seed {seed}, {bits}"), &mut tally);
        println!("accepted files of each kind, {bits}:");
        kinds.print();
        unmet.extend(missing(&tally).into_iter().map(|answer| format!("{answer} in {bits}")));
        no_kind.extend(kinds.missing().into_iter().map(|kind| format!("{kind} in {bits}")));
        to_list.extend(listed);
    }
    let mut limits = Tally::default();
    limits::check(&mut limits);
    differences += report("limits", &mut limits);
    unmet.extend(missing(&limits));
    differences += listings(&program, to_list);
    println!("answers not met: {}; kinds not met: {}", listed(&unmet), listed(&no_kind));
    if differences == 0 && unmet.is_empty() && no_kind.is_empty() {
        ExitCode::SUCCESS
    } else {
        ExitCode::FAILURE
    }
}

/// Lists these files, the stored ones and those at the crop's limits, and gives how
/// many differences there are.
fn listings(program: &Path, mut files: Vec<Listed>) -> u64 {
    files.extend(listing::limits().expect("the stored inputs are there"));
    let listings = listing::compare(program, &files).expect("the core's listing program runs");
    listings.differences.iter().take(PRINTED as usize).for_each(|line| println!("{line}"));
    let differences = listings.differences.len();
    println!(
        "listings: {} files ({} refused, {} cropped), {} values, {differences} differences",
        listings.files, listings.refused, listings.cropped, listings.values
    );
    differences as u64
}
