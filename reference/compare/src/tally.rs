//! What was asked, what was answered, and where the programs differ.

use std::collections::BTreeMap;
use std::{iter, mem};

use reference::cases::Call;

use crate::asking::{ask_core, Outcome, Shown, REFERENCE};

/// A number and a detail.
pub type Stated = (u32, u32);

const CALLS: usize = 7;
pub const NAMES: [&str; CALLS] =
    ["card", "window", "spot", "colour window", "half window", "chain", "table window"];
pub const CARD: usize = 0;
pub const COLOUR_WINDOW: usize = 3;
pub const HALF_WINDOW: usize = 4;
pub const CHAIN: usize = 5;
pub const TABLE_WINDOW: usize = 6;

/// The greatest number that each call can answer.
const GREATEST_NUMBER: [u32; CALLS] = [12, 14, 13, 15, 15, 14, 14];

/// So many differences are printed; the rest are counted.
pub const PRINTED: u64 = 30;

/// So many bytes of files and outcomes may wait for the core to be asked.
const WAITING: usize = 1 << 20;

/// A call with the independent program's outcome, and what is stated of it.
struct Asked {
    call: Call,
    expected: Outcome,
    stated: Option<Stated>,
}

/// A file whose calls are yet to be put to the core.
struct Waiting {
    label: String,
    file: Vec<u8>,
    calls: Vec<Asked>,
}

#[derive(Default)]
pub struct Tally {
    /// For each call, how often each number and detail was answered.
    met: [BTreeMap<Stated, u64>; CALLS],
    pub files: u64,
    waiting: Vec<Waiting>,
    waiting_bytes: usize,
    differences: u64,
    /// Samples and colours compared, and how many of them were neither 0 nor 1,
    /// and denormal.
    pub values: u64,
    pub between: u64,
    pub denormal: u64,
}

fn index(call: &Call) -> usize {
    match call {
        Call::Card => CARD,
        Call::Window { .. } => 1,
        Call::Spot { .. } => 2,
        Call::ColourWindow { .. } => COLOUR_WINDOW,
        Call::HalfWindow { .. } => HALF_WINDOW,
        Call::Chain { .. } => CHAIN,
        Call::TableWindow { .. } => TABLE_WINDOW,
    }
}

impl Tally {
    /// Puts one call to both programs, to the core with many others at a later
    /// time. They must answer the same in every bit, and what is stated, where
    /// something is. Gives the independent program's outcome.
    pub fn ask(&mut self, label: &str, file: &[u8], call: &Call, stated: Option<Stated>) -> Outcome {
        let asked = self.expect(file, call, stated);
        let expected = asked.expected.clone();
        if file.len() > WAITING {
            // Not worth a copy that waits.
            self.ask_at_once(label, file, &asked);
        } else {
            self.wait(label, file, asked);
        }
        expected
    }

    /// The same, to both at once. Gives the core's outcome.
    pub fn ask_now(&mut self, label: &str, file: &[u8], call: &Call, stated: Option<Stated>) -> Outcome {
        let asked = self.expect(file, call, stated);
        self.ask_at_once(label, file, &asked)
    }

    /// Puts one call to the independent program.
    fn expect(&mut self, file: &[u8], call: &Call, stated: Option<Stated>) -> Asked {
        let expected = REFERENCE.ask(file, call);
        let answer = (expected.answer.number, expected.answer.detail);
        *self.met[index(call)].entry(answer).or_default() += 1;
        let values = expected.values(call);
        self.values += values.len() as u64;
        let ends = [0, 1.0f64.to_bits()];
        self.between += values.iter().filter(|bits| !ends.contains(bits)).count() as u64;
        self.denormal += values.iter().filter(|bits| f64::from_bits(**bits).is_subnormal()).count() as u64;
        Asked { call: *call, expected, stated }
    }

    fn ask_at_once(&mut self, label: &str, file: &[u8], asked: &Asked) -> Outcome {
        let found = ask_core(iter::once((file, &asked.call))).swap_remove(0);
        self.compare(label, &found, asked);
        found
    }

    /// The same of a window or a spot whose values are stated.
    pub fn ask_values(&mut self, label: &str, file: &[u8], call: &Call, stated: &[f64]) {
        let found = self.ask(label, file, call, Some((0, 0)));
        let (found, stated) = (found.values(call), stated.iter().map(|value| value.to_bits()));
        if found.len() != stated.len() {
            self.differs(&format!("{label}: {call:?}: {} values, stated {}", found.len(), stated.len()));
        }
        let mut places = (0..).zip(found.iter().copied().zip(stated));
        if let Some((place, (found, stated))) = places.find(|(_, (found, stated))| found != stated) {
            self.differs(&format!("{label}: {call:?}: {found:016x} at place {place}, stated {stated:016x}"));
        }
    }

    fn wait(&mut self, label: &str, file: &[u8], asked: Asked) {
        if self.waiting_bytes > WAITING {
            self.settle();
        }
        self.waiting_bytes += size_of::<Asked>() + size_of_val(&asked.expected.bits[..]);
        match self.waiting.last_mut() {
            Some(last) if last.label == label && last.file == file => last.calls.push(asked),
            _ => {
                self.waiting_bytes += file.len();
                let (label, file) = (label.into(), file.into());
                self.waiting.push(Waiting { label, file, calls: vec![asked] });
            }
        }
    }

    /// Puts to the core what waits for it, and compares.
    fn settle(&mut self) {
        let waiting = mem::take(&mut self.waiting);
        self.waiting_bytes = 0;
        let asked = || waiting.iter().flat_map(|of| of.calls.iter().map(move |asked| (of, asked)));
        let found = ask_core(asked().map(|(of, asked)| (&of.file[..], &asked.call)));
        for (found, (of, asked)) in found.iter().zip(asked()) {
            self.compare(&of.label, found, asked);
        }
    }

    fn compare(&mut self, label: &str, found: &Outcome, Asked { call, expected, stated }: &Asked) {
        let answer = (expected.answer.number, expected.answer.detail);
        let as_stated = stated.is_none_or(|stated| stated == answer);
        if found != expected || !as_stated || !expected.is_whole(call) {
            let (core, reference) = (Shown(found, expected, call), Shown(expected, found, call));
            let both = format!("core {core}; reference {reference}");
            self.differs(&format!("{label}: {call:?}: {both}; stated {stated:?}"));
        }
    }

    /// Counts a difference, and prints it if it is one of the first.
    pub fn differs(&mut self, line: &str) {
        self.differences += 1;
        if self.differences <= PRINTED {
            println!("{line}");
        }
    }

    /// How many differences there are; no call waits any longer.
    pub fn differences(&mut self) -> u64 {
        self.settle();
        self.differences
    }

    pub fn calls(&self) -> u64 {
        self.met.iter().flat_map(BTreeMap::values).sum()
    }

    fn count(&self, call: usize, number: u32) -> u64 {
        self.met[call].iter().filter(|((n, _), _)| *n == number).map(|(_, count)| count).sum()
    }

    /// A line for each call: how often it answered each number.
    pub fn print_numbers(&self) {
        let line = |name: &str, cells: Vec<String>| {
            let cells: String = cells.iter().map(|cell| format!("{cell:>7}")).collect();
            println!("{name:<14}{cells}");
        };
        line("number", (0..=15).map(|number: u32| number.to_string()).collect());
        for (call, name) in NAMES.into_iter().enumerate() {
            let cell = |number| match self.count(call, number) {
                0 if number > GREATEST_NUMBER[call] => "-".into(),
                count => count.to_string(),
            };
            line(name, (0..=15).map(cell).collect());
        }
    }

    /// The numbers that a call can answer and has not.
    pub fn missing_numbers(&self) -> Vec<(&'static str, u32)> {
        let all = (0..CALLS).flat_map(|call| (0..=GREATEST_NUMBER[call]).map(move |number| (call, number)));
        all.filter(|(call, number)| self.count(*call, *number) == 0)
            .map(|(call, number)| (NAMES[call], number))
            .collect()
    }

    /// Of these answers those that the call has not given.
    pub fn missing(&self, call: usize, answers: &[Stated]) -> Vec<(&'static str, Stated)> {
        let unmet = answers.iter().filter(|answer| !self.met[call].contains_key(answer));
        unmet.map(|answer| (NAMES[call], *answer)).collect()
    }
}
