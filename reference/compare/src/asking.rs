//! One call, put to the core or to the independent program, with all that can
//! be seen of its answer.

use std::{fmt, panic, thread};

use reference::cases::{self, ask_chain, AskedChain, Call, ChainCall, SLICES};
use reference::{Answer, Card, Chain};

use crate::core;

type Window = fn(&[u8], u64, u64, u64, u64, &mut [f64]) -> Answer;

/// The calls of one of the two programs.
pub struct Program {
    card: fn(&[u8]) -> Card,
    window: Window,
    spot: fn(&[u8], u64, u64, u64) -> (Answer, f64),
    colour_window: Window,
    half_window: Window,
    chain: ChainCall,
    table_window: Window,
}

const CORE: Program = Program {
    card: core::card,
    window: core::window,
    spot: core::spot,
    colour_window: core::colour_window,
    half_window: core::half_window,
    chain: core::chain,
    table_window: core::table_window,
};

pub const REFERENCE: Program = Program {
    card: reference::card,
    window: reference::window,
    spot: reference::spot,
    colour_window: reference::colour_window,
    half_window: reference::half_window,
    chain: reference::chain,
    table_window: reference::table_window,
};

/// The stack of the thread that asks the core. A call of the core may use 64 KiB
/// of it; the rest is for the thread itself and for `Program::ask`.
const CORE_STACK: usize = 96 * 1024;

/// What the core answers to calls, each of its own file. All of them run in one
/// thread with that stack: a call that needs more ends the program.
pub fn ask_core<'a>(calls: impl Iterator<Item = (&'a [u8], &'a Call)> + Send) -> Vec<Outcome> {
    thread::scope(|scope| {
        let ask_all = || calls.map(|(file, call)| CORE.ask(file, call)).collect();
        let asking = thread::Builder::new().stack_size(CORE_STACK).spawn_scoped(scope, ask_all);
        asking.expect("a thread starts").join().unwrap_or_else(|panicked| panic::resume_unwind(panicked))
    })
}

/// Places on both sides of a lent slice, which no call may write.
const MARGIN: usize = 3;

/// What stands at a place of a window's slice and of its margins before the call:
/// a NaN, which no call can answer, and another one at every place. A chain's have
/// `cases::untouched`.
fn untouched(place: usize) -> u64 {
    0x7FF8_5A5A_0000_0000 | place as u64
}

/// Number and detail; then the card's five counts and its crop (left, top, columns,
/// rows), the bits of the spot, or those of the slice with its margins. Of a chain
/// the bits of the value, the ten numbers, and the five slices with their margins.
#[derive(Clone, Debug, PartialEq, Eq)]
pub struct Outcome {
    pub answer: Answer,
    pub bits: Vec<u64>,
}

impl Program {
    pub fn ask(&self, file: &[u8], call: &Call) -> Outcome {
        match *call {
            Call::Card => {
                let card = (self.card)(file);
                let Card { rows, columns, samples, kept, skipped, .. } = card;
                let counts = [rows, columns, samples, kept, skipped];
                Outcome { answer: card.answer(), bits: [&counts[..], &card.crop.numbers()].concat() }
            }
            Call::Spot { row, column, plane } => {
                let (answer, value) = (self.spot)(file, row, column, plane);
                Outcome { answer, bits: vec![value.to_bits()] }
            }
            Call::Window { top, left, height, width, slice } => {
                lend(slice, |out| (self.window)(file, top, left, height, width, out))
            }
            Call::ColourWindow { top, left, height, width, slice } => {
                lend(slice, |out| (self.colour_window)(file, top, left, height, width, out))
            }
            Call::HalfWindow { top, left, height, width, slice } => {
                lend(slice, |out| (self.half_window)(file, top, left, height, width, out))
            }
            Call::TableWindow { top, left, height, width, slice } => {
                lend(slice, |out| (self.table_window)(file, top, left, height, width, out))
            }
            Call::Chain { row, column, plane, slices } => {
                of_chain(ask_chain(self.chain, file, [row, column, plane], slices, MARGIN))
            }
        }
    }
}

/// The value of a chain and its ten numbers stand before its slices.
const HEAD: usize = 11;
/// Where the counts of covering and of skipped opcodes stand.
const COUNTS: [usize; 2] = [9, 10];

fn of_chain(AskedChain { chain, slices }: AskedChain) -> Outcome {
    let Chain { value, level, covering, skipped, .. } = chain;
    let mut bits = vec![value.to_bits()];
    bits.extend(level.numbers().map(|number| number as u64));
    bits.extend([covering, skipped]);
    bits.extend(slices.concat());
    Outcome { answer: chain.answer(), bits }
}

/// Where each slice of a chain, with its margins, begins among the bits.
fn starts(lengths: [usize; SLICES]) -> [usize; SLICES] {
    let mut next = HEAD;
    lengths.map(|length| {
        let start = next;
        next += length + 2 * MARGIN;
        start
    })
}

fn lend(slice: usize, call: impl FnOnce(&mut [f64]) -> Answer) -> Outcome {
    let mut lent: Vec<f64> = (0..slice + 2 * MARGIN).map(|i| f64::from_bits(untouched(i))).collect();
    let answer = call(&mut lent[MARGIN..MARGIN + slice]);
    Outcome { answer, bits: lent.into_iter().map(f64::to_bits).collect() }
}

impl Outcome {
    /// "a refused card holds five zeros", and four more of the crop; "a refused spot +0.0; a refused window
    /// or colour window leaves its slice untouched", and so do half and table windows;
    /// an accepted one writes every place of its slice and no other. A refused chain
    /// has zeros; an accepted one writes the first places of its slices, as many as
    /// its counts say, and no others.
    pub fn is_whole(&self, call: &Call) -> bool {
        let done = self.answer == Answer::DONE;
        match *call {
            Call::Card | Call::Spot { .. } => done || self.bits.iter().all(|bits| *bits == 0),
            Call::Window { slice, .. }
            | Call::ColourWindow { slice, .. }
            | Call::HalfWindow { slice, .. }
            | Call::TableWindow { slice, .. } => {
                let in_slice = |i: &usize| (MARGIN..MARGIN + slice).contains(i);
                let stays = |(i, bits): (usize, &u64)| (*bits == untouched(i)) != (done && in_slice(&i));
                self.bits.iter().enumerate().all(stays)
            }
            Call::Chain { slices, .. } => {
                let zeros = self.bits[..HEAD].iter().all(|bits| *bits == 0);
                (done || zeros) && (0..SLICES).all(|slice| self.is_slice_whole(slices, slice))
            }
        }
    }

    /// Has a slice of a chain been written at its first places alone?
    fn is_slice_whole(&self, lengths: [usize; SLICES], slice: usize) -> bool {
        let start = starts(lengths)[slice];
        let count = self.bits[COUNTS[usize::from(slice == SLICES - 1)]];
        let written = |i: &usize| *i >= MARGIN && ((*i - MARGIN) as u64) < count;
        let bits = self.bits[start..start + lengths[slice] + 2 * MARGIN].iter().enumerate();
        let stays = |(i, bits): (usize, &u64)| (*bits == cases::untouched(slice, i)) != written(&i);
        count <= lengths[slice] as u64 && bits.into_iter().all(stays)
    }

    /// What an accepted chain says: its ten numbers, of each covering opcode place,
    /// id, before and after, and the skipped places.
    pub fn told(&self, lengths: [usize; SLICES]) -> (Vec<i64>, Vec<[u64; 4]>, Vec<u64>) {
        let numbers = self.bits[1..HEAD].iter().map(|bits| *bits as i64).collect();
        let [covering, skipped] = COUNTS.map(|at| self.bits[at]);
        let at = starts(lengths).map(|start| start + MARGIN);
        let link = |i: u64| [0, 1, 2, 3].map(|slice: usize| self.bits[at[slice] + i as usize]);
        let links = (0..covering.min(lengths[0] as u64)).map(link).collect();
        let skipped = skipped.min(lengths[4] as u64) as usize;
        (numbers, links, self.bits[at[4]..at[4] + skipped].to_vec())
    }

    /// The values of an accepted spot or window of any kind; of a chain the spot's.
    pub fn values(&self, call: &Call) -> &[u64] {
        match *call {
            _ if self.answer != Answer::DONE => &[],
            Call::Card => &[],
            Call::Spot { .. } => &self.bits,
            Call::Chain { .. } => &self.bits[..1],
            Call::Window { slice, .. }
            | Call::ColourWindow { slice, .. }
            | Call::HalfWindow { slice, .. }
            | Call::TableWindow { slice, .. } => &self.bits[MARGIN..MARGIN + slice],
        }
    }
}

/// The answer, and of the bits the first that another outcome has not. A place
/// below 0 or past the slice's last is one of its margin.
pub struct Shown<'a>(pub &'a Outcome, pub &'a Outcome, pub &'a Call);

impl fmt::Display for Shown<'_> {
    fn fmt(&self, f: &mut fmt::Formatter) -> fmt::Result {
        let Shown(one, other, call) = self;
        write!(f, "{} {}", one.answer.number, one.answer.detail)?;
        let Some(i) = one.bits.iter().zip(&other.bits).position(|(a, b)| a != b) else {
            return Ok(());
        };
        let (name, place) = match **call {
            Call::Card | Call::Spot { .. } => ("place", i as i64),
            Call::Window { .. }
            | Call::ColourWindow { .. }
            | Call::HalfWindow { .. }
            | Call::TableWindow { .. } => ("place", i as i64 - MARGIN as i64),
            Call::Chain { slices, .. } => place_in_chain(i, slices),
        };
        write!(f, " with {:016x} at {name} {place}", one.bits[i])
    }
}

/// What stands at one of a chain's bits: the value at 0, a number from 0, or a place
/// of a slice.
fn place_in_chain(i: usize, lengths: [usize; SLICES]) -> (&'static str, i64) {
    match starts(lengths).iter().rposition(|start| *start <= i) {
        _ if i == 0 => ("value", 0),
        None => ("number", i as i64 - 1),
        Some(slice) => {
            let names = ["places", "ids", "before", "after", "skipped"];
            (names[slice], i as i64 - (starts(lengths)[slice] + MARGIN) as i64)
        }
    }
}
