//! Calls as data, and their answers as lines of text to compare.

use std::array;

use crate::answer::{Answer, Chain};
use crate::calls::{card, chain, colour_window, half_window, spot, table_window, window};

/// One question about a file. A window's slice is given by its length, and so are
/// the five of a chain: places, ids, before, after, skipped. A half window counts
/// in blocks.
#[derive(Clone, Copy, Debug, PartialEq, Eq)]
pub enum Call {
    Card,
    Window { top: u64, left: u64, height: u64, width: u64, slice: usize },
    Spot { row: u64, column: u64, plane: u64 },
    ColourWindow { top: u64, left: u64, height: u64, width: u64, slice: usize },
    HalfWindow { top: u64, left: u64, height: u64, width: u64, slice: usize },
    Chain { row: u64, column: u64, plane: u64, slices: [usize; SLICES] },
    TableWindow { top: u64, left: u64, height: u64, width: u64, slice: usize },
}

/// The slices of a chain.
pub const SLICES: usize = 5;

impl Call {
    /// Reads a call as `answer_line` writes it, before the arrow.
    pub fn parse(words: &[&str]) -> Option<Call> {
        let (name, arguments) = words.split_first()?;
        let arguments: Vec<u64> = arguments.iter().map(|word| word.parse().ok()).collect::<Option<_>>()?;
        match (*name, &arguments[..]) {
            ("card", []) => Some(Call::Card),
            ("spot", &[row, column, plane]) => Some(Call::Spot { row, column, plane }),
            ("window", &[top, left, height, width, slice]) => {
                Some(Call::Window { top, left, height, width, slice: slice as usize })
            }
            ("colour_window", &[top, left, height, width, slice]) => {
                Some(Call::ColourWindow { top, left, height, width, slice: slice as usize })
            }
            ("half_window", &[top, left, height, width, slice]) => {
                Some(Call::HalfWindow { top, left, height, width, slice: slice as usize })
            }
            ("table_window", &[top, left, height, width, slice]) => {
                Some(Call::TableWindow { top, left, height, width, slice: slice as usize })
            }
            ("chain", &[row, column, plane, ref slices @ ..]) => {
                let slices = <[u64; SLICES]>::try_from(slices).ok()?.map(|length| length as usize);
                Some(Call::Chain { row, column, plane, slices })
            }
            _ => None,
        }
    }
}

/// Stands in every place of a window's slice before the call.
pub const UNTOUCHED: f64 = -2.5;

/// Stands at a place of one of a chain's slices before the call, another one at
/// every place: as an f64 a NaN, as a whole number none that a list can have.
pub fn untouched(slice: usize, place: usize) -> u64 {
    0x7FF8_5A5A_0000_0000 | (slice as u64) << 24 | place as u64
}

/// The chain of a spot, with the five slices that it is lent.
pub type ChainCall =
    fn(&[u8], u64, u64, u64, &mut [u64], &mut [u64], &mut [f64], &mut [f64], &mut [u64]) -> Chain;

/// A chain, and the bits of the five slices after the call, each with its margin.
#[derive(Clone, Debug, PartialEq)]
pub struct AskedChain {
    pub chain: Chain,
    pub slices: [Vec<u64>; SLICES],
}

/// Asks for a chain with slices of these lengths; of each, so many places on both
/// sides are not lent.
pub fn ask_chain(
    call: ChainCall,
    file: &[u8],
    [row, column, plane]: [u64; 3],
    lengths: [usize; SLICES],
    margin: usize,
) -> AskedChain {
    let mut slices: [Vec<u64>; SLICES] = array::from_fn(|slice| {
        (0..lengths[slice] + 2 * margin).map(|place| untouched(slice, place)).collect()
    });
    let [places, ids, before, after, skipped] = &mut slices;
    let [mut reals_before, mut reals_after] =
        [&*before, &*after].map(|bits| bits.iter().copied().map(f64::from_bits).collect::<Vec<f64>>());
    let lent = |slice: usize| margin..margin + lengths[slice];
    let chain = call(
        file,
        row,
        column,
        plane,
        &mut places[lent(0)],
        &mut ids[lent(1)],
        &mut reals_before[lent(2)],
        &mut reals_after[lent(3)],
        &mut skipped[lent(4)],
    );
    *before = reals_before.into_iter().map(f64::to_bits).collect();
    *after = reals_after.into_iter().map(f64::to_bits).collect();
    AskedChain { chain, slices }
}

/// The call and its arguments, `->`, the number and detail, then the card's
/// counts and its crop's left, top, columns and rows, or the spot's or the whole
/// slice's values as 16 hex digits each. Of a chain the value comes first, then the
/// ten numbers, then the slices, each behind a bar; a place that is as it was is
/// a `-`.
pub fn answer_line(file: &[u8], call: &Call) -> String {
    match *call {
        Call::Card => {
            let c = card(file);
            let counts = [c.rows, c.columns, c.samples, c.kept, c.skipped];
            let numbers = counts.into_iter().chain(c.crop.numbers());
            format!("card -> {} {} {}", c.number, c.detail, join(numbers))
        }
        Call::Spot { row, column, plane } => {
            let (answer, value) = spot(file, row, column, plane);
            let question = format!("spot {row} {column} {plane}");
            format!("{question} -> {} {} {}", answer.number, answer.detail, hex(&[value]))
        }
        Call::Window { top, left, height, width, slice } => {
            window_line("window", window, file, [top, left, height, width], slice)
        }
        Call::ColourWindow { top, left, height, width, slice } => {
            window_line("colour_window", colour_window, file, [top, left, height, width], slice)
        }
        Call::HalfWindow { top, left, height, width, slice } => {
            window_line("half_window", half_window, file, [top, left, height, width], slice)
        }
        Call::TableWindow { top, left, height, width, slice } => {
            window_line("table_window", table_window, file, [top, left, height, width], slice)
        }
        Call::Chain { row, column, plane, slices } => chain_line(file, [row, column, plane], slices),
    }
}

fn chain_line(file: &[u8], spot: [u64; 3], lengths: [usize; SLICES]) -> String {
    let AskedChain { chain, slices } = ask_chain(chain, file, spot, lengths, 0);
    let question = format!("chain {} {}", join(spot), join(lengths));
    let numbers = format!("{} {} {}", join(chain.level.numbers()), chain.covering, chain.skipped);
    let slices = slices.iter().enumerate().map(|(slice, bits)| {
        let words = bits.iter().enumerate().map(|(place, bits)| match *bits {
            bits if bits == untouched(slice, place) => "-".into(),
            bits if [2, 3].contains(&slice) => format!("{bits:016x}"),
            number => number.to_string(),
        });
        join(["|".into()].into_iter().chain(words))
    });
    let answer = format!("{} {} {}", chain.number, chain.detail, hex(&[chain.value]));
    format!("{question} -> {answer} {numbers} {}", join(slices))
}

/// A window of any kind.
type Window = fn(&[u8], u64, u64, u64, u64, &mut [f64]) -> Answer;

fn window_line(name: &str, call: Window, file: &[u8], rectangle: [u64; 4], slice: usize) -> String {
    let [top, left, height, width] = rectangle;
    let mut out = vec![UNTOUCHED; slice];
    let answer = call(file, top, left, height, width, &mut out);
    let question = format!("{name} {top} {left} {height} {width} {slice}");
    format!("{question} -> {} {} {}", answer.number, answer.detail, hex(&out))
}

fn hex(values: &[f64]) -> String {
    join(values.iter().map(|v| format!("{:016x}", v.to_bits())))
}

fn join<T: ToString>(words: impl IntoIterator<Item = T>) -> String {
    let words: Vec<String> = words.into_iter().map(|w| w.to_string()).collect();
    words.join(" ")
}

/// FNV-1a, a plain 64-bit hash for fingerprints of files and answers.
#[derive(Clone, Copy, Debug, PartialEq, Eq)]
pub struct Fingerprint(pub u64);

impl Fingerprint {
    pub fn new() -> Fingerprint {
        Fingerprint(0xCBF2_9CE4_8422_2325)
    }

    pub fn add(&mut self, bytes: &[u8]) {
        for byte in bytes {
            self.0 = (self.0 ^ u64::from(*byte)).wrapping_mul(0x0000_0100_0000_01B3);
        }
    }

    pub fn of(bytes: &[u8]) -> Fingerprint {
        let mut fingerprint = Fingerprint::new();
        fingerprint.add(bytes);
        fingerprint
    }
}

impl Default for Fingerprint {
    fn default() -> Fingerprint {
        Fingerprint::new()
    }
}
