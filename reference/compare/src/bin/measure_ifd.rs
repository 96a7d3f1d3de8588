//! `measure_ifd`: how long the core takes over an IFD of 50,000 entries, as
//! ratios to the same tests written here and timed in the same run. Run by
//! hand, in a release build.

use std::hint::black_box;

use compare::core;
use compare::times::{print_ratio, Times};
use reference::builder::{Dng, Ifd, Picture, Tag};
use reference::bytes::{ByteOrder, Widths, LAYOUTS};

const ENTRIES: u16 = 50_000;
const CALLS: usize = 10;
const REPETITIONS: usize = 31;

/// By the type's number.
const SIZES: [u8; 19] = [0, 1, 1, 2, 4, 8, 1, 1, 2, 4, 8, 4, 8, 4, 0, 0, 8, 8, 8];

/// Where the value of an entry stands.
#[derive(Clone, Copy)]
enum Values {
    InEntries,
    Elsewhere,
    /// One or the other, at random.
    Mixed,
}

/// A file with one IFD of tags that no call reads, in order or with the last
/// one out of it.
fn file(order: ByteOrder, widths: Widths, values: Values, in_order: bool) -> Vec<u8> {
    let mut state = 1u32;
    let mut tag = |tag: u16| {
        state = state.wrapping_mul(1_103_515_245).wrapping_add(12_345);
        let elsewhere = match values {
            Values::InEntries => false,
            Values::Elsewhere => true,
            Values::Mixed => state & 0x1_0000 != 0,
        };
        Tag::bytes(tag, &[0; 12][..if elsewhere { 12 } else { 2 }])
    };
    let mut tags: Vec<Tag> = (1..ENTRIES).map(&mut tag).collect();
    tags.push(tag(if in_order { ENTRIES } else { 0 }));
    let picture = Picture { width: 1, length: 1, samples: 1, bits: 8, rows_per_strip: 1, stored: Vec::new() };
    let ifds = vec![Ifd { tags, count: None, next: 0, as_listed: true }];
    Dng { widths, ifds, blocks: Vec::new(), ..Dng::new(order, &picture) }.file()
}

#[inline(always)]
fn number(file: &[u8], order: ByteOrder, at: usize, width: u64) -> u64 {
    macro_rules! number {
        ($type:ty, $bytes:expr) => {{
            let bytes = file[at..at + $bytes].try_into().expect("as many bytes");
            match order {
                ByteOrder::Little => <$type>::from_le_bytes(bytes).into(),
                ByteOrder::Big => <$type>::from_be_bytes(bytes).into(),
            }
        }};
    }
    match width {
        2 => number!(u16, 2),
        4 => number!(u32, 4),
        _ => number!(u64, 8),
    }
}

/// 3 if some value lies outside the file or the tags don't ascend strictly,
/// else 5 if 50706 is absent.
#[inline(never)]
fn tested(file: &[u8], order: ByteOrder, widths: Widths) -> u64 {
    let Widths { header, entries, word } = widths;
    let ifd = number(file, order, (header - word) as usize, word) as usize;
    let count = number(file, order, ifd, entries) as usize;
    let (first, step) = (ifd + entries as usize, widths.entry() as usize);
    let types = if widths == Widths::BITS_64 { 18 } else { 13 };
    let mut low = 0;
    for i in 0..count {
        let at = first + step * i;
        let (tag, kind) = (number(file, order, at, 2), number(file, order, at + 2, 2));
        let size = if kind <= types { SIZES[kind as usize] } else { 0 };
        let bytes = number(file, order, at + 4, word).saturating_mul(size.into());
        if bytes > word {
            let place = number(file, order, at + 4 + word as usize, word);
            if place.saturating_add(bytes) > file.len() as u64 {
                return 3;
            }
        }
        if tag < low {
            return 3;
        }
        low = tag + 1;
    }
    let found = (0..count).any(|i| number(file, order, first + step * i, 2) == 50706);
    if found {
        0
    } else {
        5
    }
}

fn compare(order: ByteOrder, widths: Widths, values: Values, in_order: bool, name: &str) {
    let file = file(order, widths, values, in_order);
    let expected = if in_order { 5 } else { 3 };
    let (mut ours, mut rust) = (Times::default(), Times::default());
    for _ in 0..REPETITIONS {
        rust.run(|| (0..CALLS).for_each(|_| assert_eq!(tested(black_box(&file), order, widths), expected)));
        ours.run(|| {
            (0..CALLS).for_each(|_| assert_eq!(u64::from(core::card(black_box(&file)).number), expected))
        });
    }
    print_ratio(name, &ours, &rust, "the same tests in Rust");
}

fn main() {
    println!("an IFD of {ENTRIES} entries, {CALLS} calls, {REPETITIONS} repetitions; time: the best");
    let kinds =
        [(Values::InEntries, "in entries"), (Values::Elsewhere, "elsewhere"), (Values::Mixed, "mixed")];
    for (order, widths) in
        [ByteOrder::Little, ByteOrder::Big].into_iter().flat_map(|o| LAYOUTS.map(|w| (o, w)))
    {
        for (values, place) in kinds {
            let layout = format!("{} bits, {order:?}, values {place}", 8 * widths.word);
            compare(order, widths, values, false, &format!("{layout}: shape"));
            compare(order, widths, values, true, &format!("{layout}: and 50706"));
        }
    }
}
