//! Shared by the tests: small files and short questions about them.
#![allow(dead_code)]

use reference::builder::{Dng, Picture, Tag};
use reference::bytes::{ByteOrder, LAYOUTS};
use reference::{card, colour_window, half_window, spot, window, Answer};

pub const BOTH: [ByteOrder; 2] = [ByteOrder::Little, ByteOrder::Big];

pub use reference::cases::UNTOUCHED;

pub fn mosaic(width: u32, length: u32) -> Dng {
    Dng::new(ByteOrder::Little, &Picture::counting(width, length, 1, 8))
}

pub fn linear(width: u32, length: u32) -> Dng {
    Dng::new(ByteOrder::Big, &Picture::counting(width, length, 3, 16))
}

/// A mosaic of one row of 16-bit samples.
pub fn row_of(stored: &[u16]) -> Dng {
    Dng::new(ByteOrder::Big, &Picture::row(16, stored))
}

pub fn refusal(number: u32, detail: u32) -> Answer {
    Answer { number, detail }
}

pub const DONE: Answer = Answer::DONE;

/// The card's answer, which is the other calls' answer to the file too.
pub fn answer_to(file: &[u8]) -> Answer {
    card(file).answer()
}

pub fn answer(dng: &Dng) -> Answer {
    answer_to(&dng.file())
}

/// The whole active frame through the window call.
pub fn frame_of(file: &[u8]) -> Vec<f64> {
    let card = card(file);
    assert_eq!(card.answer(), DONE);
    let mut out = vec![UNTOUCHED; (card.rows * card.columns * card.samples) as usize];
    assert_eq!(window(file, 0, 0, card.rows, card.columns, &mut out), DONE);
    out
}

pub fn frame(dng: &Dng) -> Vec<f64> {
    frame_of(&dng.file())
}

/// The whole frame before the last division; the file must have no opcode.
pub fn levels(dng: &Dng) -> Vec<u32> {
    frame(dng).into_iter().map(|x| (x * 65535.0).round() as u32).collect()
}

/// L for whole numbers in 256ths, found by search: the greatest L whose
/// lower half-step is not above 65535 D / S.
pub fn level_by_search(d: i64, s: i64) -> u32 {
    let (d, s) = (i128::from(d), i128::from(s));
    let (mut low, mut high) = (0i128, 65_535i128);
    while low < high {
        let middle = (low + high + 1) / 2;
        if (2 * middle - 1) * s <= 2 * 65_535 * d {
            low = middle;
        } else {
            high = middle - 1;
        }
    }
    low as u32
}

/// The colour of the whole active frame.
pub fn colours(dng: &Dng) -> Vec<f64> {
    let file = dng.file();
    let card = card(&file);
    let mut out = vec![UNTOUCHED; (card.rows * card.columns * 3) as usize];
    assert_eq!(colour_window(&file, 0, 0, card.rows, card.columns, &mut out), DONE);
    out
}

/// The answer of a colour window over the first pixel.
pub fn colour_answer(dng: &Dng) -> Answer {
    colour_window(&dng.file(), 0, 0, 1, 1, &mut [UNTOUCHED; 3])
}

/// The half-size colour of all blocks.
pub fn halves(dng: &Dng) -> Vec<f64> {
    let file = dng.file();
    let card = card(&file);
    let (height, width) = (card.rows / 2, card.columns / 2);
    let mut out = vec![UNTOUCHED; (height * width * 3) as usize];
    assert_eq!(half_window(&file, 0, 0, height, width, &mut out), DONE);
    out
}

/// The answer of a half window over the first block.
pub fn half_answer(dng: &Dng) -> Answer {
    half_window(&dng.file(), 0, 0, 1, 1, &mut [UNTOUCHED; 3])
}

pub fn spot_value(file: &[u8], row: u64, column: u64, plane: u64) -> f64 {
    let (answer, value) = spot(file, row, column, plane);
    assert_eq!(answer, DONE);
    value
}

pub fn bits(values: &[f64]) -> Vec<u64> {
    values.iter().map(|v| v.to_bits()).collect()
}

/// The file as it is described answers so.
#[track_caller]
pub fn answers(dng: &Dng, expected: Answer) {
    assert_eq!(answer(dng), expected, "{:?}", dng.widths);
}

/// Accepted in both layouts.
#[track_caller]
pub fn accepts(dng: &Dng) {
    refuses(dng, 0, 0);
}

/// Refused in both layouts, by the same number and detail.
#[track_caller]
pub fn refuses(dng: &Dng, number: u32, detail: u32) {
    for widths in LAYOUTS {
        answers(&Dng { widths, ..dng.clone() }, refusal(number, detail));
    }
}

/// The file with some bytes changed.
pub fn poked(file: &[u8], place: usize, bytes: &[u8]) -> Vec<u8> {
    let mut file = file.to_vec();
    file[place..place + bytes.len()].copy_from_slice(bytes);
    file
}

/// Row by row of a block: red 0, green 1, blue 2.
pub const PATTERN: [u8; 4] = [0, 1, 1, 2];

/// X, Y and Z are the three values themselves.
pub const IDENTITY: [(i32, i32); 9] =
    [(1, 1), (0, 1), (0, 1), (0, 1), (1, 1), (0, 1), (0, 1), (0, 1), (1, 1)];

/// Colour tags that change nothing, and a pattern.
pub fn with_pattern_and_colour(dng: Dng, pattern: [u8; 4]) -> Dng {
    dng.with(Tag::shorts(33421, &[2, 2]))
        .with(Tag::bytes(33422, &pattern))
        .with_first(Tag::srationals(50964, &IDENTITY))
        .with_first(Tag::shorts(50728, &[1, 1, 1]))
}

/// 8-bit samples that count up from 0, so that each is known by its value.
pub fn counting_mosaic(width: u32, length: u32) -> Dng {
    with_pattern_and_colour(mosaic(width, length), PATTERN)
}

#[track_caller]
pub fn half_refuses(dng: &Dng, number: u32, detail: u32) {
    for widths in LAYOUTS {
        assert_eq!(half_answer(&Dng { widths, ..dng.clone() }), refusal(number, detail), "{widths:?}");
    }
}

#[track_caller]
pub fn half_accepts(dng: &Dng) {
    half_refuses(dng, 0, 0);
}

/// The answer, and whether the slice is as it was.
pub fn ask_half(file: &[u8], [top, left, height, width]: [u64; 4], slice: usize) -> (Answer, bool) {
    let mut out = vec![UNTOUCHED; slice];
    let answer = half_window(file, top, left, height, width, &mut out);
    (answer, out.iter().all(|v| *v == UNTOUCHED))
}

/// `colour_window` or `half_window`.
pub type WindowCall = fn(&[u8], u64, u64, u64, u64, &mut [f64]) -> Answer;

/// A window over the first pixel or block of a file, with its arguments.
#[derive(Clone)]
pub struct Question {
    pub call: WindowCall,
    pub dng: Dng,
    pub height: u64,
    pub slice: usize,
}

/// A change that makes a question faulty.
pub type Fault = Box<dyn Fn(&mut Question)>;

impl Question {
    pub fn new(call: WindowCall, dng: Dng) -> Question {
        Question { call, dng, height: 1, slice: 3 }
    }

    pub fn set_first(&mut self, tag: Tag) {
        self.dng.first_ifd().set(tag);
    }

    pub fn set_raw(&mut self, tag: Tag) {
        self.dng.raw_ifd().set(tag);
    }

    /// The same with these changes, made in turn.
    pub fn changed(&self, changes: &[&dyn Fn(&mut Question)]) -> Question {
        let mut question = self.clone();
        changes.iter().for_each(|change| change(&mut question));
        question
    }

    /// The answer in the 32-bit layout, which is that in the 64-bit one.
    pub fn answer(&self) -> Answer {
        let [narrow, wide] = LAYOUTS.map(|widths| {
            let file = Dng { widths, ..self.dng.clone() }.file();
            (self.call)(&file, 0, 0, self.height, 1, &mut vec![UNTOUCHED; self.slice])
        });
        assert_eq!(narrow, wide);
        narrow
    }
}

/// Each fault alone gives its refusal.
#[track_caller]
pub fn each_alone_answers(good: &Question, faults: &[Vec<(Answer, Fault)>]) {
    for (expected, fault) in faults.iter().flatten() {
        assert_eq!(good.changed(&[fault]).answer(), *expected);
    }
}

/// Of two faults, each of another inner list, the first answers.
#[track_caller]
pub fn first_of_two_answers(good: &Question, faults: &[Vec<(Answer, Fault)>]) {
    for (i, earlier) in faults.iter().enumerate() {
        for (expected, first) in earlier {
            for (other, second) in faults[i + 1..].iter().flatten() {
                let two = good.changed(&[second, first]);
                assert_eq!(two.answer(), *expected, "beside {other:?}");
            }
        }
    }
}
