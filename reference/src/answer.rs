//! "Each answer carries a number and a detail."

/// What every call gives back: 0 and 0 when done, or a refusal.
#[derive(Clone, Copy, Debug, PartialEq, Eq, Hash, PartialOrd, Ord)]
pub struct Answer {
    pub number: u32,
    pub detail: u32,
}

/// The card: the answer, then the five counts, then the crop.
#[derive(Clone, Copy, Debug, PartialEq, Eq)]
pub struct Card {
    pub number: u32,
    pub detail: u32,
    pub rows: u64,
    pub columns: u64,
    pub samples: u64,
    pub kept: u64,
    pub skipped: u64,
    pub crop: Crop,
}

/// The crop (document 02, T-03), in active rows and columns from the active
/// corner: where it begins, and how many of them it has.
#[derive(Clone, Copy, Debug, Default, PartialEq, Eq)]
pub struct Crop {
    pub left: u64,
    pub top: u64,
    pub columns: u64,
    pub rows: u64,
}

/// The chain behind a spot (document 02, T-06): the answer, the spot's value, the
/// eight numbers of its level, and how many opcodes cover the spot and how many of
/// the list are skipped.
#[derive(Clone, Copy, Debug, PartialEq)]
pub struct Chain {
    pub number: u32,
    pub detail: u32,
    pub value: f64,
    pub level: LevelNumbers,
    pub covering: u64,
    pub skipped: u64,
}

/// "stored sample, table value, cell's black, column delta, row delta, B, M, L";
/// all but the first two and the last are in 256ths, with their sign.
#[derive(Clone, Copy, Debug, Default, PartialEq, Eq)]
pub struct LevelNumbers {
    pub stored: i64,
    pub table: i64,
    pub cell: i64,
    pub column_delta: i64,
    pub row_delta: i64,
    pub black: i64,
    pub greatest_black: i64,
    pub level: i64,
}

impl Answer {
    pub const DONE: Answer = Answer { number: 0, detail: 0 };
    pub const FILE_SIZE: Answer = Answer::plain(1);
    pub const FIRST_BYTES: Answer = Answer::plain(2);
    pub const SHAPE: Answer = Answer::plain(3);
    pub const TREE: Answer = Answer::plain(6);
    pub const VERSION: Answer = Answer::plain(7);
    pub const WHITE: Answer = Answer::plain(9);
    pub const TOO_MANY_OPCODES: Answer = Answer { number: 11, detail: 32 };
    pub const OUTSIDE: Answer = Answer::plain(13);
    pub const SLICE: Answer = Answer::plain(14);
    /// "colour asked of a mosaic"; half-size colour asked of LinearRaw.
    pub const OTHER_KIND: Answer = Answer::plain(15);

    const fn plain(number: u32) -> Answer {
        Answer { number, detail: 0 }
    }

    /// "a tag read has a wrong type, count or value"
    pub fn wrong(tag: u16) -> Answer {
        Answer { number: 4, detail: tag.into() }
    }

    /// "a required tag is absent"
    pub fn absent(tag: u16) -> Answer {
        Answer { number: 5, detail: tag.into() }
    }

    /// "legal but not carried"
    pub fn not_carried(tag: u16) -> Answer {
        Answer { number: 8, detail: tag.into() }
    }

    /// "correction malformed"
    pub fn malformed(place: u32) -> Answer {
        Answer { number: 10, detail: place }
    }

    /// "compulsory correction not carried"
    pub fn compulsory(place: u32) -> Answer {
        Answer { number: 11, detail: place }
    }

    /// "12 narrows to infinite and NaN" (document 02, T-07).
    pub fn bad_number(place: u32) -> Answer {
        Answer { number: 12, detail: place }
    }
}

impl Card {
    /// "A refused card holds five zeros", and of the crop "has zeros here too".
    pub fn refused(answer: Answer) -> Card {
        Card {
            number: answer.number,
            detail: answer.detail,
            rows: 0,
            columns: 0,
            samples: 0,
            kept: 0,
            skipped: 0,
            crop: Crop::default(),
        }
    }

    pub fn answer(&self) -> Answer {
        Answer { number: self.number, detail: self.detail }
    }
}

impl Chain {
    /// "a refusal returns zeros"
    pub fn refused(answer: Answer) -> Chain {
        Chain {
            number: answer.number,
            detail: answer.detail,
            value: 0.0,
            level: LevelNumbers::default(),
            covering: 0,
            skipped: 0,
        }
    }

    pub fn answer(&self) -> Answer {
        Answer { number: self.number, detail: self.detail }
    }
}

impl LevelNumbers {
    /// In the document's order.
    pub fn numbers(&self) -> [i64; 8] {
        let LevelNumbers { stored, table, cell, column_delta, row_delta, black, greatest_black, level } =
            *self;
        [stored, table, cell, column_delta, row_delta, black, greatest_black, level]
    }
}

impl Crop {
    /// In the card's order: left, top, columns, rows.
    pub fn numbers(&self) -> [u64; 4] {
        [self.left, self.top, self.columns, self.rows]
    }
}
