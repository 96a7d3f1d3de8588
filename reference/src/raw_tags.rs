//! "Tags of the raw directory, in order of test".

use crate::answer::{Answer, Crop};
use crate::bytes::File;
use crate::directory::Directory;
use crate::levels::Levels;
use crate::tag_test::{fine, verdict, Fraction, Tags, Verdict, LONG, RATIONAL, SHORT, SRATIONAL, UNDEFINED};

const MOSAIC: u64 = 32803;
const LINEAR_RAW: u64 = 34892;
const GREATEST_SIDE: u64 = 16_384;
const GREATEST_TABLE: u64 = 65_536;
const GREATEST_REPEAT: u64 = 8;
const GREATEST_LEVEL: u64 = 65_535;
const WHOLE: &[u16] = &[SHORT, LONG];

/// In stored rows and columns; bottom and right stand past the area.
#[derive(Clone, Copy, Debug, PartialEq, Eq)]
pub struct ActiveArea {
    pub top: u64,
    pub left: u64,
    pub bottom: u64,
    pub right: u64,
}

/// The stored samples: width, samples and so on, and where each strip stands.
#[derive(Clone, Debug)]
pub struct Stored {
    pub width: u64,
    pub length: u64,
    pub samples: u64,
    pub bits: u64,
    pub rows_per_strip: u64,
    pub strips: Vec<u64>,
}

/// All that the tags of the raw directory say.
#[derive(Debug)]
pub struct RawTags<'a> {
    pub stored: Stored,
    pub active: ActiveArea,
    /// The linearization table; none is the identity.
    pub table: Option<Vec<u64>>,
    pub levels: Levels,
    /// Inside the active area.
    pub crop: Crop,
    /// The content of 51009.
    pub opcode_list: Option<&'a [u8]>,
}

/// Every test of a raw tag, in the order of the document's bullets.
pub fn read<'a>(file: &File<'a>, raw: &Directory) -> Result<RawTags<'a>, Answer> {
    let tags = Tags { file, directory: raw };
    let stored = read_stored(&tags)?;
    let active = read_active_area(&tags, &stored)?;
    let table = tags
        .optional(50712, &[SHORT], 1..=GREATEST_TABLE, fine)?
        .map(|entries| entries.into_iter().map(Fraction::whole).collect());
    let levels = read_levels(&tags, &stored, &active)?;
    let crop = read_crop(&tags, &active)?;
    tags.never(51008)?;
    tags.never(51022)?;
    let opcode_list =
        tags.entry(51009, &[UNDEFINED], 4..=u64::MAX)?.map(|entry| file.slice(entry.place, entry.count));
    Ok(RawTags { stored, active, table, levels, crop, opcode_list })
}

fn read_stored(tags: &Tags) -> Result<Stored, Answer> {
    let side = |v: Fraction| verdict(v.whole() > 0, v.whole() <= GREATEST_SIDE);
    let width = tags.one(256, WHOLE, side)?;
    let length = tags.one(257, WHOLE, side)?;
    let samples = read_samples(tags)?;
    let bits = read_bits(tags, samples)?;
    let only_one = |v: Fraction| verdict(true, v.whole() == 1);
    tags.one_or(259, &[SHORT], 1, only_one)?;
    tags.one_or(284, &[SHORT], 1, only_one)?;
    tags.all_or(339, &[SHORT], samples, 1, only_one)?;
    let interleave = |v: Fraction| verdict(v.whole() > 0, v.whole() == 1);
    tags.one_or(50975, WHOLE, 1, interleave)?;
    tags.one_or(52547, WHOLE, 1, interleave)?;
    let not_zero = |v: Fraction| verdict(v.whole() > 0, true);
    let rows_per_strip = tags.one_or(278, WHOLE, 4_294_967_295, not_zero)?;
    let mut stored = Stored { width, length, samples, bits, rows_per_strip, strips: Vec::new() };
    stored.strips = read_strips(tags, &stored)?;
    Ok(stored)
}

/// "1 for 32803, 3 for 34892, else not carried"
fn read_samples(tags: &Tags) -> Result<u64, Answer> {
    let carried = |v: Fraction| verdict(true, [MOSAIC, LINEAR_RAW].contains(&v.whole()));
    let photometric = tags.one(262, &[SHORT], carried)?;
    let expected = if photometric == MOSAIC { 1 } else { 3 };
    tags.one_or(277, &[SHORT], 1, |v| verdict(true, v.whole() == expected))
}

/// "all 8 or all 16 carried"
fn read_bits(tags: &Tags, samples: u64) -> Result<u64, Answer> {
    let carried = |v: Fraction| verdict(true, [8, 16].contains(&v.whole()));
    let bits = tags.required(258, &[SHORT], samples, carried)?;
    if bits.iter().any(|b| *b != bits[0]) {
        return Err(Answer::not_carried(258));
    }
    Ok(bits[0].whole())
}

/// 273 and 279, "then strip by strip: byte count must be exactly its rows x
/// width x samples x bytes (4, tag 279); the strip must lie in the file (4,
/// tag 273)".
fn read_strips(tags: &Tags, stored: &Stored) -> Result<Vec<u64>, Answer> {
    let count = stored.length.div_ceil(stored.rows_per_strip);
    let offsets = tags.required(273, WHOLE, count, fine)?;
    let byte_counts = tags.required(279, WHOLE, count, fine)?;
    for (strip, (offset, byte_count)) in (0..).zip(offsets.iter().zip(&byte_counts)) {
        let rows_before = strip * stored.rows_per_strip;
        let rows = stored.rows_per_strip.min(stored.length - rows_before);
        if byte_count.whole() != rows * stored.row_bytes() {
            return Err(Answer::wrong(279));
        }
        if !tags.file.holds(offset.whole(), byte_count.whole().into()) {
            return Err(Answer::wrong(273));
        }
    }
    Ok(offsets.into_iter().map(Fraction::whole).collect())
}

/// "top < bottom <= length, left < right <= width"
fn read_active_area(tags: &Tags, stored: &Stored) -> Result<ActiveArea, Answer> {
    let Some(sides) = tags.optional(50829, WHOLE, 4..=4, fine)? else {
        return Ok(ActiveArea { top: 0, left: 0, bottom: stored.length, right: stored.width });
    };
    let [top, left, bottom, right] = [0, 1, 2, 3].map(|i: usize| sides[i].whole());
    if top < bottom && bottom <= stored.length && left < right && right <= stored.width {
        Ok(ActiveArea { top, left, bottom, right })
    } else {
        Err(Answer::wrong(50829))
    }
}

/// 50713 to 50717.
fn read_levels(tags: &Tags, stored: &Stored, active: &ActiveArea) -> Result<Levels, Answer> {
    let samples = stored.samples;
    let carried_repeat = |v: Fraction| verdict(v.whole() > 0, v.whole() <= GREATEST_REPEAT);
    let repeat = tags.all_or(50713, &[SHORT], 2, 1, carried_repeat)?;
    let (repeat_rows, repeat_columns) = (repeat[0].whole(), repeat[1].whole());
    let cells = repeat_rows * repeat_columns * samples;
    let black = tags.all_or(50714, &[SHORT, LONG, RATIONAL], cells, 0, carried_level)?;
    let column_delta = tags.all_or(50715, &[SRATIONAL], active.columns(), 0, carried_level)?;
    let row_delta = tags.all_or(50716, &[SRATIONAL], active.rows(), 0, carried_level)?;
    let carried_white = |v: Fraction| verdict(true, v.whole() <= GREATEST_LEVEL);
    let default_white = (1 << stored.bits) - 1;
    let white = tags.all_or(50717, WHOLE, samples, default_white, carried_white)?;
    let repeat = (repeat_rows, repeat_columns, samples);
    Ok(Levels::new(repeat, &black, &column_delta, &row_delta, &white))
}

/// "Denominator 0 is illegal; carried are 1, 2, 4 .. 256, and a value of
/// magnitude up to 65,535", tested as written.
fn carried_level(v: Fraction) -> Verdict {
    let denominator = [1, 2, 4, 8, 16, 32, 64, 128, 256].contains(&v.denominator);
    let magnitude = v.numerator.abs() <= i128::from(GREATEST_LEVEL) * v.denominator;
    verdict(v.denominator != 0, denominator && magnitude)
}

/// "4 and 8 on 50719, then 50720, directly after 50717", and "last a crop empty
/// or not inside the active area is 4 on 50720" (document 02, T-03).
fn read_crop(tags: &Tags, active: &ActiveArea) -> Result<Crop, Answer> {
    // "horizontal then vertical"; the size's default is "the active columns and rows".
    let [left, top] = tags.whole_pair(50719)?.unwrap_or([0, 0]);
    let [columns, rows] = tags.whole_pair(50720)?.unwrap_or([active.columns(), active.rows()]);
    if inside(left, columns, active.columns()) && inside(top, rows, active.rows()) {
        Ok(Crop { left, top, columns, rows })
    } else {
        Err(Answer::wrong(50720))
    }
}

/// Is a stretch of rows or columns not empty, and inside so many of them?
pub fn inside(start: u64, length: u64, whole: u64) -> bool {
    length > 0 && u128::from(start) + u128::from(length) <= u128::from(whole)
}

impl ActiveArea {
    pub fn rows(&self) -> u64 {
        self.bottom - self.top
    }

    pub fn columns(&self) -> u64 {
        self.right - self.left
    }
}

impl Stored {
    fn sample_bytes(&self) -> u64 {
        self.bits / 8
    }

    fn row_bytes(&self) -> u64 {
        self.width * self.samples * self.sample_bytes()
    }

    /// "Samples stand row by row, planes together, 16-bit ones in the file's
    /// byte order." Row and column are stored ones.
    pub fn sample(&self, file: &File, row: u64, column: u64, plane: u64) -> u64 {
        let strip = self.strips[(row / self.rows_per_strip) as usize];
        let row_in_strip = row % self.rows_per_strip;
        let sample_in_row = column * self.samples + plane;
        let place = strip + row_in_strip * self.row_bytes() + sample_in_row * self.sample_bytes();
        file.number(place, self.sample_bytes())
    }
}

impl RawTags<'_> {
    /// v: "the stored sample through the table (past its end, the last entry)".
    pub fn linear(&self, stored: u64) -> u64 {
        match &self.table {
            None => stored,
            Some(entries) => entries[(stored as usize).min(entries.len() - 1)],
        }
    }
}
