//! "The directory tree": the shape of one IFD and the walk to the raw one.

use crate::answer::Answer;
use crate::bytes::{File, Widths};
use crate::tag_test::{fine, Tags, BYTE, IFD, LONG};

/// "Type sizes 1 to 13"
const TYPE_SIZES: [u64; 13] = [1, 1, 2, 4, 8, 1, 1, 2, 4, 8, 4, 8, 4];

const GREATEST_DEPTH: u32 = 3;
const GREATEST_VISITS: u32 = 16;
const CARRIED_VERSION: [u64; 4] = [1, 7, 1, 0];

/// The size of one value, or nothing for an unknown type. "types 16, 17, 18 of
/// 8 bytes" are known in the 64-bit layout only.
pub fn type_size(kind: u16, widths: Widths) -> Option<u64> {
    match kind {
        1..=13 => Some(TYPE_SIZES[usize::from(kind) - 1]),
        16..=18 if widths == Widths::BITS_64 => Some(8),
        _ => None,
    }
}

#[derive(Clone, Copy, Debug)]
pub struct Entry {
    pub tag: u16,
    pub kind: u16,
    pub count: u64,
    /// Where the value's first byte stands in the file (known types only).
    pub place: u64,
}

#[derive(Clone, Debug)]
pub struct Directory {
    pub entries: Vec<Entry>,
}

impl Directory {
    /// Refusal 3: "directory outside the file, no entry, tags not strictly
    /// ascending, or a value of a known type outside the file". The next
    /// offset is "present but ignored".
    pub fn read(file: &File, offset: u64) -> Result<Directory, Answer> {
        let widths = file.widths;
        if !file.holds(offset, widths.entries.into()) {
            return Err(Answer::SHAPE);
        }
        let count = file.number(offset, widths.entries);
        let length = u128::from(widths.entry()) * u128::from(count);
        let around = u128::from(widths.entries + widths.word);
        if count == 0 || !file.holds(offset, length + around) {
            return Err(Answer::SHAPE);
        }
        let entries = (0..count)
            .map(|i| Entry::read(file, offset + widths.entries + widths.entry() * i))
            .collect::<Result<Vec<Entry>, Answer>>()?;
        if entries.windows(2).any(|pair| pair[0].tag >= pair[1].tag) {
            return Err(Answer::SHAPE);
        }
        Ok(Directory { entries })
    }

    pub fn find(&self, tag: u16) -> Option<&Entry> {
        self.entries.iter().find(|entry| entry.tag == tag)
    }
}

impl Entry {
    /// "A value of at most 4 bytes stands in the entry, left-justified", in the
    /// 64-bit layout one of at most 8. "An entry of unknown type is passed
    /// over."
    fn read(file: &File, start: u64) -> Result<Entry, Answer> {
        let word = file.widths.word;
        let kind = file.number(start + 2, 2) as u16;
        let count = file.number(start + 4, word);
        let mut place = start + 4 + word;
        if let Some(size) = type_size(kind, file.widths) {
            let length = u128::from(size) * u128::from(count);
            if length > word.into() {
                place = file.number(place, word);
            }
            if !file.holds(place, length) {
                return Err(Answer::SHAPE);
            }
        }
        Ok(Entry { tag: file.number(start, 2) as u16, kind, count, place })
    }
}

/// IFD 0, where the colour tags stand, and the raw IFD.
#[derive(Debug)]
pub struct Tree {
    pub first: Directory,
    pub raw: Directory,
}

/// The walk "is depth first from IFD 0 (depth 0)".
pub fn walk(file: &File) -> Result<Tree, Answer> {
    let offset = file.first_ifd();
    let mut visits = 0;
    let raw = visit(file, offset, 0, &mut visits)?.ok_or(Answer::TREE)?;
    let first = Directory::read(file, offset)?;
    Ok(Tree { first, raw })
}

/// Visits one directory; gives the raw one if it is this or stands below it.
fn visit(file: &File, offset: u64, depth: u32, visits: &mut u32) -> Result<Option<Directory>, Answer> {
    *visits += 1;
    if depth > GREATEST_DEPTH || *visits > GREATEST_VISITS {
        return Err(Answer::TREE);
    }
    let directory = Directory::read(file, offset)?;
    let tags = Tags { file, directory: &directory };
    if *visits == 1 {
        test_version(&tags)?;
    }
    // "254 (LONG 1, default 0)"; any value but 0 is a directory that is not raw.
    if tags.one_or(254, &[LONG], 0, fine)? == 0 {
        return Ok(Some(directory));
    }
    // "children in the order of SubIFDs (330, LONG or IFD, 1 to 16 of them)"
    let children = tags.optional(330, &[LONG, IFD], 1..=16, fine)?.unwrap_or_default();
    for child in children {
        let found = visit(file, child.whole(), depth + 1, visits)?;
        if found.is_some() {
            return Ok(found);
        }
    }
    Ok(None)
}

/// "50706 (BYTE 4, required) and 50707 (BYTE 4, default 50706 with its last
/// two bytes zero; compared byte by byte from the first)"
fn test_version(first: &Tags) -> Result<(), Answer> {
    let version = first.required(50706, &[BYTE], 4, fine)?;
    let backward = match first.optional(50707, &[BYTE], 4..=4, fine)? {
        Some(bytes) => [bytes[0].whole(), bytes[1].whole(), bytes[2].whole(), bytes[3].whole()],
        None => [version[0].whole(), version[1].whole(), 0, 0],
    };
    if backward > CARRIED_VERSION {
        return Err(Answer::VERSION);
    }
    Ok(())
}
