//! The file's bytes and the numbers they spell.

use crate::answer::Answer;

/// "II is little-endian, MM big-endian."
#[derive(Clone, Copy, Debug, PartialEq, Eq)]
pub enum ByteOrder {
    Little,
    Big,
}

impl ByteOrder {
    /// The unsigned number spelled by at most eight bytes.
    pub fn number(self, bytes: &[u8]) -> u64 {
        let append = |n: u64, byte: &u8| (n << 8) | u64::from(*byte);
        match self {
            ByteOrder::Big => bytes.iter().fold(0, append),
            ByteOrder::Little => bytes.iter().rev().fold(0, append),
        }
    }

    /// The lowest `width` bytes of a number, spelled out.
    pub fn spell(self, number: u64, width: usize) -> Vec<u8> {
        match self {
            ByteOrder::Big => number.to_be_bytes()[8 - width..].to_vec(),
            ByteOrder::Little => number.to_le_bytes()[..width].to_vec(),
        }
    }
}

/// The widths in bytes of what the 32-bit and the 64-bit layout size apart.
#[derive(Clone, Copy, Debug, PartialEq, Eq)]
pub struct Widths {
    /// The header, whose last word is the offset of IFD 0.
    pub header: u64,
    /// An IFD's count of entries.
    pub entries: u64,
    /// An offset, a count of values, and the value that may stand in its entry.
    pub word: u64,
}

impl Widths {
    pub const BITS_32: Widths = Widths { header: 8, entries: 2, word: 4 };
    pub const BITS_64: Widths = Widths { header: 16, entries: 8, word: 8 };

    /// Tag and type of 2 bytes each, then count, then value or offset.
    pub fn entry(&self) -> u64 {
        4 + 2 * self.word
    }
}

pub const LAYOUTS: [Widths; 2] = [Widths::BITS_32, Widths::BITS_64];

/// A file's first four bytes: "49 49 2A 00", "4D 4D 00 2A"; in 64 bits "49 49 2B
/// 00 or 4D 4D 00 2B".
pub const MARKS: [([u8; 4], ByteOrder, Widths); 4] = [
    ([0x49, 0x49, 0x2A, 0x00], ByteOrder::Little, Widths::BITS_32),
    ([0x4D, 0x4D, 0x00, 0x2A], ByteOrder::Big, Widths::BITS_32),
    ([0x49, 0x49, 0x2B, 0x00], ByteOrder::Little, Widths::BITS_64),
    ([0x4D, 0x4D, 0x00, 0x2B], ByteOrder::Big, Widths::BITS_64),
];

/// What stands between a 64-bit mark and the offset of IFD 0: "8, 0 (2 bytes
/// each)".
pub const BEHIND_64_BIT_MARK: [u64; 2] = [8, 0];

const LEAST_FILE: usize = 8;
pub const GREATEST_FILE: usize = 67_108_864;

/// A file that has passed the tests 1 and 2.
#[derive(Clone, Copy, Debug)]
pub struct File<'a> {
    pub bytes: &'a [u8],
    pub order: ByteOrder,
    pub widths: Widths,
}

impl<'a> File<'a> {
    pub fn open(bytes: &'a [u8]) -> Result<File<'a>, Answer> {
        if bytes.len() < LEAST_FILE || bytes.len() > GREATEST_FILE {
            return Err(Answer::FILE_SIZE);
        }
        let mark = MARKS.iter().find(|(mark, _, _)| bytes.starts_with(mark));
        let (_, order, widths) = *mark.ok_or(Answer::FIRST_BYTES)?;
        let file = File { bytes, order, widths };
        // "1 also for a 64-bit header in a file under 16 bytes; 2 for an 8 or
        // a 0 that is wrong"
        if !file.holds(0, widths.header.into()) {
            return Err(Answer::FILE_SIZE);
        }
        if widths == Widths::BITS_64 && [file.number(4, 2), file.number(6, 2)] != BEHIND_64_BIT_MARK {
            return Err(Answer::FIRST_BYTES);
        }
        Ok(file)
    }

    /// The offset of IFD 0.
    pub fn first_ifd(&self) -> u64 {
        let Widths { header, word, .. } = self.widths;
        self.number(header - word, word)
    }

    /// Do `length` bytes from `start` lie in the file?
    pub fn holds(&self, start: u64, length: u128) -> bool {
        u128::from(start) + length <= self.bytes.len() as u128
    }

    /// Bytes that are known to lie in the file.
    pub fn slice(&self, start: u64, length: u64) -> &'a [u8] {
        &self.bytes[start as usize..(start + length) as usize]
    }

    /// A number of `width` bytes, known to lie in the file, in the file's order.
    pub fn number(&self, start: u64, width: u64) -> u64 {
        self.order.number(self.slice(start, width))
    }
}
