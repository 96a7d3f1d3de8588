//! The one test for all tags: "Within one tag: presence (5), type and count
//! (4), then each value in stored order: legal (4), then carried (8)."

use std::ops::RangeInclusive;

use crate::answer::Answer;
use crate::bytes::{File, Widths};
use crate::directory::{type_size, Directory, Entry};

pub const BYTE: u16 = 1;
pub const SHORT: u16 = 3;
pub const LONG: u16 = 4;
pub const RATIONAL: u16 = 5;
pub const UNDEFINED: u16 = 7;
pub const SRATIONAL: u16 = 10;
pub const IFD: u16 = 13;
pub const LONG8: u16 = 16;
pub const SLONG8: u16 = 17;
pub const IFD8: u16 = 18;

/// A stored value as written; whole numbers have denominator 1.
#[derive(Clone, Copy, Debug, PartialEq, Eq)]
pub struct Fraction {
    pub numerator: i128,
    pub denominator: i128,
}

impl Fraction {
    pub fn from_whole(number: u64) -> Fraction {
        Fraction { numerator: number.into(), denominator: 1 }
    }

    /// The value of a BYTE, SHORT, LONG, IFD, LONG8 or IFD8.
    pub fn whole(self) -> u64 {
        self.numerator as u64
    }

    /// The value of a fraction that was found to be a whole number.
    fn quotient(self) -> u64 {
        (self.numerator / self.denominator) as u64
    }
}

#[derive(Clone, Copy, Debug, PartialEq, Eq)]
pub enum Verdict {
    Fine,
    Illegal,
    NotCarried,
}

/// "legal (4), then carried (8)"
pub fn verdict(legal: bool, carried: bool) -> Verdict {
    match (legal, carried) {
        (false, _) => Verdict::Illegal,
        (true, false) => Verdict::NotCarried,
        (true, true) => Verdict::Fine,
    }
}

/// Every value is legal and carried.
pub fn fine(_: Fraction) -> Verdict {
    Verdict::Fine
}

/// "denominator 0 is 4, a value not whole is 8", both of the fraction as written.
fn whole_number(v: Fraction) -> Verdict {
    let legal = v.denominator != 0;
    verdict(legal, legal && v.numerator % v.denominator == 0)
}

/// The tags of one directory of a file.
#[derive(Clone, Copy)]
pub struct Tags<'a> {
    pub file: &'a File<'a>,
    pub directory: &'a Directory,
}

impl<'a> Tags<'a> {
    /// Type and count of a tag, if it is present.
    pub fn entry(
        &self,
        tag: u16,
        kinds: &[u16],
        counts: RangeInclusive<u64>,
    ) -> Result<Option<&'a Entry>, Answer> {
        match self.directory.find(tag) {
            Some(entry)
                if !accepted(kinds, entry.kind, self.file.widths) || !counts.contains(&entry.count) =>
            {
                Err(Answer::wrong(tag))
            }
            found => Ok(found),
        }
    }

    /// The values of a tag that may be absent.
    pub fn optional(
        &self,
        tag: u16,
        kinds: &[u16],
        counts: RangeInclusive<u64>,
        judge: impl Fn(Fraction) -> Verdict,
    ) -> Result<Option<Vec<Fraction>>, Answer> {
        let Some(entry) = self.entry(tag, kinds, counts)? else {
            return Ok(None);
        };
        let values = self.values(entry);
        judge_all(tag, &values, judge)?;
        Ok(Some(values))
    }

    /// The values of a tag that must be present.
    pub fn required(
        &self,
        tag: u16,
        kinds: &[u16],
        count: u64,
        judge: impl Fn(Fraction) -> Verdict,
    ) -> Result<Vec<Fraction>, Answer> {
        self.optional(tag, kinds, count..=count, judge)?.ok_or(Answer::absent(tag))
    }

    /// The values of a tag whose default, one whole number for each value,
    /// is tested like a stored value.
    pub fn all_or(
        &self,
        tag: u16,
        kinds: &[u16],
        count: u64,
        default: u64,
        judge: impl Fn(Fraction) -> Verdict,
    ) -> Result<Vec<Fraction>, Answer> {
        if let Some(values) = self.optional(tag, kinds, count..=count, &judge)? {
            return Ok(values);
        }
        let values = vec![Fraction::from_whole(default); count as usize];
        judge_all(tag, &values, judge)?;
        Ok(values)
    }

    /// The only value, a whole number, of a tag with a default.
    pub fn one_or(
        &self,
        tag: u16,
        kinds: &[u16],
        default: u64,
        judge: impl Fn(Fraction) -> Verdict,
    ) -> Result<u64, Answer> {
        Ok(self.all_or(tag, kinds, 1, default, judge)?[0].whole())
    }

    /// The only value, a whole number, of a tag that must be present.
    pub fn one(&self, tag: u16, kinds: &[u16], judge: impl Fn(Fraction) -> Verdict) -> Result<u64, Answer> {
        Ok(self.required(tag, kinds, 1, judge)?[0].whole())
    }

    /// "SHORT, LONG or RATIONAL, count 2": two whole numbers, if the tag is
    /// present.
    pub fn whole_pair(&self, tag: u16) -> Result<Option<[u64; 2]>, Answer> {
        let values = self.optional(tag, &[SHORT, LONG, RATIONAL], 2..=2, whole_number)?;
        Ok(values.map(|values| [0, 1].map(|i: usize| values[i].quotient())))
    }

    /// "if present with any type, not carried"
    pub fn never(&self, tag: u16) -> Result<(), Answer> {
        match self.directory.find(tag) {
            Some(_) => Err(Answer::not_carried(tag)),
            None => Ok(()),
        }
    }

    fn values(&self, entry: &Entry) -> Vec<Fraction> {
        let size = type_size(entry.kind, self.file.widths).expect("a tag is only read with a known type");
        (0..entry.count).map(|i| self.value(entry.kind, entry.place + i * size, size)).collect()
    }

    fn value(&self, kind: u16, place: u64, size: u64) -> Fraction {
        match kind {
            RATIONAL => Fraction {
                numerator: self.file.number(place, 4).into(),
                denominator: self.file.number(place + 4, 4).into(),
            },
            SRATIONAL => Fraction {
                numerator: signed(self.file.number(place, 4)),
                denominator: signed(self.file.number(place + 4, 4)),
            },
            _ => Fraction::from_whole(self.file.number(place, size)),
        }
    }
}

/// "LONG8 is accepted wherever LONG is, IFD8 wherever IFD is, in this layout
/// only", where their types are known.
fn accepted(kinds: &[u16], kind: u16, widths: Widths) -> bool {
    let counterpart = match kind {
        LONG8 => LONG,
        IFD8 => IFD,
        _ => kind,
    };
    type_size(kind, widths).is_some() && kinds.contains(&counterpart)
}

/// A 32-bit number in two's complement.
fn signed(number: u64) -> i128 {
    let number = i128::from(number);
    if number < 1 << 31 {
        number
    } else {
        number - (1 << 32)
    }
}

fn judge_all(tag: u16, values: &[Fraction], judge: impl Fn(Fraction) -> Verdict) -> Result<(), Answer> {
    for value in values {
        match judge(*value) {
            Verdict::Fine => {}
            Verdict::Illegal => return Err(Answer::wrong(tag)),
            Verdict::NotCarried => return Err(Answer::not_carried(tag)),
        }
    }
    Ok(())
}
