//! Board example 11: the listing program, of the crop (document 02, T-03).

use std::io::{self, Write};

use crate::answer::{Answer, Crop};
use crate::develop::{accept, Accepted, Developed};

/// "over 65,536 bytes counts as refusal 1"
pub const GREATEST_INPUT: usize = 65_536;

/// The whole listing as one string.
pub fn listing(input: &[u8]) -> String {
    let mut out = Vec::new();
    write_listing(input, &mut out).expect("a vector takes every byte");
    String::from_utf8(out).expect("a listing is plain text")
}

/// Writes the listing row by row, so that a great frame needs little memory.
pub fn write_listing(input: &[u8], out: &mut impl Write) -> io::Result<()> {
    if input.len() > GREATEST_INPUT {
        return write_refusal(Answer::FILE_SIZE, out);
    }
    match accept(input) {
        Err(refusal) => write_refusal(refusal, out),
        Ok(accepted) => write_frame(&accepted, out),
    }
}

/// "`refused number detail`"
fn write_refusal(refusal: Answer, out: &mut impl Write) -> io::Result<()> {
    writeln!(out, "refused {} {}", refusal.number, refusal.detail)
}

/// "`frame rows columns samples`, then a line per row, each f64 as 16 hex
/// digits, single spaces"; "`frame` shows the crop's rows and columns".
fn write_frame(accepted: &Accepted, out: &mut impl Write) -> io::Result<()> {
    let Crop { left, top, columns, rows } = accepted.raw.crop;
    let samples = accepted.size().samples;
    writeln!(out, "frame {rows} {columns} {samples}")?;
    let developed = Developed::new(accepted);
    for row in top..top + rows {
        let words: Vec<String> = (left..left + columns)
            .flat_map(|column| (0..samples).map(move |plane| (column, plane)))
            .map(|(column, plane)| format!("{:016x}", developed.value(row, column, plane).to_bits()))
            .collect();
        writeln!(out, "{}", words.join(" "))?;
    }
    Ok(())
}
