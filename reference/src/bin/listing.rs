//! Reads a file from standard input and prints its listing.

use std::io::{self, BufWriter, Read, Write};

use reference::listing::{write_listing, GREATEST_INPUT};

fn main() -> io::Result<()> {
    let mut input = Vec::new();
    // One byte more than is allowed tells that there is too much.
    io::stdin().lock().take(GREATEST_INPUT as u64 + 1).read_to_end(&mut input)?;
    let mut out = BufWriter::new(io::stdout().lock());
    write_listing(&input, &mut out)?;
    out.flush()
}
