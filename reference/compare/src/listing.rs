//! The core's listing program, a process that reads a DNG from standard input, beside
//! the independent program's listing.

use std::io::{self, ErrorKind, Read, Write};
use std::os::unix::process::ExitStatusExt;
use std::path::{Path, PathBuf};
use std::process::{Child, Command, Stdio};
use std::{fs, thread};

use reference::listing;
use reference::listing::GREATEST_INPUT;

use crate::limits::crop;

/// Of a greater crop the listing would be too long.
const GREATEST_LISTING: u64 = 20_000;

/// So many processes run at one time.
const AT_ONCE: usize = 2;

/// A file to be listed by both programs, and the lines that are stated of it, where
/// they are.
pub struct Listed {
    label: String,
    file: Vec<u8>,
    stated: Option<String>,
}

/// What came of the listings.
#[derive(Default)]
pub struct Listings {
    pub files: usize,
    pub refused: usize,
    /// Those that leave out some of the active area.
    pub cropped: usize,
    pub values: u64,
    /// A line for each.
    pub differences: Vec<String>,
}

/// Where the core's program stands from the root of the repository.
const PROGRAM: &str = "crates/listing/out/listing";

/// The core's program; `rt run` in crates/listing makes it.
pub fn program() -> Result<PathBuf, String> {
    let program = root().join(PROGRAM);
    if program.is_file() {
        return Ok(program);
    }
    Err(format!("{PROGRAM} is not there: make it with `rt run` in crates/listing"))
}

/// The root of the repository.
fn root() -> PathBuf {
    Path::new(env!("CARGO_MANIFEST_DIR")).join("../..")
}

impl Listed {
    /// A file whose listing is not too long.
    pub fn new(label: &str, file: &[u8]) -> Option<Listed> {
        let card = reference::card(file);
        let short = card.crop.rows * card.crop.columns * card.samples <= GREATEST_LISTING;
        let listed = short || file.len() > GREATEST_INPUT;
        listed.then(|| Listed { label: label.into(), file: file.into(), stated: None })
    }
}

/// The stored inputs, inputs at the limit of their length, and the limits of the crop.
pub fn limits() -> io::Result<Vec<Listed>> {
    let mut all = stored()?;
    let one = all.first().map(|of| of.file.clone()).expect("there are stored inputs");
    for length in [GREATEST_INPUT - 1, GREATEST_INPUT, GREATEST_INPUT + 1, 2 * GREATEST_INPUT] {
        let mut file = one.clone();
        file.resize(length, 0);
        all.extend(Listed::new(&format!("an input of {length} bytes"), &file));
    }
    for length in [0, 1, 7, 8] {
        all.extend(Listed::new(&format!("an input of {length} bytes"), &one[..length]));
    }
    all.extend(crop::cases().iter().filter_map(|case| Listed::new(&case.label, &case.file)));
    Ok(all)
}

/// The files in `tests/data`, each with the text beside it, where there is one.
fn stored() -> io::Result<Vec<Listed>> {
    let mut paths: Vec<PathBuf> = fs::read_dir(root().join("reference/tests/data"))?
        .map(|entry| entry.map(|entry| entry.path()))
        .collect::<io::Result<_>>()?;
    paths.retain(|path| path.extension().is_none());
    paths.sort();
    let listed = paths.iter().map(|path| {
        let text = path.with_extension("txt");
        let stated = text.is_file().then(|| fs::read_to_string(&text)).transpose()?;
        let name = path.file_name().unwrap_or_default();
        Ok(Listed { label: name.to_string_lossy().into(), file: fs::read(path)?, stated })
    });
    listed.collect()
}

/// Every file through both programs.
pub fn compare(program: &Path, files: &[Listed]) -> io::Result<Listings> {
    let part = files.len().div_ceil(AT_ONCE).max(1);
    let parts = thread::scope(|scope| {
        let parts: Vec<_> =
            files.chunks(part).map(|files| scope.spawn(|| compare_part(program, files))).collect();
        let joined = parts.into_iter().map(|part| part.join().expect("a part does not panic"));
        joined.collect::<io::Result<Vec<Listings>>>()
    })?;
    Ok(parts.into_iter().fold(Listings::default(), Listings::and))
}

fn compare_part(program: &Path, files: &[Listed]) -> io::Result<Listings> {
    let mut listings = Listings::default();
    files.iter().try_for_each(|of| listings.add(program, of))?;
    Ok(listings)
}

impl Listings {
    fn and(mut self, other: Listings) -> Listings {
        self.files += other.files;
        self.refused += other.refused;
        self.cropped += other.cropped;
        self.values += other.values;
        self.differences.extend(other.differences);
        self
    }

    fn add(&mut self, program: &Path, Listed { label, file, stated }: &Listed) -> io::Result<()> {
        let expected = listing(file);
        let card = reference::card(file);
        self.files += 1;
        if expected.starts_with("frame") {
            self.values += card.crop.rows * card.crop.columns * card.samples;
            let sides = [card.crop.rows, card.crop.columns];
            self.cropped += usize::from(sides != [card.rows, card.columns]);
        } else {
            self.refused += 1;
        }
        if stated.as_ref().is_some_and(|stated| *stated != expected) {
            self.differences.push(format!("{label}: reference {}; otherwise stated", first_line(&expected)));
        }
        match list(program, file)? {
            Ok(found) if found == expected.as_bytes() => {}
            Ok(found) => self.differences.push(format!("{label}: {}", first_difference(&found, &expected))),
            Err(signal) => self.differences.push(format!("{label}: the core's listing ended by {signal}")),
        }
        Ok(())
    }
}

/// What the core's program prints of an input, or the signal that ended it. The input
/// is written by a thread of its own, so that neither waits for the other.
fn list(program: &Path, input: &[u8]) -> io::Result<Result<Vec<u8>, String>> {
    let mut child = Command::new(program).stdin(Stdio::piped()).stdout(Stdio::piped()).spawn()?;
    let found = exchange(&mut child, input);
    let status = child.wait()?;
    let found = found?;
    Ok(match status.signal() {
        Some(signal) => Err(format!("signal {signal}")),
        None => Ok(found),
    })
}

fn exchange(child: &mut Child, input: &[u8]) -> io::Result<Vec<u8>> {
    let mut stdin = child.stdin.take().expect("it is piped");
    let mut stdout = child.stdout.take().expect("it is piped");
    thread::scope(|scope| {
        let writing = scope.spawn(move || stdin.write_all(input));
        let mut found = Vec::new();
        stdout.read_to_end(&mut found)?;
        match writing.join().expect("writing does not panic") {
            // It need not read to the end of an input that is too long.
            Err(error) if error.kind() != ErrorKind::BrokenPipe => Err(error),
            _ => Ok(found),
        }
    })
}

fn first_line(text: &str) -> &str {
    text.lines().next().unwrap_or("nothing")
}

/// The first line in which a listing of the core differs.
fn first_difference(found: &[u8], expected: &str) -> String {
    let found = String::from_utf8_lossy(found);
    let mut lines = (1..).zip(found.split('\n').zip(expected.split('\n')));
    match lines.find(|(_, (core, reference))| core != reference) {
        Some((number, (core, reference))) => {
            format!("listing, line {number}: core {core:.80}; reference {reference:.80}")
        }
        None => format!("listing: core {} bytes; reference {}", found.len(), expected.len()),
    }
}
