//! Prints the answers to generated cases, or writes their files to disk.

use std::io::{self, BufWriter, Write};
use std::path::Path;
use std::{env, fs, process};

use reference::cases::{answer_line, Call, Fingerprint};
use reference::generate::generate;

const USAGE: &str = "usage:
  cases print SEED FROM TO       the answers to the cases FROM up to before TO
  cases write SEED FROM TO DIR   their files, as DIR/SEED-INDEX.dng
  cases ask FILE CALL            the answer to one call of a file on disk:
                                 card
                                 window TOP LEFT HEIGHT WIDTH SLICE
                                 spot ROW COLUMN PLANE
                                 colour_window TOP LEFT HEIGHT WIDTH SLICE
                                 half_window TOP LEFT HEIGHT WIDTH SLICE, in blocks
                                 table_window TOP LEFT HEIGHT WIDTH SLICE
                                 chain ROW COLUMN PLANE PLACES IDS BEFORE AFTER SKIPPED";

fn main() -> io::Result<()> {
    let words: Vec<String> = env::args().skip(1).collect();
    let words: Vec<&str> = words.iter().map(String::as_str).collect();
    match words[..] {
        ["print", seed, from, to] => print(number(seed), number(from), number(to)),
        ["write", seed, from, to, dir] => write(number(seed), number(from), number(to), Path::new(dir)),
        ["ask", file, ref call @ ..] => ask(Path::new(file), call),
        _ => usage(),
    }
}

fn usage() -> ! {
    eprintln!("{USAGE}");
    process::exit(2)
}

fn number(word: &str) -> u64 {
    word.parse().unwrap_or_else(|_| usage())
}

fn print(seed: u64, from: u64, to: u64) -> io::Result<()> {
    let mut out = BufWriter::new(io::stdout().lock());
    for index in from..to {
        let case = generate(seed, index);
        let fingerprint = Fingerprint::of(&case.file).0;
        writeln!(out, "case {seed} {index} {} {fingerprint:016x} {}", case.file.len(), case.label)?;
        for call in &case.calls {
            writeln!(out, "{}", answer_line(&case.file, call))?;
        }
    }
    out.flush()
}

fn write(seed: u64, from: u64, to: u64, dir: &Path) -> io::Result<()> {
    fs::create_dir_all(dir)?;
    for index in from..to {
        fs::write(dir.join(format!("{seed}-{index}.dng")), generate(seed, index).file)?;
    }
    Ok(())
}

fn ask(path: &Path, words: &[&str]) -> io::Result<()> {
    let call = Call::parse(words).unwrap_or_else(|| usage());
    println!("{}", answer_line(&fs::read(path)?, &call));
    Ok(())
}
