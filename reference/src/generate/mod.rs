//! A generator of valid and damaged files and of questions about them. The
//! same seed and index give the same case on every machine.

mod colours;
mod crops;
mod damage;
mod draft;
mod faults;
mod gain_maps;
mod great;
mod layouts;
mod levels;
mod lists;
mod questions;
mod tables;
mod trees;

use crate::bytes::LAYOUTS;
use crate::cases::Call;
use crate::random::Random;
use draft::Draft;

/// One file and the calls to make of it.
#[derive(Clone, Debug)]
pub struct Case {
    /// How the file was made, in a few words.
    pub label: String,
    pub file: Vec<u8>,
    pub calls: Vec<Call>,
}

pub fn generate(seed: u64, index: u64) -> Case {
    let random = &mut Random::indexed(seed, index);
    let (label, file) = generate_file(random);
    let calls = questions::questions(random, &file);
    Case { label, file, calls }
}

/// A valid file by itself, for tests that need one.
pub fn generate_valid(seed: u64, index: u64) -> Vec<u8> {
    Draft::valid(&mut Random::indexed(seed, index)).dng().file()
}

/// One valid description in the 32-bit layout and in the 64-bit one.
pub fn generate_in_both_layouts(seed: u64, index: u64) -> [Vec<u8>; 2] {
    let random = &mut Random::indexed(seed, index);
    let dng = Draft::of_either_layout(random).dng();
    LAYOUTS.map(|widths| {
        let mut dng = dng.clone();
        layouts::lay_out(random, &mut dng, widths);
        dng.file()
    })
}

fn generate_file(random: &mut Random) -> (String, Vec<u8>) {
    let valid = |random: &mut Random| Draft::valid(random).dng().file();
    match random.index(200) {
        0..=76 => ("valid".into(), valid(random)),
        77..=79 => ("tables".into(), tables::draft(random).dng().file()),
        80..=155 => faults::faulty(random),
        156..=171 => ("flips".into(), damage::flip(random, valid)),
        172..=179 => ("cut".into(), damage::cut(random, valid)),
        180..=189 => ("splice".into(), damage::splice(random, valid)),
        190..=197 => trees::odd_tree(random),
        198 => ("noise".into(), damage::noise(random)),
        _ => ("great".into(), great::great(random)),
    }
}
