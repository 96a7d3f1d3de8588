//! Damage to the bytes of files, whatever they mean.

use crate::random::Random;

/// One to four bytes changed, as often as not to a neighbouring value.
pub fn flip(random: &mut Random, make: impl Fn(&mut Random) -> Vec<u8>) -> Vec<u8> {
    let mut file = make(random);
    for _ in 0..=random.index(4) {
        let place = random.index(file.len());
        let byte = file[place];
        file[place] = match random.index(6) {
            0 => 0,
            1 => 255,
            2 => byte.wrapping_add(1),
            3 => byte.wrapping_sub(1),
            4 => byte ^ (1 << random.index(8)),
            _ => random.any() as u8,
        };
    }
    file
}

/// Bytes lost or gained at the end.
pub fn cut(random: &mut Random, make: impl Fn(&mut Random) -> Vec<u8>) -> Vec<u8> {
    let mut file = make(random);
    match random.index(4) {
        0 => file.truncate(random.index(file.len())),
        1 => file.truncate(file.len() - 1),
        2 => file.truncate(random.index(20)),
        _ => {
            let more = random.index(9) + 1;
            file.extend(random.bytes(more));
        }
    }
    file
}

/// A stretch of one file put into another at the same place.
pub fn splice(random: &mut Random, make: impl Fn(&mut Random) -> Vec<u8>) -> Vec<u8> {
    let mut file = make(random);
    let other = make(random);
    let shorter = file.len().min(other.len());
    let from = random.index(shorter);
    let to = if random.one_in(2) { shorter } else { (from + random.index(40)).min(shorter) };
    file[from..to].copy_from_slice(&other[from..to]);
    file
}

/// Random bytes, often behind a right header.
pub fn noise(random: &mut Random) -> Vec<u8> {
    let length = random.index(300);
    let mut file = random.bytes(length);
    let headers: [&[u8]; 4] = [
        b"II\x2A\x00\x08\x00\x00\x00",
        b"MM\x00\x2A\x00\x00\x00\x08",
        b"II\x2B\x00\x08\x00\x00\x00\x10\x00\x00\x00\x00\x00\x00\x00",
        b"MM\x00\x2B\x00\x08\x00\x00\x00\x00\x00\x00\x00\x00\x00\x10",
    ];
    let header = random.pick(&headers);
    if length >= header.len() && !random.one_in(4) {
        file[..header.len()].copy_from_slice(header);
    }
    file
}
