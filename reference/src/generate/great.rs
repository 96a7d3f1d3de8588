//! Great frames in small files, by strips that overlap.

use crate::builder::{Area, Data, Dng, GainMap, Opcode, Picture, Place, Tag};
use crate::bytes::ByteOrder;
use crate::random::Random;
use crate::tag_test::SHORT;

use super::levels::{self, Frame};
use super::{colours, crops, layouts};

/// Every strip is one row; all strips stand in one block of a few rows.
pub fn great(random: &mut Random) -> Vec<u8> {
    let sides = [200, 300, 5_000, 16_383, 16_384];
    let (width, length) = (random.pick(&sides), random.pick(&sides));
    let samples = random.pick(&[1, 3]);
    let bits = random.pick(&[8, 16]);
    let order = random.pick(&[ByteOrder::Little, ByteOrder::Big]);
    let row_bytes = width * samples * bits / 8;
    let block = random.bytes(row_bytes as usize + 200);
    let offsets = (0..length).map(|_| Place::Block(0, random.small(0, 200))).collect();
    let picture = Picture { width, length, samples, bits, rows_per_strip: 1, stored: Vec::new() };
    let mut dng = Dng::new(order, &picture)
        .with(Tag::new(273, SHORT, Data::ShortPlaces(offsets)))
        .with(Tag::longs(279, &vec![row_bytes; length as usize]));
    dng.blocks = vec![block];
    let mut frame = Frame { rows: length, columns: width, samples, bits };
    if random.one_in(2) {
        let (top, left) = (random.small(0, length - 1), random.small(0, width - 1));
        dng = dng.with(Tag::longs(50829, &[top, left, length, width]));
        frame = Frame { rows: length - top, columns: width - left, ..frame };
    } else {
        let polynomial = random.one_in(2);
        dng = dng.with_opcodes(&[stripes(length, width, samples, polynomial)]);
    }
    levels::choose(random, &mut dng, frame);
    crops::choose(random, &mut dng, [frame.columns, frame.rows]);
    colours::choose(random, &mut dng);
    colours::choose_pattern(random, &mut dng, samples);
    layouts::lay_out_in_either(random, &mut dng);
    dng.file()
}

/// A polynomial, or a GainMap, on every third row and seventh column.
fn stripes(rows: u32, columns: u32, samples: u32, polynomial: bool) -> Opcode {
    let area = Area { row_pitch: 3, column_pitch: 7, ..Area::whole(rows, columns, samples) };
    if polynomial {
        return Opcode::map_polynomial(area, &[0.125, 0.5, 0.25]);
    }
    Opcode::gain_map(area, &GainMap::spread(&[[0.1, 0.7, 1.3], [0.9, 0.3, 0.6]]))
}
