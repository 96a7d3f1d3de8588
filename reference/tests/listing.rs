//! The listing: its lines, its refusals, and the limit of its input.

mod common;

use std::io::{self, Write};

use common::*;
use reference::builder::{Area, Data, Dng, Opcode, Picture, Place, Tag};
use reference::bytes::{ByteOrder, LAYOUTS};
use reference::generate::generate;
use reference::tag_test::SHORT;
use reference::{card, listing, window, write_listing, Crop};

#[test]
fn a_frame_is_listed_row_by_row_planes_together() {
    let dng = linear(2, 2).with(Tag::longs(50717, &[11; 3]));
    let values = frame(&dng);
    let mut expected = String::from("frame 2 2 3\n");
    for row in values.chunks(6) {
        let words: Vec<String> = row.iter().map(|v| format!("{:016x}", v.to_bits())).collect();
        expected += &format!("{}\n", words.join(" "));
    }
    assert_eq!(listing(&dng.file()), expected);
}

#[test]
fn a_refusal_is_one_line() {
    assert_eq!(listing(&mosaic(2, 2).without(256).file()), "refused 5 256\n");
    assert_eq!(listing(b""), "refused 1 0\n");
    assert_eq!(listing(b"12345678"), "refused 2 0\n");
}

#[test]
fn the_input_has_at_most_65536_bytes() {
    let mut file = mosaic(1, 1).file();
    file.resize(65_536, 0);
    assert_eq!(listing(&file), "frame 1 1 1\n0000000000000000\n");
    file.push(0);
    assert_eq!(listing(&file), "refused 1 0\n");
    assert_eq!(listing(&vec![0; 65_537]), "refused 1 0\n");
}

#[test]
fn a_listing_agrees_with_the_calls() {
    for index in 0..800 {
        let file = generate(30, index).file;
        let card = card(&file);
        if file.len() > 65_536 || card.rows * card.columns > 10_000 {
            continue;
        }
        let text = listing(&file);
        if card.number != 0 {
            assert_eq!(text, format!("refused {} {}\n", card.number, card.detail));
            continue;
        }
        let Crop { left, top, columns, rows } = card.crop;
        let mut lines = text.lines();
        let head = format!("frame {rows} {columns} {}", card.samples);
        assert_eq!(lines.next(), Some(&head[..]));
        let words: Vec<u64> = lines
            .flat_map(|line| line.split(' '))
            .map(|w| u64::from_str_radix(w, 16).expect("hex"))
            .collect();
        let mut crop = vec![UNTOUCHED; (rows * columns * card.samples) as usize];
        assert_eq!(window(&file, top, left, rows, columns, &mut crop), DONE);
        assert_eq!(words, bits(&crop));
        assert_eq!(text.lines().count() as u64, rows + 1);
    }
}

/// The value of an 8-bit sample where black is 0 and white 255.
fn eight_bits(stored: u64) -> f64 {
    (257 * stored) as f64 / 65535.0
}

/// The lines of a crop whose samples have these values.
fn lines_of<const V: usize>(head: &str, rows: &[[f64; V]]) -> String {
    let line = |row: &[f64; V]| row.map(|v| format!("{:016x}", v.to_bits())).join(" ") + "\n";
    head.to_string() + "\n" + &rows.iter().map(line).collect::<String>()
}

/// 6 x 5 samples that count up from 0; the active area begins at stored row 1,
/// column 2, and the crop at its row 2, column 1: stored rows 3 and 4, columns 3
/// to 5.
#[test]
fn of_a_mosaic_the_rows_and_columns_of_the_crop_are_listed() {
    let dng = mosaic(6, 5)
        .with(Tag::longs(50829, &[1, 2, 5, 6]))
        .with(Tag::shorts(50719, &[1, 2]))
        .with(Tag::shorts(50720, &[3, 2]));
    let expected = lines_of("frame 2 3 1", &[[21, 22, 23].map(eight_bits), [27, 28, 29].map(eight_bits)]);
    for widths in LAYOUTS {
        assert_eq!(listing(&Dng { widths, ..dng.clone() }.file()), expected);
    }
    // One column of all active rows.
    let dng = dng.with(Tag::shorts(50719, &[3, 0])).with(Tag::shorts(50720, &[1, 4]));
    let column = [[11], [17], [23], [29]].map(|row| row.map(eight_bits));
    assert_eq!(listing(&dng.file()), lines_of("frame 4 1 1", &column));
}

/// 4 x 3 pixels; sample i of the frame is i, and white is 35, so that its value is
/// that of L: 65535 i / 35, a half up.
#[test]
fn of_linear_raw_the_rows_and_columns_of_the_crop_are_listed() {
    let dng = linear(4, 3)
        .with(Tag::longs(50717, &[35; 3]))
        .with(Tag::rationals(50719, &[(4, 2), (1, 1)]))
        .with(Tag::longs(50720, &[2, 1]));
    let row = [18, 19, 20, 21, 22, 23].map(|i| f64::from(level_by_search(256 * i, 256 * 35)) / 65535.0);
    assert_eq!(listing(&dng.file()), lines_of("frame 1 2 3", &[row]));
    assert_eq!(listing(&dng.with(Tag::longs(50720, &[3, 1])).file()), "refused 4 50720\n");
}

/// Takes so many bytes and no more.
struct Narrow(usize);

impl Write for Narrow {
    fn write(&mut self, bytes: &[u8]) -> io::Result<usize> {
        self.0 = self.0.checked_sub(bytes.len()).ok_or(io::ErrorKind::WriteZero)?;
        Ok(bytes.len())
    }

    fn flush(&mut self) -> io::Result<()> {
        Ok(())
    }
}

/// 16,384 x 16,384 samples in less than 65,536 bytes: every strip of two rows
/// stands at the start of the file, over the strips' own tags.
#[test]
fn a_small_file_may_hold_a_great_frame() {
    let picture =
        Picture { width: 16_384, length: 16_384, samples: 1, bits: 8, rows_per_strip: 2, stored: Vec::new() };
    let dng = Dng::new(ByteOrder::Big, &picture)
        .with(Tag::new(273, SHORT, Data::ShortPlaces(vec![Place::At(0); 8_192])))
        .with(Tag::shorts(279, &[32_768; 8_192]));
    let file = dng.file();
    assert!(file.len() <= 65_536);
    let card = card(&file);
    assert_eq!((card.answer(), card.rows, card.columns), (DONE, 16_384, 16_384));
    assert_eq!(spot_value(&file, 16_383, 16_383, 0), f64::from(file[32_767]) / 255.0);
    assert_eq!(spot_value(&file, 16_382, 0, 0), f64::from(b'M') * 257.0 / 65535.0);
    // The first rows are written before the rest are made.
    assert!(write_listing(&file, &mut Narrow(2_000_000)).is_err());
}

/// The stored input `data/crop` and its listing `data/crop.txt`, worked out by hand.
///
/// 8 rows of 10 stored samples; the sample at row r, column c is 104 + 10 r + c. The
/// active area has 5 rows from 1 and 7 columns from 2, and the crop 3 rows from 1
/// and 4 columns from 2 of these: stored rows 2 to 4, columns 4 to 7, or
///
/// | | column 2 | 3 | 4 | 5 |
/// |---|---|---|---|---|
/// | row 1 | 128 | 129 | 130 | 131 |
/// | row 2 | 138 | 139 | 140 | 141 |
/// | row 3 | 148 | 149 | 150 | 151 |
///
/// The ScalePerRow has active rows 0 and 3, of which row 3 takes the second factor,
/// 1/2. The ScalePerColumn has columns 0, 3 and 6, of which column 3 takes the
/// second, 1/4. Counted from the stored corner they would have row 2 and column 4,
/// and from the crop's row 1 and columns 2 and 5.
///
/// Black is 0 and white 255, so a sample s has L = 257 s and the value s / 255. With
/// two hex digits to a byte that is 0.ssssss.. without end. From 128 on its first
/// bit is 1, and the 52 bits behind it are the byte q = 2 s - 255 (s turned left by
/// one bit) six times and its first digit once more, one up if its second digit is
/// 8 or more: 128 has 01, and 3fe 0101010101010; 140 has 19, and 3fe 1919191919192.
/// A factor of 1/2 takes 1 from the exponent 3fe, 1/4 takes 2, both take 3.
fn stored_crop() -> Dng {
    let picture = Picture { stored: (104..184).collect(), ..Picture::counting(10, 8, 1, 8) };
    let rows = Area { row_pitch: 3, ..Area::whole(5, 7, 1) };
    let columns = Area { column_pitch: 3, ..Area::whole(5, 7, 1) };
    Dng::new(ByteOrder::Big, &picture)
        .with(Tag::shorts(50829, &[1, 2, 6, 9]))
        .with(Tag::rationals(50719, &[(4, 2), (3, 3)]))
        .with(Tag::shorts(50720, &[4, 3]))
        .with_opcodes(&[
            Opcode::per_line(12, rows, &[0.25, 0.5]),
            Opcode::per_line(13, columns, &[0.5, 0.25, 0.125]),
        ])
}

const STORED_CROP: &str = "frame 3 4 1
3fe0101010101010 3fc0303030303030 3fe0505050505050 3fe0707070707070
3fe1515151515151 3fc1717171717171 3fe1919191919192 3fe1b1b1b1b1b1b2
3fd2929292929293 3fb2b2b2b2b2b2b3 3fd2d2d2d2d2d2d3 3fd2f2f2f2f2f2f3
";

#[test]
fn the_stored_crop_is_listed_as_worked_out() {
    let (file, lines) = (include_bytes!("data/crop"), include_str!("data/crop.txt"));
    assert_eq!(lines, STORED_CROP);
    assert_eq!(stored_crop().file(), file);
    assert_eq!(listing(file), lines);
}
