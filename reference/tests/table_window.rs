//! Windows by tables of 256 scaled values, one for each black cell (document 02,
//! T-10): tables worked out by hand, which files take them, which cells a window
//! meets, and a call that equals the window in number, detail and slice.

mod common;

use common::*;
use reference::builder::{Area, Dng, Opcode, Picture, Tag};
use reference::bytes::ByteOrder;
use reference::cases::{answer_line, Call};
use reference::develop::accept;
use reference::generate::generate;
use reference::random::Random;
use reference::tables::{Table, Tables};
use reference::{card, table_window, window, Answer};

/// The stored byte at each place: neighbours differ, and 256 in a row or in a column
/// are all bytes.
fn byte_at(row: u32, column: u32) -> u16 {
    ((37 * row + 91 * column) % 256) as u16
}

/// An 8-bit mosaic of these bytes.
fn bytes(width: u32, length: u32) -> Dng {
    let stored = (0..width * length).map(|place| byte_at(place / width, place % width)).collect();
    Dng::new(ByteOrder::Little, &Picture { stored, ..Picture::counting(width, length, 1, 8) })
}

/// Black levels in 256ths of a repeat, and a white level.
fn with_levels(dng: Dng, repeat: [u16; 2], cells: &[u32], white: u32) -> Dng {
    let cells: Vec<(u32, u32)> = cells.iter().map(|cell| (*cell, 256)).collect();
    dng.with(Tag::shorts(50713, &repeat))
        .with(Tag::rationals(50714, &cells))
        .with(Tag::longs(50717, &[white]))
}

fn table(dng: &Dng, cell: [u64; 2]) -> Table {
    let file = dng.file();
    let accepted = accept(&file).expect("a good file");
    assert!(accepted.takes_tables());
    accepted.table(cell)
}

/// L of some bytes in the table of a cell.
#[track_caller]
fn holds(dng: &Dng, cell: [u64; 2], levels: &[(usize, u32)]) {
    let table = table(dng, cell);
    for (s, level) in levels.iter().copied() {
        assert_eq!(table[s].to_bits(), (f64::from(level) / 65535.0).to_bits(), "cell {cell:?}, byte {s}");
    }
}

/// Of all bytes from one on to another.
fn from_to(first: usize, last: usize, level: u32) -> Vec<(usize, u32)> {
    (first..=last).map(|s| (s, level)).collect()
}

/// Blacks 10, 20, 30, 40 and white 255: S is 215 for every cell.
#[test]
fn tables_of_whole_blacks() {
    let dng = with_levels(bytes(2, 2), [2, 2], &[2_560, 5_120, 7_680, 10_240], 255);
    for (cell, black, of_100, of_128) in
        [([0, 0], 10, 27_433, 35_968), ([0, 1], 20, 24_385, 32_920), ([1, 0], 30, 21_337, 29_872)]
    {
        holds(&dng, cell, &from_to(0, black, 0));
        holds(&dng, cell, &[(black + 1, 305), (black + 2, 610), (100, of_100), (128, of_128)]);
        holds(&dng, cell, &[(black + 214, 65_230)]);
        holds(&dng, cell, &from_to(black + 215, 255, 65_535));
    }
    holds(&dng, [1, 1], &from_to(0, 40, 0));
    holds(&dng, [1, 1], &[(41, 305), (100, 18_289), (128, 26_824), (254, 65_230), (255, 65_535)]);
}

/// Board example 3, black 129/2; then four cells of 1, 6, 255 and 260 256ths under
/// white 3, so that S is 508.
#[test]
fn tables_of_256ths() {
    let dng = with_levels(bytes(1, 1), [1, 1], &[129 * 128], 1_087);
    holds(&dng, [0, 0], &[(0, 0), (64, 0), (65, 32), (66, 96), (128, 4_070), (255, 12_210)]);
    let dng = with_levels(bytes(4, 1), [1, 4], &[1, 6, 255, 260], 3);
    holds(&dng, [0, 0], &[(0, 0), (1, 32_897), (2, 65_535), (255, 65_535)]);
    holds(&dng, [0, 1], &[(0, 0), (1, 32_251), (2, 65_277), (3, 65_535), (255, 65_535)]);
    holds(&dng, [0, 2], &[(0, 0), (1, 129), (2, 33_155), (3, 65_535), (255, 65_535)]);
    holds(&dng, [0, 3], &[(0, 0), (1, 0), (2, 32_509), (3, 65_535), (255, 65_535)]);
}

/// White 3 above the greatest black: nearly all bytes are clipped.
#[test]
fn tables_clipped_at_both_ends() {
    let dng = with_levels(bytes(1, 2), [2, 1], &[100 * 256, 99 * 256], 103);
    for (cell, black) in [([0, 0], 100), ([1, 0], 99)] {
        holds(&dng, cell, &from_to(0, black, 0));
        holds(&dng, cell, &[(black + 1, 21_845), (black + 2, 43_690)]);
        holds(&dng, cell, &from_to(black + 3, 255, 65_535));
    }
}

/// 50713 and 50714 absent: one cell of black 0; with the default white every byte s
/// has L = 257 s. So has a repeat whose blacks are absent.
#[test]
fn tables_of_default_levels() {
    let all: Vec<(usize, u32)> = (0..256).map(|s| (s, 257 * s as u32)).collect();
    holds(&bytes(3, 3), [0, 0], &all);
    let dng = bytes(3, 3).with(Tag::shorts(50713, &[2, 3]));
    for cell in [[0, 0], [0, 1], [0, 2], [1, 0], [1, 1], [1, 2]] {
        holds(&dng, cell, &all);
    }
}

/// Board example 5 and a last entry that falls, under white 800: past the table's
/// end every byte has its last entry.
#[test]
fn tables_through_short_linearization_tables() {
    let dng = bytes(2, 2).with(Tag::shorts(50717, &[800]));
    let three = dng.clone().with(Tag::shorts(50712, &[0, 100, 400]));
    holds(&three, [0, 0], &[(0, 0), (1, 8_192)]);
    holds(&three, [0, 0], &from_to(2, 255, 32_768));
    let four = dng.clone().with(Tag::shorts(50712, &[0, 100, 400, 50]));
    holds(&four, [0, 0], &[(0, 0), (1, 8_192), (2, 32_768)]);
    holds(&four, [0, 0], &from_to(3, 255, 4_096));
    let one = dng.with(Tag::shorts(50712, &[400]));
    holds(&one, [0, 0], &from_to(0, 255, 32_768));
}

/// Entries 3 s under white 765: L is 257 s. The entry of byte 255 counts where there
/// is one, entries behind it never.
#[test]
fn tables_through_long_linearization_tables() {
    let dng = bytes(2, 2).with(Tag::shorts(50717, &[765]));
    let all: Vec<(usize, u32)> = (0..256).map(|s| (s, 257 * s as u32)).collect();
    let entries = |length: u16| (0..length).map(|s| if s < 256 { 3 * s } else { 1 }).collect::<Vec<u16>>();
    for length in [256, 257, 300] {
        holds(&dng.clone().with(Tag::shorts(50712, &entries(length))), [0, 0], &all);
    }
    let dng = dng.with(Tag::shorts(50712, &entries(255)));
    holds(&dng, [0, 0], &all[..255]);
    holds(&dng, [0, 0], &[(255, 257 * 254)]);
}

/// A cell at or above the white is one that no sample meets (T-02); where one does,
/// the file is refused by 9.
#[test]
fn no_cell_that_is_met_is_above_the_white() {
    let dng = |rows| with_levels(bytes(3, rows), [2, 1], &[2_560, 65_535 * 256], 255);
    holds(&dng(1), [0, 0], &[(10, 0), (11, 267), (255, 65_535)]);
    assert_eq!(tables_met(&dng(1), [0, 0, 1, 3]), 1);
    let mut out = [UNTOUCHED; 6];
    assert_eq!(table_window(&dng(2).file(), 0, 0, 2, 3, &mut out), refusal(9, 0));
    assert_eq!(out, [UNTOUCHED; 6]);
}

fn tables_met(dng: &Dng, [top, left, height, width]: [u64; 4]) -> usize {
    let file = dng.file();
    let accepted = accept(&file).expect("a good file");
    Tables::new(&accepted, top..top + height, left..left + width).count()
}

/// "Tables are made of the cells that the window meets": as many as rows and columns
/// of the window, but no more than the repeat has.
#[test]
fn tables_of_the_cells_that_a_window_meets() {
    let cells: Vec<u32> = (0..64).collect();
    let dng = with_levels(bytes(40, 30), [8, 8], &cells, 255);
    for (rectangle, count) in [
        ([0, 0, 1, 1], 1),
        ([7, 9, 1, 1], 1),
        ([5, 6, 1, 34], 8),
        ([5, 6, 25, 1], 8),
        ([6, 3, 3, 5], 15),
        ([1, 1, 7, 39], 56),
        ([1, 1, 29, 7], 56),
        ([0, 0, 8, 8], 64),
        ([3, 5, 8, 8], 64),
        ([0, 0, 30, 40], 64),
    ] {
        assert_eq!(tables_met(&dng, rectangle), count, "{rectangle:?}");
    }
    assert_eq!(tables_met(&bytes(40, 30), [0, 0, 30, 40]), 1);
}

/// Zeros for every column or row of the active area.
fn no_delta(tag: u16, count: usize) -> Tag {
    Tag::srationals(tag, &vec![(0, 1); count])
}

#[test]
fn which_files_take_tables() {
    let takes = |dng: Dng| accept(&dng.file()).expect("a good file").takes_tables();
    let area = Area::whole(2, 3, 1);
    let list = [Opcode::per_line(10, area, &[0.5; 2]), Opcode::new(99, 1, vec![])];
    for dng in [
        bytes(3, 2),
        with_levels(bytes(3, 2), [1, 3], &[1, 2, 3], 255),
        bytes(3, 2).with(Tag::shorts(50712, &[1, 2])),
        bytes(3, 2).with_opcodes(&list),
        bytes(3, 2).nested(1).with_first(no_delta(50715, 3)).with_first(no_delta(50716, 2)),
    ] {
        assert!(takes(dng.clone()) && takes(dng.in_64_bits()));
    }
    let eight_bit_linear = Dng::new(ByteOrder::Big, &Picture::counting(3, 2, 3, 8));
    for dng in [
        row_of(&[1, 2, 3]),
        linear(3, 2),
        eight_bit_linear,
        bytes(3, 2).with(no_delta(50715, 3)),
        bytes(3, 2).with(no_delta(50716, 2)),
        bytes(3, 2).with(no_delta(50715, 3)).with(no_delta(50716, 2)),
    ] {
        assert!(!takes(dng.clone()) && !takes(dng.in_64_bits()));
    }
}

/// The answer to a table window, and its slice, which is untouched before it.
fn ask(file: &[u8], [top, left, height, width]: [u64; 4], slice: usize) -> (Answer, Vec<u64>) {
    let mut out = vec![UNTOUCHED; slice];
    let answer = table_window(file, top, left, height, width, &mut out);
    (answer, bits(&out))
}

/// The table window equals the window, whose answer this gives.
#[track_caller]
fn equals_window(file: &[u8], rectangle: [u64; 4], slice: usize) -> Answer {
    let [top, left, height, width] = rectangle;
    let mut out = vec![UNTOUCHED; slice];
    let answer = window(file, top, left, height, width, &mut out);
    let (found, values) = ask(file, rectangle, slice);
    let differs = values.iter().zip(bits(&out)).position(|(a, b)| *a != b);
    assert_eq!((found, differs), (answer, None), "{rectangle:?}, slice {slice}");
    answer
}

/// Board example 11: a list is applied to what is looked up.
#[test]
fn the_list_is_applied() {
    let area = Area { left: 1, right: 2, ..Area::whole(1, 3, 1) };
    let dng = Dng::new(ByteOrder::Little, &Picture::row(8, &[16, 144, 255]))
        .with(Tag::shorts(50714, &[16]))
        .with_opcodes(&[Opcode::map_polynomial(area, &[0.5])]);
    let (answer, values) = ask(&dng.file(), [0, 0, 1, 3], 3);
    assert_eq!((answer, values), (DONE, bits(&[0.0, 0.5, 1.0])));
    // 0.75 of 1, then 0.125 more: the order of the list.
    let whole = Area::whole(1, 3, 1);
    let list = [Opcode::per_line(13, whole, &[1.0, 1.0, 0.75]), Opcode::per_line(10, whole, &[0.125])];
    let (answer, values) = ask(&dng.with_opcodes(&list).file(), [0, 2, 1, 1], 1);
    assert_eq!((answer, values), (DONE, bits(&[0.875])));
}

/// What deltas leave: black 10 with a column's 5 and a row's -2, white 113. M is 15
/// with the columns' alone, 8 with the rows' alone, 13 with both.
#[test]
fn deltas_count_where_a_tag_of_them_is_there() {
    let dng = || {
        let stored = vec![60; 1];
        let picture = Picture { stored, ..Picture::counting(1, 1, 1, 8) };
        with_levels(Dng::new(ByteOrder::Big, &picture), [1, 1], &[2_560], 113)
    };
    let [column, row] = [Tag::srationals(50715, &[(5, 1)]), Tag::srationals(50716, &[(-2, 1)])];
    for (dng, d, s) in [
        (dng(), 50, 103),
        (dng().with(column.clone()), 45, 98),
        (dng().with(row.clone()), 52, 105),
        (dng().with(column).with(row), 47, 100),
    ] {
        let level = f64::from(level_by_search(d, s)) / 65535.0;
        assert_eq!(ask(&dng.file(), [0, 0, 1, 1], 1), (DONE, bits(&[level])));
    }
}

/// 16 bits, and 8 bits of three planes with blacks 10, 20 and 30: L by search.
#[test]
fn other_files_go_the_windows_way() {
    let (answer, values) = ask(&row_of(&[0, 255, 256, 65_535]).file(), [0, 0, 1, 4], 4);
    assert_eq!((answer, values), (DONE, bits(&[0.0, 255.0 / 65535.0, 256.0 / 65535.0, 1.0])));
    let stored = vec![60, 70, 80, 10, 255, 31];
    let picture = Picture { stored: stored.clone(), ..Picture::counting(2, 1, 3, 8) };
    let dng = Dng::new(ByteOrder::Little, &picture).with(Tag::shorts(50714, &[10, 20, 30]));
    let level = |(place, stored): (usize, &u16)| {
        let black = 10 + 10 * (place as i64 % 3);
        let (d, s) = (i64::from(*stored) - black, 255 - black);
        f64::from(if d <= 0 { 0 } else { level_by_search(d, s) }) / 65535.0
    };
    let expected: Vec<f64> = stored.iter().enumerate().map(level).collect();
    assert_eq!(ask(&dng.file(), [0, 0, 1, 2], 6), (DONE, bits(&expected)));
}

/// The active corner of `framed`, and its active rows and columns.
const CORNER: [u32; 2] = [3, 5];
const SIDES: [u32; 2] = [19, 23];

/// Cells of a repeat whose blacks are all apart, in 256ths.
fn cells_of([rows, columns]: [u16; 2]) -> Vec<u32> {
    (0..u32::from(rows * columns)).map(|cell| 100 + 397 * cell % 20_000).collect()
}

/// A frame with an active area off its corner, in strips of four rows.
fn framed(repeat: [u16; 2]) -> Dng {
    let ([top, left], [rows, columns]) = (CORNER, SIDES);
    let (width, length) = (left + columns + 2, top + rows + 1);
    let stored = (0..width * length).map(|place| byte_at(place / width, place % width)).collect();
    let picture = Picture { stored, rows_per_strip: 4, ..Picture::counting(width, length, 1, 8) };
    let dng =
        Dng::new(ByteOrder::Big, &picture).with(Tag::longs(50829, &[top, left, top + rows, left + columns]));
    with_levels(dng, repeat, &cells_of(repeat), 240)
}

fn every_repeat() -> impl Iterator<Item = [u16; 2]> {
    (1..=8).flat_map(|rows| (1..=8).map(move |columns| [rows, columns]))
}

/// Each sample under the black of its cell, counted from the active corner, by L
/// that is found by search.
#[test]
fn each_sample_is_looked_up_under_its_own_cell() {
    for repeat in every_repeat() {
        let (file, cells) = (framed(repeat).file(), cells_of(repeat));
        let s = 240 * 256 - i64::from(cells.iter().copied().max().unwrap_or(0));
        let [repeat_rows, repeat_columns] = repeat.map(u32::from);
        let value = |row: u32, column: u32| {
            let cell = row % repeat_rows * repeat_columns + column % repeat_columns;
            let stored = byte_at(CORNER[0] + row, CORNER[1] + column);
            let d = 256 * i64::from(stored) - i64::from(cells[cell as usize]);
            let level = if d <= 0 { 0 } else { level_by_search(d.min(s), s) };
            (f64::from(level) / 65535.0).to_bits()
        };
        for [top, left, height, width] in [[0, 0, 19, 23], [2, 3, 7, 9], [11, 1, 8, 22], [18, 22, 1, 1]] {
            let places = (top..top + height).flat_map(|row| (left..left + width).map(move |c| (row, c)));
            let expected = places.map(|(row, column)| value(row, column)).collect();
            let rectangle = [top, left, height, width].map(u64::from);
            let found = ask(&file, rectangle, (height * width) as usize);
            assert_eq!(found, (DONE, expected), "{repeat:?}, {rectangle:?}");
        }
    }
}

/// Windows that meet some cells or all, from every row and column of the repeat.
#[test]
fn the_call_equals_the_window_at_every_repeat() {
    let area = Area { top: 1, left: 2, row_pitch: 2, column_pitch: 3, ..Area::whole(SIDES[0], SIDES[1], 1) };
    let list = [Opcode::map_polynomial(area, &[0.1, 0.5, 0.3]), Opcode::per_line(10, area, &[0.05; 9])];
    let entries: Vec<u16> = (0..200).map(|i| 17 * i % 251).collect();
    for repeat in every_repeat() {
        let plain = framed(repeat);
        let linear = plain.clone().with(Tag::shorts(50712, &entries));
        for dng in [plain.clone().with_opcodes(&list), linear.clone().with_opcodes(&list), plain, linear] {
            let file = dng.in_64_bits().file();
            for start in 0..8 {
                for [height, width] in [[1, 1], [1, 15], [11, 1], [2, 7], [7, 3], [8, 8], [9, 10]] {
                    let rectangle = [start, (3 * start) % 8, height, width];
                    assert_eq!(equals_window(&file, rectangle, (height * width) as usize), DONE);
                }
            }
        }
    }
}

/// Of generated files of every kind, accepted and refused: the arguments of all
/// windows and table windows.
#[test]
fn the_call_equals_the_window_of_generated_files() {
    let (mut by_tables, mut other, mut refused) = (0, 0, 0);
    for index in 0..6_000 {
        let case = generate(50, index);
        let takes = accept(&case.file).is_ok_and(|accepted| accepted.takes_tables());
        for call in &case.calls {
            let (Call::Window { top, left, height, width, slice }
            | Call::TableWindow { top, left, height, width, slice }) = *call
            else {
                continue;
            };
            match equals_window(&case.file, [top, left, height, width], slice) {
                DONE if takes => by_tables += 1,
                DONE => other += 1,
                _ => refused += 1,
            }
        }
    }
    println!("{by_tables} by tables, {other} by the window's way, {refused} refused");
    assert!(by_tables > 1_500 && other > 10_000 && refused > 15_000);
}

/// 13, then 14, on a file that takes tables and on one that does not.
#[test]
fn places_and_slices_are_refused_as_by_the_window() {
    let far = [u64::MAX, 1 << 63, 1 << 32];
    let plain = framed([2, 3]);
    for file in [plain.clone().with(no_delta(50715, 23)).file(), plain.file()] {
        for slice in [437, 436, 438, 0] {
            let expected = if slice == 437 { DONE } else { Answer::SLICE };
            assert_eq!(equals_window(&file, [0, 0, 19, 23], slice), expected);
        }
        let near = [[0, 0, 0, 1], [0, 0, 1, 0], [19, 0, 1, 1], [0, 23, 1, 1], [0, 0, 20, 1], [0, 0, 1, 24]];
        let far =
            far.into_iter().flat_map(|n| [[n, 0, 1, 1], [0, n, 1, 1], [0, 0, n, 1], [0, 0, 1, n], [n; 4]]);
        for rectangle in near.into_iter().chain(far) {
            for slice in [1, 0, 437] {
                assert_eq!(equals_window(&file, rectangle, slice), Answer::OUTSIDE);
            }
        }
    }
}

/// A refusal of the file stands before 13 and 14, and leaves the slice.
#[test]
fn a_file_is_refused_before_its_window() {
    let area = Area::whole(SIDES[0], SIDES[1], 1);
    let bad = Opcode::map_polynomial(area, &[f64::NAN]);
    for (dng, answer) in [
        (framed([2, 2]).without(258), refusal(5, 258)),
        (framed([2, 2]).with(Tag::shorts(50713, &[2, 0])), refusal(4, 50713)),
        (framed([2, 2]).with(Tag::shorts(50713, &[2, 9])), refusal(8, 50713)),
        (framed([2, 2]).with(Tag::shorts(50712, &[])), refusal(4, 50712)),
        (framed([2, 2]).with(no_delta(50715, 22)), refusal(4, 50715)),
        (framed([2, 2]).with(no_delta(50716, 18)), refusal(4, 50716)),
        (framed([2, 2]).with(Tag::longs(50717, &[1])), refusal(9, 0)),
        (framed([2, 2]).with_opcodes(&[bad]), refusal(12, 0)),
        (framed([2, 2]).with_opcodes(&[Opcode::new(99, 0, vec![])]), refusal(11, 0)),
    ] {
        for (rectangle, slice) in [([0, 0, 1, 1], 1), ([0, 0, 1, 1], 2), ([0; 4], 0), ([u64::MAX; 4], 1)] {
            let file = dng.file();
            assert_eq!(equals_window(&file, rectangle, slice), answer);
            let (_, values) = ask(&file, rectangle, slice);
            assert!(values.iter().all(|bits| *bits == UNTOUCHED.to_bits()));
        }
    }
}

/// Any window of a great frame, far above 1,024 samples to a cell.
#[test]
fn the_call_equals_the_window_of_a_great_frame() {
    let random = &mut Random::new(10);
    for (repeat, [width, length]) in [([1, 1], [601, 211]), ([3, 2], [2_003, 43]), ([8, 8], [301, 303])] {
        let file = with_levels(bytes(width, length), repeat, &cells_of(repeat), 200).file();
        assert_eq!(card(&file).answer(), DONE);
        let whole = [0, 0, length.into(), width.into()];
        assert_eq!(equals_window(&file, whole, (width * length) as usize), DONE);
        for _ in 0..5 {
            let ([top, bottom], [left, right]) = (random.stretch(length), random.stretch(width));
            let rectangle = [top, left, bottom - top, right - left].map(u64::from);
            let slice = ((bottom - top) * (right - left)) as usize;
            assert_eq!(equals_window(&file, rectangle, slice), DONE);
        }
    }
}

#[test]
fn a_table_window_as_a_line() {
    let file = bytes(3, 2).file();
    let words = ["table_window", "1", "2", "1", "1", "1"];
    let call = Call::TableWindow { top: 1, left: 2, height: 1, width: 1, slice: 1 };
    assert_eq!(Call::parse(&words), Some(call));
    // The byte is 37 + 182 = 219, and L 257 times as much.
    let value = f64::from(219 * 257) / 65535.0;
    assert_eq!(answer_line(&file, &call), format!("table_window 1 2 1 1 1 -> 0 0 {:016x}", value.to_bits()));
}
