//! "M becomes the greatest B over all active samples of the plane" (document
//! 02): a cell, a row's and a column's delta count only where they meet.

mod common;

use common::*;
use reference::builder::{Dng, Picture, Tag};
use reference::bytes::ByteOrder;
use reference::develop::accept;
use reference::generate::{generate, generate_valid};

/// A mosaic whose stored samples are all 100.
fn grey([rows, columns]: [u16; 2]) -> Dng {
    let stored = vec![100; usize::from(rows * columns)];
    let picture = Picture { stored, ..Picture::counting(columns.into(), rows.into(), 1, 8) };
    Dng::new(ByteOrder::Little, &picture)
}

/// Every one of some rows with every column.
fn places([rows, columns]: [u16; 2]) -> impl Iterator<Item = [u16; 2]> {
    (0..rows).flat_map(move |row| (0..columns).map(move |column| [row, column]))
}

/// The same file with black levels that repeat.
fn with_cells(dng: Dng, repeat: [u16; 2], cells: &[u16]) -> Dng {
    dng.with(Tag::shorts(50713, &repeat)).with(Tag::shorts(50714, cells))
}

/// A repeat with one cell of 90 among zeros.
fn with_one_cell(dng: Dng, [rows, columns]: [u16; 2], [row, column]: [u16; 2]) -> Dng {
    let mut cells = vec![0; usize::from(rows * columns)];
    cells[usize::from(row * columns + column)] = 90;
    with_cells(dng, [rows, columns], &cells)
}

fn with_deltas(dng: Dng, tag: u16, deltas: &[i32]) -> Dng {
    dng.with(Tag::srationals(tag, &deltas.iter().map(|delta| (*delta, 1)).collect::<Vec<_>>()))
}

/// M is this whole number: a white of as much is not above it, one more is.
#[track_caller]
fn greatest_is(dng: &Dng, m: u16) {
    refuses(&dng.clone().with(Tag::shorts(50717, &[m])), 9, 0);
    accepts(&dng.clone().with(Tag::shorts(50717, &[m + 1])));
}

/// Blacks, in whole numbers, of samples that are all 100, and a white level.
fn levels_over(blacks: &[i64], white: i64) -> Vec<u32> {
    let m = blacks.iter().max().expect("there is a sample");
    blacks.iter().map(|b| level_by_search(100 - b, white - m)).collect()
}

#[test]
fn a_cell_counts_where_a_sample_meets_it() {
    let areas = [[1, 1], [1, 3], [1, 4], [2, 1], [2, 3], [3, 1], [3, 4], [4, 5]];
    for (repeat, area) in [[2, 2], [3, 4]].into_iter().flat_map(|repeat| areas.map(|area| (repeat, area))) {
        for cell in places(repeat) {
            let met = cell[0] < area[0] && cell[1] < area[1];
            greatest_is(&with_one_cell(grey(area), repeat, cell), if met { 90 } else { 0 });
        }
    }
}

#[test]
fn an_unmet_cell_may_be_above_the_white() {
    let dng = with_cells(grey([1, 2]), [2, 2], &[10, 20, 65_535, 65_535]).with(Tag::shorts(50717, &[180]));
    assert_eq!(levels(&dng), levels_over(&[10, 20], 180));
    // It is still a value of its tag.
    refuses(&dng.clone().with(Tag::longs(50714, &[10, 20, 65_536, 0])), 8, 50714);
    refuses(&dng.with(Tag::rationals(50714, &[(10, 1), (20, 1), (0, 1), (1, 0)])), 4, 50714);
}

#[test]
fn cells_are_counted_from_the_active_corner() {
    for [top, left] in places([4, 5]) {
        let dng = grey([4, 5]).with(Tag::shorts(50829, &[top, left, top + 1, left + 1]));
        for cell in places([3, 2]) {
            let dng = with_one_cell(dng.clone(), [3, 2], cell);
            greatest_is(&dng, if cell == [0, 0] { 90 } else { 0 });
        }
    }
}

#[test]
fn maxima_that_never_meet_do_not_add_up() {
    // The three maxima, 40, 5 and 7, would make 52.
    let dng = with_cells(grey([2, 2]), [2, 2], &[10, 20, 30, 40]);
    let dng = with_deltas(with_deltas(dng, 50715, &[5, 0]), 50716, &[7, 0]);
    greatest_is(&dng, 40);
    let white = |white: u16| dng.clone().with(Tag::shorts(50717, &[white]));
    for w in [41, 51, 52, 53, 200] {
        assert_eq!(levels(&white(w)), levels_over(&[22, 27, 35, 40], w.into()));
    }
}

#[test]
fn the_greatest_meet_in_a_later_row_or_column() {
    // Rows 1, 3, 5 and columns 2, 5 take the cell of 40.
    let cells = [10, 10, 10, 10, 10, 40];
    for [row, column] in places([6, 7]) {
        let (mut rows, mut columns) = ([0; 6], [0; 7]);
        (rows[usize::from(row)], columns[usize::from(column)]) = (3, 4);
        let dng = with_deltas(with_cells(grey([6, 7]), [2, 3], &cells), 50716, &rows);
        let greatest = match (row % 2 == 1, column % 3 == 2) {
            (true, true) => 47,
            (true, false) => 43,
            (false, true) => 44,
            (false, false) => 40,
        };
        greatest_is(&with_deltas(dng, 50715, &columns), greatest);
    }
}

#[test]
fn deltas_that_are_all_negative_lower_it() {
    let dng = with_deltas(grey([2, 2]).with(Tag::shorts(50714, &[20])), 50715, &[-15, -12]);
    greatest_is(&dng, 8);
    let dng = with_deltas(dng, 50716, &[-3, -1]);
    greatest_is(&dng, 7);
    assert_eq!(levels(&dng), levels_over(&[2, 5, 4, 7], 255));
    // Below 0, a white of 0 is above it.
    let dark = with_deltas(grey([2, 2]), 50716, &[-3, -1]).with(Tag::shorts(50717, &[0]));
    assert_eq!(levels(&dark), levels_over(&[-3, -3, -1, -1], 0));
}

#[test]
fn deltas_may_be_negative_only_where_the_greatest_cell_is() {
    // 40 meets columns 0 and 2, whose deltas are negative.
    let dng = with_deltas(with_cells(grey([1, 4]), [1, 2], &[40, 30]), 50715, &[-25, 1, -20, 2]);
    greatest_is(&dng, 32);
    assert_eq!(levels(&dng), levels_over(&[15, 31, 20, 32], 255));
}

#[test]
fn an_absent_delta_adds_0() {
    let dng = with_cells(grey([2, 3]), [2, 2], &[40, 30, 20, 10]);
    let both =
        |columns: &[i32], rows: &[i32]| with_deltas(with_deltas(dng.clone(), 50715, columns), 50716, rows);
    for (alone, beside_zeros, greatest) in [
        (with_deltas(dng.clone(), 50715, &[-9, -3, -6]), both(&[-9, -3, -6], &[0; 2]), 34),
        (with_deltas(dng.clone(), 50715, &[-19, 2, -16]), both(&[-19, 2, -16], &[0; 2]), 32),
        (with_deltas(dng.clone(), 50716, &[-25, -1]), both(&[0; 3], &[-25, -1]), 19),
        (dng.clone(), both(&[0; 3], &[0; 2]), 40),
    ] {
        greatest_is(&alone, greatest);
        greatest_is(&beside_zeros, greatest);
        assert_eq!(bits(&frame(&alone)), bits(&frame(&beside_zeros)));
    }
}

#[test]
fn each_plane_has_its_own() {
    // Two columns; of each cell the three planes stand together.
    let picture = Picture { stored: vec![100; 6], ..Picture::counting(2, 1, 3, 8) };
    let dng = with_cells(Dng::new(ByteOrder::Big, &picture), [1, 2], &[10, 20, 30, 40, 15, 5]);
    let dng = with_deltas(dng, 50715, &[0, 3]);
    let whites = |whites: [u16; 3]| dng.clone().with(Tag::shorts(50717, &whites));
    accepts(&whites([44, 21, 31]));
    refuses(&whites([43, 21, 31]), 9, 0);
    refuses(&whites([44, 20, 31]), 9, 0);
    refuses(&whites([44, 21, 30]), 9, 0);
    let planes = [levels_over(&[10, 43], 200), levels_over(&[20, 18], 201), levels_over(&[30, 8], 202)];
    let expected: Vec<u32> = [0, 1].into_iter().flat_map(|i| planes.each_ref().map(|l| l[i])).collect();
    assert_eq!(levels(&whites([200, 201, 202])), expected);
}

#[test]
fn nine_is_sharp_at_the_new_limit_and_silent_at_the_old_one() {
    // Cells x, 0 and column deltas 0, 1, white 2, in 256ths: M is x or 256,
    // and the sum of the maxima x + 256.
    let with_cell = |x: u32| {
        Dng::new(ByteOrder::Little, &Picture::row(8, &[1, 2]))
            .with(Tag::shorts(50713, &[1, 2]))
            .with(Tag::rationals(50714, &[(x, 256), (0, 256)]))
            .with(Tag::srationals(50715, &[(0, 256), (256, 256)]))
            .with(Tag::shorts(50717, &[2]))
    };
    accepts(&with_cell(511));
    refuses(&with_cell(512), 9, 0);
    refuses(&with_cell(513), 9, 0);
    // The old limit is at 256. Stored 1 in the first column: D is 256 - x.
    for (x, level) in [(128, 32_768), (254, 512), (255, 256), (256, 0), (257, 0), (258, 0)] {
        accepts(&with_cell(x));
        assert_eq!(levels(&with_cell(x)), [level, 65_535]);
    }
}

#[test]
fn nine_keeps_its_place() {
    // 40 and 3 never meet: M is 40, and the sum of the maxima 43.
    let dng = with_deltas(with_cells(grey([1, 2]), [1, 2], &[40, 30]), 50715, &[0, 3]);
    let whites = |white: u16| dng.clone().with(Tag::shorts(50717, &[white]));
    let bad_list = Tag::undefined(51009, &[0, 0, 0, 33]);
    for (white, nine_or_list) in [(40, (9, 0)), (41, (11, 32)), (43, (11, 32)), (44, (11, 32))] {
        refuses(&whites(white).with(bad_list.clone()), nine_or_list.0, nine_or_list.1);
        refuses(&whites(white).with(Tag::bytes(51008, &[0])), 8, 51008);
        refuses(&whites(white).with(Tag::undefined(51009, &[0; 3])), 4, 51009);
        refuses(&whites(white).with(Tag::srationals(50716, &[(1, 0)])), 4, 50716);
    }
}

#[test]
fn both_ways_to_find_it_agree() {
    let great = (0..2_000).map(|index| generate(24, index)).filter(|case| case.label == "great");
    let small = (0..2_000).map(|index| generate_valid(25, index));
    let (mut above, mut files) = (0, 0);
    for file in great.map(|case| case.file).chain(small) {
        let accepted = accept(&file).expect("a valid file");
        let size = accepted.size();
        if size.rows * size.columns > 6_000_000 {
            continue;
        }
        files += 1;
        above += u32::from(size.rows * size.columns > 1 << 16);
        for plane in 0..size.samples {
            let levels = &accepted.raw.levels;
            let of_samples = levels.greatest_of_samples(plane);
            assert_eq!(levels.greatest_of_rows(plane), of_samples);
            assert_eq!(levels.greatest_black(plane), of_samples);
        }
    }
    assert!(files > 2_000 && above >= 3, "{files} files, {above} of them great");
}
