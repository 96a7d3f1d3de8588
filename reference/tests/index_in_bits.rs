//! Document 02, T-04, "Show the index in the bits": the rule is the greatest whole
//! number not above v, the worked numbers of `docs/INDEX.md` are right in every
//! cell, and the program's index changes where it must.

mod common;

use common::*;
use reference::builder::Opcode;
use reference::bytes::{ByteOrder, Widths};
use reference::index::{boundary, ends, fields, in_the_bits, index, own_indices, v, Holding};
use reference::opcodes::{Action, OnGrid};
use reference::random::Random;

/// The least and the greatest v.
const LEAST: f64 = 0.5;
const GREATEST: f64 = 65535.5;

/// The order and the layout of the files.
const WAY: (ByteOrder, Widths) = (ByteOrder::Big, Widths::BITS_32);

/// v in 2^-53rds, of which every f64 from 0.5 to 65535.5 is a whole number.
fn units(v: f64) -> u128 {
    assert!((LEAST..=GREATEST).contains(&v), "{v:e}");
    let (e, f) = fields(v);
    u128::from((1 << 52) + f) << (e - 1022)
}

/// "the greatest whole number not above the f64": k <= v < k + 1, in 2^-53rds, and as
/// numbers, each of which is an f64.
#[track_caller]
fn is_whole_part(k: u64, v: f64) {
    let bounds = [k, k + 1];
    let [low, high] = bounds.map(|whole| u128::from(whole) << 53);
    assert!((low..high).contains(&units(v)), "{k} of {v:e}");
    let [low, high] = bounds.map(|whole| f64::from(whole as u32));
    assert!((low..high).contains(&v), "{k} of {v:e}");
}

#[track_caller]
fn the_rule_holds(v: f64) {
    is_whole_part(in_the_bits(v), v);
}

// The rule.

#[test]
fn the_rule_is_the_whole_part_at_both_ends() {
    assert_eq!([LEAST, GREATEST].map(in_the_bits), [0, 65_535]);
    [LEAST, LEAST.next_up(), GREATEST.next_down(), GREATEST].into_iter().for_each(the_rule_holds);
}

#[test]
fn the_rule_is_the_whole_part_beside_every_whole_number() {
    for whole in 1..=65_535u32 {
        let (at, whole) = (f64::from(whole), u64::from(whole));
        let beside = [at.next_down(), at, at.next_up()];
        assert_eq!(beside.map(in_the_bits), [whole - 1, whole, whole]);
        beside.into_iter().for_each(the_rule_holds);
    }
}

/// 1022 is that of v under 1, 1038 that of 32768 and above.
#[test]
fn the_rule_is_the_whole_part_at_every_exponent() {
    let mut asked = 0;
    for e in 1022..=1038 {
        for f in [0, 1, 1 << 51, (1 << 52) - 1] {
            let v = f64::from_bits(e << 52 | f);
            assert_eq!(fields(v), (e, f));
            if (LEAST..=GREATEST).contains(&v) {
                the_rule_holds(v);
                asked += 1;
            }
        }
    }
    // The last F at 1038 is past 65535.5.
    assert_eq!(asked, 4 * 17 - 1);
}

/// One half at random by their bits, the other by their value.
#[test]
fn the_rule_is_the_whole_part_at_random() {
    let mut random = Random::new(4);
    let ends = [LEAST, GREATEST].map(|end| end.to_bits() as i64);
    for _ in 0..50_000 {
        the_rule_holds(f64::from_bits(random.between(ends[0], ends[1]) as u64));
        the_rule_holds(random.between(1 << 36, 131_071 << 36) as f64 / (1u64 << 37) as f64);
    }
}

// The program's own index.

#[test]
fn each_index_has_its_ends() {
    let ends = ends();
    assert_eq!(ends.len(), 65_536);
    for (k, [least, greatest]) in (0..).zip(&ends) {
        assert!(least < greatest);
        is_whole_part(k, v(*least));
        is_whole_part(k, v(*greatest));
    }
    for pair in ends.windows(2) {
        assert_eq!(pair[0][1].next_up(), pair[1][0]);
    }
    assert_eq!([ends[0][0], ends[65_535][1]], [0.0, 1.0]);
}

/// The entry that a MapTable of own indices takes for x.
fn entry_of(table: &Action, x: f64) -> u64 {
    let at = OnGrid { row: 0, column: 0, grid_row: 0, grid_column: 0, grid_plane: 0 };
    (table.apply(at, x) * 65535.0).round() as u64
}

/// At both ends, next to them, and at k / 65535 between them.
#[test]
fn the_program_takes_this_index() {
    let table = Action::MapTable(own_indices(65_536));
    for (k, [least, greatest]) in (0..).zip(ends()) {
        let middle = k as f64 / 65535.0;
        for x in [least, least.next_up(), middle, greatest.next_down(), greatest] {
            is_whole_part(k, v(x));
            assert_eq!([entry_of(&table, x), index(x)], [k; 2], "{:016X}", x.to_bits());
        }
    }
    for denormal in [1, (1 << 52) - 1, 1 << 52] {
        assert_eq!(entry_of(&table, f64::from_bits(denormal)), 0);
    }
}

/// Both ends of every index in a mosaic of 8 rows, and of as many indices as are
/// whole rows in LinearRaw of 3 rows.
fn holding() -> [(Vec<f64>, Holding); 2] {
    [(8, 1), (3, 3)].map(|(rows, planes)| {
        let mut numbers = ends().concat();
        numbers.truncate(numbers.len() / (2 * rows * planes) * (2 * rows * planes));
        let holding = Holding::frame(&numbers, rows, planes);
        (numbers, holding)
    })
}

#[test]
fn a_frame_holds_its_numbers_by_their_bits() {
    for (numbers, holding) in holding() {
        assert_eq!(bits(&frame(&holding.then(WAY, &[]))), bits(&numbers));
    }
    let numbers = [0.0, 1.0, f64::from_bits(1), 1.0f64.next_down(), 0.1];
    let stored = [0, 65_535, 7];
    let all = [&numbers[..], &stored.map(|stored| f64::from(stored) / 65535.0)].concat();
    assert_eq!(bits(&frame(&Holding::row(&numbers, &stored).then(WAY, &[]))), bits(&all));
}

/// Through tables that rise, fall and end early.
#[test]
fn the_window_is_right_at_both_ends_of_every_index() {
    let rising = own_indices(65_536);
    let falling: Vec<u16> = rising.iter().rev().copied().collect();
    for (numbers, holding) in holding() {
        for entries in [&rising[..], &falling, &rising[..40_000], &falling[..2]] {
            let entry = |place: usize| f64::from(entries[(place / 2).min(entries.len() - 1)]);
            let expected: Vec<f64> = (0..numbers.len()).map(|place| entry(place) / 65535.0).collect();
            let found = frame(&holding.then(WAY, &[Opcode::map_table(holding.area, entries)]));
            assert_eq!(bits(&found), bits(&expected), "{} entries", entries.len());
        }
    }
}

/// A row of x through all own indices, by the window and by each spot.
#[track_caller]
fn calls_take(numbers: &[f64], indices: &[u64]) {
    let row = Holding::row(numbers, &[]);
    let file = row.then(WAY, &[Opcode::map_table(row.area, &own_indices(65_536))]).file();
    let expected: Vec<f64> = indices.iter().map(|k| *k as f64 / 65535.0).collect();
    let spots: Vec<f64> = (0..).zip(numbers).map(|(column, _)| spot_value(&file, 0, column, 0)).collect();
    assert_eq!(bits(&frame_of(&file)), bits(&expected));
    assert_eq!(bits(&spots), bits(&expected));
}

/// The first 20 indices, then every 97th, and the last.
#[test]
fn the_spot_is_right_at_both_ends_of_an_index() {
    let indices: Vec<u64> = (0..20).chain((20..65_535).step_by(97)).chain([65_535]).collect();
    let ends = ends();
    for indices in indices.chunks(15) {
        let numbers: Vec<[f64; 2]> = indices.iter().map(|k| ends[*k as usize]).collect();
        calls_take(&numbers.concat(), &indices.iter().flat_map(|k| [*k; 2]).collect::<Vec<u64>>());
    }
}

// The page.

/// A row of the page's table, as it stands there.
struct Row {
    cells: [String; 6],
    x: f64,
    k: u64,
}

fn page() -> String {
    let page = concat!(env!("CARGO_MANIFEST_DIR"), "/../docs/INDEX.md");
    std::fs::read_to_string(page).expect("the page is there")
}

/// The prose in one line.
fn prose() -> String {
    page().split_whitespace().collect::<Vec<&str>>().join(" ")
}

fn rows() -> Vec<Row> {
    let page = page();
    let mut lines = page.lines().filter_map(|line| line.strip_prefix('|')?.strip_suffix('|'));
    let cells = |line: &str| line.split('|').map(|cell| cell.trim().to_string()).collect::<Vec<String>>();
    assert_eq!(lines.next().map(cells), Some(cells("x|v|e|F|1075 - e|k")));
    assert_eq!(lines.next(), Some("---|---|---|---|---|---"));
    let row = |line: &str| {
        let cells: [String; 6] = cells(line).try_into().expect("six cells");
        assert_eq!(cells[0].len(), 16);
        let x = f64::from_bits(u64::from_str_radix(&cells[0], 16).expect("hex"));
        let k = cells[5].parse().expect("a whole number");
        Row { cells, x, k }
    };
    lines.map(row).collect()
}

#[test]
fn the_page_has_five_rows() {
    let rows = rows();
    assert_eq!(rows.len(), 5);
    assert!(prose().contains("Five numbers, with x, v and F in hex:"));
    assert!(rows.iter().any(|row| row.x.to_bits() == 0x3EE0_0010_0010_0010 && row.k == 1));
}

/// As it must stand there, cell by cell.
#[test]
fn every_cell_of_the_page_is_right() {
    for Row { cells, x, k } in rows() {
        let (v, (e, f)) = (v(x), fields(v(x)));
        let shift = if e < 1023 { String::new() } else { (1075 - e).to_string() };
        let [bits, bits_of_v] = [x, v].map(|number| format!("{:016X}", number.to_bits()));
        let right = [bits, bits_of_v.clone(), e.to_string(), format!("{f:013X}"), shift, k.to_string()];
        assert_eq!(cells, right);
        // "The first bit is the sign; it is 0 .. The rest of the first three digits is the
        // exponent field e, the other 13 digits are the fraction field F."
        assert_eq!(u64::from_str_radix(&bits_of_v[..3], 16), Ok(e));
        assert_eq!(bits_of_v[3..], cells[3]);
        assert_eq!(in_the_bits(v), k);
        is_whole_part(k, v);
    }
}

#[test]
fn the_calls_take_the_indices_of_the_page() {
    let (numbers, indices): (Vec<f64>, Vec<u64>) = rows().into_iter().map(|row| (row.x, row.k)).unzip();
    calls_take(&numbers, &indices);
}

/// "The first two are neighbours", and the index changes from one to the other.
#[test]
fn the_first_two_rows_are_a_boundary() {
    let rows = rows();
    assert_eq!([&rows[0], &rows[1]].map(|row| row.x), boundary(0));
    assert_eq!([&rows[0], &rows[1]].map(|row| row.k), [0, 1]);
    assert_eq!(rows[0].x.next_up(), rows[1].x);
}

/// "The second, times 65535, lies just under a half, by less than 2^-64. The product
/// is rounded to 0.5, v is 1.0 and k is 1. With exact numbers k would be 0".
#[test]
fn the_second_row_is_decided_by_rounding() {
    let Row { x, k, .. } = &rows()[1];
    let (e, f) = fields(*x);
    // x is a whole number of 2^-69ths, and so is its product.
    assert_eq!(e, 1075 - 69);
    let (product, half) = (65_535 * u128::from((1 << 52) + f), 1 << 68);
    assert!(product < half && half - product < 1 << (69 - 64));
    assert_eq!((product + half) >> 69, 0);
    assert_eq!((x * 65535.0, v(*x), *k), (0.5, 1.0, 1));
}

/// "so 2^52 + F = 10823D70A3D70A (hex) loses its last 46 bits, and 1000010 (binary) is
/// left: 66."
#[test]
fn the_third_row_is_a_thousandth() {
    let Row { x, k, .. } = &rows()[2];
    assert_eq!((*x, v(*x)), (0.001, 66.035));
    let (e, f) = fields(v(*x));
    let (sum, shift) = ((1 << 52) + f, 1075 - e);
    let left = sum >> shift;
    assert_eq!(left, *k);
    let said =
        format!("2^52 + F = {sum:X} (hex) loses its last {shift} bits, and {left:b} (binary) is left: {k}.");
    assert!(prose().contains(&said), "{said}");
}

#[test]
fn the_fourth_row_is_a_half() {
    let Row { x, k, .. } = &rows()[3];
    assert_eq!((*x, x * 65535.0, v(*x), *k), (0.5, 32767.5, 32768.0, 32_768));
}

/// "The last is 1.0, the greatest x: v is 65535.5, the greatest v. So e is never above
/// 1038, and the shift never below 37."
#[test]
fn the_last_row_is_the_greatest() {
    let Row { x, k, .. } = &rows()[4];
    assert_eq!((*x, v(*x), *k), (1.0, GREATEST, 65_535));
    let mut random = Random::new(5);
    let of_bits = |bits: i64| f64::from_bits(bits as u64);
    let any = (0..50_000).map(|_| of_bits(random.between(0, 1.0f64.to_bits() as i64)));
    for x in ends().concat().into_iter().chain(any) {
        let (e, _) = fields(v(x));
        assert!((LEAST..=GREATEST).contains(&v(x)) && (1022..=1038).contains(&e), "{x:e}");
    }
    let (greatest, _) = fields(GREATEST);
    assert_eq!((greatest, 1075 - greatest), (1038, 37));
    assert_eq!(v(0.0), LEAST);
}
