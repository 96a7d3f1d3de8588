//! The kinds of chains behind spots, to be counted by the test of the generator and by
//! the comparison.

use crate::chain::Link;
use crate::develop::Accepted;
use crate::opcodes::{Grid, Opcode};

/// Every kind of an answered chain.
pub const KINDS: [&str; 44] = [
    "chain of an empty list",
    "chain that no opcode covers",
    "chain of one opcode",
    "chain of two or more",
    "chain of nine or more",
    "chain of some of the kept",
    "chain of the whole list",
    "chain of a list all skipped",
    "skipped before a chain",
    "skipped within a chain",
    "skipped behind a chain",
    "chain with MapTable",
    "chain with MapPolynomial",
    "chain with GainMap",
    "chain with DeltaPerRow",
    "chain with DeltaPerColumn",
    "chain with ScalePerRow",
    "chain with ScalePerColumn",
    "one id twice in a chain",
    "number left as it was",
    "number between left as it was",
    "number set to 0",
    "number set to 1",
    "number between",
    "missed by a row before",
    "missed by a row behind",
    "missed by a column before",
    "missed by a column behind",
    "missed by a plane",
    "missed by the row pitch",
    "missed by the column pitch",
    "chain of a mosaic",
    "chain of plane 0",
    "chain of plane 1",
    "chain of plane 2",
    "another M on another plane",
    "M above B",
    "B below 0",
    "M below 0",
    "column delta below 0",
    "row delta below 0",
    "table value",
    "past the table's end",
    "level between 0 and 65535",
];

/// The kinds to which the chain of an active sample belongs.
pub fn kinds(accepted: &Accepted, spot: [u64; 3]) -> Vec<&'static str> {
    let mut all = of_links(accepted, spot);
    all.extend(of_level(accepted, spot));
    all.extend(accepted.opcodes.iter().filter_map(|opcode| match opcode {
        Opcode::Kept(grid, _) => missed_by(grid, spot),
        Opcode::Skipped => None,
    }));
    all.sort_unstable();
    all.dedup();
    all
}

fn met<const N: usize>(kinds: [(bool, &'static str); N]) -> Vec<&'static str> {
    kinds.into_iter().filter(|(met, _)| *met).map(|(_, kind)| kind).collect()
}

fn of_links(accepted: &Accepted, [row, column, plane]: [u64; 3]) -> Vec<&'static str> {
    let links: Vec<Link> = accepted.links(row, column, plane).collect();
    let skipped: Vec<u64> = accepted.skipped_places().collect();
    let (count, length) = (links.len(), accepted.opcodes.len());
    let kept = length - skipped.len();
    let [first, last] = [links.first(), links.last()].map(|link| link.map(|link| link.place));
    let any = |met: &dyn Fn(&Link) -> bool| links.iter().any(met);
    let stays = |link: &Link| link.before.to_bits() == link.after.to_bits();
    let between = |x: f64| x > 0.0 && x < 1.0;
    let id = |id: u64| any(&|link| link.id == id);
    let twice = links.iter().any(|one| any(&|other| other.id == one.id && other.place != one.place));
    met([
        (length == 0, "chain of an empty list"),
        (count == 0 && kept > 0, "chain that no opcode covers"),
        (count == 1, "chain of one opcode"),
        (count >= 2, "chain of two or more"),
        (count >= 9, "chain of nine or more"),
        (count > 0 && count < kept, "chain of some of the kept"),
        (count >= 2 && count == length, "chain of the whole list"),
        (length > 0 && kept == 0, "chain of a list all skipped"),
        (first.is_some_and(|first| skipped.iter().any(|place| *place < first)), "skipped before a chain"),
        (
            skipped.iter().any(|place| Some(*place) > first && first.is_some() && Some(*place) < last),
            "skipped within a chain",
        ),
        (last.is_some_and(|last| skipped.iter().any(|place| *place > last)), "skipped behind a chain"),
        (id(7), "chain with MapTable"),
        (id(8), "chain with MapPolynomial"),
        (id(9), "chain with GainMap"),
        (id(10), "chain with DeltaPerRow"),
        (id(11), "chain with DeltaPerColumn"),
        (id(12), "chain with ScalePerRow"),
        (id(13), "chain with ScalePerColumn"),
        (twice, "one id twice in a chain"),
        (any(&stays), "number left as it was"),
        (any(&|link| stays(link) && between(link.after)), "number between left as it was"),
        (any(&|link| link.before != 0.0 && link.after == 0.0), "number set to 0"),
        (any(&|link| link.before != 1.0 && link.after == 1.0), "number set to 1"),
        (any(&|link| between(link.after)), "number between"),
    ])
}

fn of_level(accepted: &Accepted, [row, column, plane]: [u64; 3]) -> Vec<&'static str> {
    let numbers = accepted.level_numbers(row, column, plane);
    let samples = accepted.size().samples;
    let another = |other| accepted.raw.levels.greatest_black(other) != numbers.greatest_black.into();
    let table = accepted.raw.table.as_ref();
    met([
        (samples == 1, "chain of a mosaic"),
        (samples == 3 && plane == 0, "chain of plane 0"),
        (samples == 3 && plane == 1, "chain of plane 1"),
        (samples == 3 && plane == 2, "chain of plane 2"),
        ((0..samples).any(another), "another M on another plane"),
        (numbers.greatest_black > numbers.black, "M above B"),
        (numbers.black < 0, "B below 0"),
        (numbers.greatest_black < 0, "M below 0"),
        (numbers.column_delta < 0, "column delta below 0"),
        (numbers.row_delta < 0, "row delta below 0"),
        (numbers.table != numbers.stored, "table value"),
        (table.is_some_and(|table| numbers.stored >= table.len() as i64), "past the table's end"),
        ((1..65_535).contains(&numbers.level), "level between 0 and 65535"),
    ])
}

/// How a grid misses a spot by one row, column or plane, or by one pitch alone.
fn missed_by(grid: &Grid, [row, column, plane]: [u64; 3]) -> Option<&'static str> {
    let on = |row, column, plane| grid.place_of(row, column, plane).is_some();
    if on(row, column, plane) {
        return None;
    }
    let planes = grid.plane..grid.plane + grid.planes;
    if !planes.contains(&plane) {
        return on(row, column, grid.plane).then_some("missed by a plane");
    }
    if on(grid.top, column, plane) {
        return match row {
            _ if row + 1 == grid.top => Some("missed by a row before"),
            _ if row == grid.bottom => Some("missed by a row behind"),
            _ if (grid.top..grid.bottom).contains(&row) => Some("missed by the row pitch"),
            _ => None,
        };
    }
    if on(row, grid.left, plane) {
        return match column {
            _ if column + 1 == grid.left => Some("missed by a column before"),
            _ if column == grid.right => Some("missed by a column behind"),
            _ if (grid.left..grid.right).contains(&column) => Some("missed by the column pitch"),
            _ => None,
        };
    }
    None
}
