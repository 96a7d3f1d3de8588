//! Which kinds of files were accepted in a layout, so that none is compared in
//! vain.

use std::collections::BTreeMap;

use reference::bytes::{ByteOrder, Widths};
use reference::cases::Call;
use reference::chain::LEAST_PLACES;
use reference::chain_kinds;
use reference::colour;
use reference::denormals;
use reference::develop::{accept, Accepted};
use reference::directory::{walk, Tree};
use reference::gain_map::{Axis, GainMap};
use reference::opcodes::{Action, FrameSize, Grid, Opcode};
use reference::pattern::{self, Pattern};
use reference::raw_tags::inside;
use reference::tag_test::{fine, Fraction, Tags, IFD8, LONG, LONG8, RATIONAL, SHORT, SLONG8, SRATIONAL};
use reference::Crop;

/// Every kind of file that must occur in each layout. Those of chains are
/// `chain_kinds::KINDS`.
const KINDS: [&str; 131] = [
    "mosaic 8 II",
    "mosaic 8 MM",
    "mosaic 16 II",
    "mosaic 16 MM",
    "LinearRaw 8 II",
    "LinearRaw 8 MM",
    "LinearRaw 16 II",
    "LinearRaw 16 MM",
    "table",
    "repeat",
    "column deltas",
    "row deltas",
    "column deltas alone",
    "row deltas alone",
    "deltas all below 0",
    "repeat past the rows",
    "repeat past the columns",
    "several strips",
    "area off the corner",
    "raw IFD below IFD 0",
    "MapTable",
    "MapPolynomial",
    "DeltaPerRow",
    "DeltaPerColumn",
    "ScalePerRow",
    "ScalePerColumn",
    "skipped",
    "kept and skipped",
    "two kept or more",
    "nine kept or more",
    "row pitch",
    "column pitch",
    "some planes",
    "colour",
    "colour refused",
    "LONG8",
    "SLONG8",
    "IFD8",
    "pattern 0112",
    "pattern 0121",
    "pattern 0211",
    "pattern 1012",
    "pattern 1021",
    "pattern 1102",
    "pattern 1120",
    "pattern 1201",
    "pattern 1210",
    "pattern 2011",
    "pattern 2101",
    "pattern 2110",
    "plane colours",
    "CFA layout",
    "pattern refused",
    "blocks 8 II",
    "blocks 8 MM",
    "blocks 16 II",
    "blocks 16 MM",
    "blocks from an odd row",
    "blocks from an odd column",
    "blocks from both",
    "blocks in odd rows",
    "blocks in odd columns",
    "no block in one row",
    "no block in one column",
    "opcode on one colour",
    "GainMap",
    "two GainMaps or more",
    "GainMap of a mosaic",
    "GainMap of a LinearRaw",
    "map of 1 x 1",
    "map of one row",
    "map of one column",
    "map of rows and columns",
    "64 points",
    "map planes fewer",
    "map planes as many",
    "map planes more",
    "spacing not above 0",
    "below the first point",
    "at the first point",
    "on a point",
    "between points",
    "at the last point",
    "above the last point",
    "GainMap between others",
    "GainMap beside a neighbour apart",
    "denormal coefficient",
    "denormal row delta",
    "denormal column delta",
    "denormal row factor",
    "denormal column factor",
    "denormal gain",
    "denormal spacing",
    "denormal spacing of one point",
    "denormal origin",
    "crop by no tag",
    "crop by its origin alone",
    "crop by its size alone",
    "crop by both tags",
    "crop of all the area",
    "crop off the corner",
    "three corners apart",
    "crop to the right edge",
    "crop between the sides",
    "crop to the bottom edge",
    "crop between top and bottom",
    "crop not inside the other way round",
    "crop by SHORT",
    "crop by the widest LONG",
    "crop by RATIONAL",
    "crop by a fraction",
    "crop at 0 by a fraction",
    "tables II",
    "tables MM",
    "tables of one cell",
    "tables of 2 to 4 cells",
    "tables of 5 to 16 cells",
    "tables of 17 to 63 cells",
    "tables of 64 cells",
    "tables of some of the cells",
    "tables with a list",
    "tables through a short table",
    "tables through 256 entries or more",
    "tables in several strips",
    "tables off the repeat",
    "1,024 samples to one cell",
    "1,024 samples to each of 2 to 4 cells",
    "1,024 samples to each of 5 to 16 cells",
    "1,024 samples to a cell and a list",
    "no tables for deltas",
    "no tables for deltas of 0",
];

/// Where the kinds of mosaics' blocks begin.
const PATTERNS: usize = 38;
const BLOCKS: usize = 53;

#[derive(Default)]
pub struct Kinds {
    met: BTreeMap<&'static str, u64>,
}

impl Kinds {
    /// Counts the kinds of an accepted file and of its chains, each once.
    pub fn add(&mut self, bytes: &[u8], calls: &[Call]) {
        let Ok(accepted) = accept(bytes) else {
            return;
        };
        let mut kinds = of_frame(&accepted);
        kinds.extend(of_tags(&accepted));
        kinds.extend(of_crop(&accepted));
        kinds.extend(of_crop_tags(&accepted));
        kinds.extend(of_list(&accepted));
        kinds.extend(of_gain_maps(&accepted));
        kinds.extend(of_colour(&accepted));
        kinds.extend(of_blocks(&accepted));
        kinds.extend(of_chains(&accepted, calls));
        kinds.extend(of_table_windows(&accepted, calls));
        kinds.sort_unstable();
        kinds.dedup();
        for kind in kinds {
            *self.met.entry(kind).or_default() += 1;
        }
    }

    pub fn print(&self) {
        let count = |kind: &&str| format!("{kind} {}", self.met.get(*kind).unwrap_or(&0));
        for line in KINDS.chunks(8).chain(chain_kinds::KINDS.chunks(6)) {
            println!("  {}", line.iter().map(count).collect::<Vec<_>>().join(", "));
        }
    }

    pub fn missing(&self) -> Vec<&'static str> {
        let all = KINDS.into_iter().chain(chain_kinds::KINDS);
        all.filter(|kind| !self.met.contains_key(kind)).collect()
    }
}

/// Of the chains that are answered.
fn of_chains(accepted: &Accepted, calls: &[Call]) -> Vec<&'static str> {
    let FrameSize { rows, columns, samples } = accepted.size();
    let answered = |call: &Call| match *call {
        Call::Chain { row, column, plane, slices } => {
            let inside = row < rows && column < columns && plane < samples;
            let fitting = slices.iter().all(|length| *length >= LEAST_PLACES);
            (inside && fitting).then_some([row, column, plane])
        }
        _ => None,
    };
    calls.iter().filter_map(answered).flat_map(|spot| chain_kinds::kinds(accepted, spot)).collect()
}

/// Of the table windows that are answered, of an 8-bit mosaic.
fn of_table_windows(accepted: &Accepted, calls: &[Call]) -> Vec<&'static str> {
    let stored = &accepted.raw.stored;
    if stored.bits != 8 || stored.samples != 1 {
        return Vec::new();
    }
    if !accepted.takes_tables() {
        let raw = Tags { file: &accepted.file, directory: &accepted.raw_ifd };
        let zeros = deltas(&raw).iter().flatten().flatten().all(|delta| delta.numerator == 0);
        return vec![if zeros { "no tables for deltas of 0" } else { "no tables for deltas" }];
    }
    let FrameSize { rows, columns, .. } = accepted.size();
    let answered = |call: &Call| match *call {
        Call::TableWindow { top, left, height, width, slice } => {
            let fitting = inside(top, height, rows) && inside(left, width, columns);
            (fitting && slice as u64 == height * width).then_some([top, left, height, width])
        }
        _ => None,
    };
    calls.iter().filter_map(answered).flat_map(|window| of_table_window(accepted, window)).collect()
}

fn of_table_window(accepted: &Accepted, [top, left, height, width]: [u64; 4]) -> Vec<&'static str> {
    let [rows, columns] = accepted.raw.levels.repeat();
    let cells = height.min(rows) * width.min(columns);
    let entries = accepted.raw.table.as_ref().map(Vec::len);
    let many = height * width >= 1_024 * cells;
    let big = accepted.file.order == ByteOrder::Big;
    met([
        (!big, "tables II"),
        (big, "tables MM"),
        (cells == 1, "tables of one cell"),
        ((2..=4).contains(&cells), "tables of 2 to 4 cells"),
        ((5..=16).contains(&cells), "tables of 5 to 16 cells"),
        ((17..=63).contains(&cells), "tables of 17 to 63 cells"),
        (cells == 64, "tables of 64 cells"),
        (cells < rows * columns, "tables of some of the cells"),
        (!accepted.opcodes.is_empty(), "tables with a list"),
        (entries.is_some_and(|entries| entries < 256), "tables through a short table"),
        (entries.is_some_and(|entries| entries >= 256), "tables through 256 entries or more"),
        (accepted.raw.stored.strips.len() > 1, "tables in several strips"),
        (top % rows > 0 && left % columns > 0, "tables off the repeat"),
        (many && cells == 1, "1,024 samples to one cell"),
        (many && (2..=4).contains(&cells), "1,024 samples to each of 2 to 4 cells"),
        (many && (5..=16).contains(&cells), "1,024 samples to each of 5 to 16 cells"),
        (many && !accepted.opcodes.is_empty(), "1,024 samples to a cell and a list"),
    ])
}

fn of_frame(accepted: &Accepted) -> Vec<&'static str> {
    let (stored, active) = (&accepted.raw.stored, &accepted.raw.active);
    let linear = usize::from(stored.samples == 3);
    let mut kinds = vec![of_depth(4 * linear, accepted)];
    if stored.strips.len() > 1 {
        kinds.push("several strips");
    }
    if active.top > 0 && active.left > 0 {
        kinds.push("area off the corner");
    }
    kinds
}

/// Of four kinds from one on that of the file's bits and byte order.
fn of_depth(first: usize, accepted: &Accepted) -> &'static str {
    let deep = usize::from(accepted.raw.stored.bits == 16);
    let big = usize::from(accepted.file.order == ByteOrder::Big);
    KINDS[first + 2 * deep + big]
}

fn of_tags(accepted: &Accepted) -> Vec<&'static str> {
    let file = &accepted.file;
    let tree = walk(file).expect(ACCEPTED);
    let tags = [(50712, "table"), (50713, "repeat"), (50715, "column deltas"), (50716, "row deltas")];
    let found = tags.into_iter().filter(|(tag, _)| tree.raw.find(*tag).is_some());
    let first = Tags { file, directory: &tree.first };
    let below = first.one_or(254, &[LONG], 0, fine) != Ok(0);
    let kinds = found.map(|(_, kind)| kind).chain(below.then_some("raw IFD below IFD 0"));
    let raw = Tags { file, directory: &tree.raw };
    kinds.chain(of_levels(&raw, accepted.size())).chain(of_types(&tree)).collect()
}

const ACCEPTED: &str = "the file was accepted";

/// What decides where black levels and deltas meet.
fn of_levels(raw: &Tags, size: FrameSize) -> Vec<&'static str> {
    let repeat = raw.all_or(50713, &[SHORT], 2, 1, fine).expect(ACCEPTED);
    let [columns, rows] = deltas(raw);
    let below_0 = |deltas: &Vec<Fraction>| deltas.iter().all(|delta| delta.numerator < 0);
    met([
        (columns.is_some() && rows.is_none(), "column deltas alone"),
        (rows.is_some() && columns.is_none(), "row deltas alone"),
        (columns.iter().chain(&rows).any(below_0), "deltas all below 0"),
        (repeat[0].whole() > size.rows, "repeat past the rows"),
        (repeat[1].whole() > size.columns, "repeat past the columns"),
    ])
}

/// Those of the columns and of the rows.
fn deltas(raw: &Tags) -> [Option<Vec<Fraction>>; 2] {
    [50715, 50716].map(|tag| raw.optional(tag, &[SRATIONAL], 1..=u64::MAX, fine).expect(ACCEPTED))
}

fn met<const N: usize>(kinds: [(bool, &'static str); N]) -> Vec<&'static str> {
    kinds.into_iter().filter(|(met, _)| *met).map(|(_, kind)| kind).collect()
}

/// Where the crop lies in the active area.
fn of_crop(accepted: &Accepted) -> Vec<&'static str> {
    let Crop { left, top, columns, rows } = accepted.raw.crop;
    let (active, size) = (&accepted.raw.active, accepted.size());
    let off_the_corner = left > 0 && top > 0;
    met([
        ([columns, rows] == [size.columns, size.rows], "crop of all the area"),
        (off_the_corner, "crop off the corner"),
        (off_the_corner && active.left > 0 && active.top > 0, "three corners apart"),
        (left > 0 && left + columns == size.columns, "crop to the right edge"),
        (left > 0 && left + columns < size.columns, "crop between the sides"),
        (top > 0 && top + rows == size.rows, "crop to the bottom edge"),
        (top > 0 && top + rows < size.rows, "crop between top and bottom"),
        (left + columns > size.rows || top + rows > size.columns, "crop not inside the other way round"),
    ])
}

/// The tags by which it is stated.
fn of_crop_tags(accepted: &Accepted) -> Vec<&'static str> {
    let entries = [50719, 50720].map(|tag| accepted.raw_ifd.find(tag));
    let raw = Tags { file: &accepted.file, directory: &accepted.raw_ifd };
    let taken = [SHORT, LONG, RATIONAL];
    let values = [50719, 50720].map(|tag| raw.optional(tag, &taken, 2..=2, fine).expect(ACCEPTED));
    let fraction = |of: fn(i128) -> bool| {
        values.iter().flatten().flatten().any(|v| v.denominator > 1 && of(v.numerator))
    };
    let of_type = |kind| entries.iter().flatten().any(|entry| entry.kind == kind);
    let widest = if accepted.file.widths == Widths::BITS_64 { LONG8 } else { LONG };
    let present = entries.map(|entry| entry.is_some());
    met([
        (present == [false, false], "crop by no tag"),
        (present == [true, false], "crop by its origin alone"),
        (present == [false, true], "crop by its size alone"),
        (present == [true, true], "crop by both tags"),
        (of_type(SHORT), "crop by SHORT"),
        (of_type(widest), "crop by the widest LONG"),
        (of_type(RATIONAL), "crop by RATIONAL"),
        (fraction(|numerator| numerator > 0), "crop by a fraction"),
        (fraction(|numerator| numerator == 0), "crop at 0 by a fraction"),
    ])
}

/// The types of 8 bytes, of tags that are read or not.
fn of_types(tree: &Tree) -> Vec<&'static str> {
    let types = [(LONG8, "LONG8"), (SLONG8, "SLONG8"), (IFD8, "IFD8")];
    let entries = tree.first.entries.iter().chain(&tree.raw.entries);
    let found = types.into_iter().filter(|(kind, _)| entries.clone().any(|entry| entry.kind == *kind));
    found.map(|(_, kind)| kind).collect()
}

fn of_list(accepted: &Accepted) -> Vec<&'static str> {
    let mut kinds = Vec::new();
    let mut kept = 0;
    for opcode in &accepted.opcodes {
        match opcode {
            Opcode::Skipped => kinds.push("skipped"),
            Opcode::Kept(grid, action) => {
                kept += 1;
                kinds.push(of_action(action));
                kinds.extend(denormals::of_action(action).into_iter().map(|(kind, _)| kind));
                kinds.extend(of_grid(grid, accepted.size().samples));
            }
        }
    }
    kinds.extend(met([
        (kept > 0 && kept < accepted.opcodes.len(), "kept and skipped"),
        (kept >= 2, "two kept or more"),
        (kept >= 9, "nine kept or more"),
    ]));
    kinds
}

fn of_action(action: &Action) -> &'static str {
    match action {
        Action::MapTable(_) => "MapTable",
        Action::MapPolynomial(_) => "MapPolynomial",
        Action::GainMap(_) => "GainMap",
        Action::DeltaPerRow(_) => "DeltaPerRow",
        Action::DeltaPerColumn(_) => "DeltaPerColumn",
        Action::ScalePerRow(_) => "ScalePerRow",
        Action::ScalePerColumn(_) => "ScalePerColumn",
    }
}

/// A pitch counts where the grid has a second row or column.
fn of_grid(grid: &Grid, samples: u64) -> Vec<&'static str> {
    met([
        (grid.row_pitch > 1 && grid.rows() > 1, "row pitch"),
        (grid.column_pitch > 1 && grid.columns() > 1, "column pitch"),
        (grid.planes < samples, "some planes"),
    ])
}

fn is_gain_map(opcode: &Opcode) -> bool {
    matches!(opcode, Opcode::Kept(_, Action::GainMap(_)))
}

fn of_gain_maps(accepted: &Accepted) -> Vec<&'static str> {
    let list = &accepted.opcodes;
    let mosaic = accepted.size().samples == 1;
    let maps = list.iter().filter(|opcode| is_gain_map(opcode)).count();
    let between = |three: &[Opcode]| three.iter().map(is_gain_map).eq([false, true, false]);
    let beside = |two: &[Opcode]| two.iter().any(is_gain_map) && apart(two);
    let mut kinds = met([
        (maps >= 2, "two GainMaps or more"),
        (maps >= 1 && mosaic, "GainMap of a mosaic"),
        (maps >= 1 && !mosaic, "GainMap of a LinearRaw"),
        (list.windows(3).any(between), "GainMap between others"),
        (list.windows(2).any(beside), "GainMap beside a neighbour apart"),
    ]);
    for opcode in list {
        if let Opcode::Kept(grid, Action::GainMap(map)) = opcode {
            kinds.extend(of_map(grid, map));
            kinds.extend(of_places(&map.vertical, rows_of(grid)));
            kinds.extend(of_places(&map.horizontal, columns_of(grid)));
        }
    }
    kinds
}

fn rows_of(grid: &Grid) -> impl Iterator<Item = u64> + Clone {
    (grid.top..grid.bottom).step_by(grid.row_pitch as usize)
}

fn columns_of(grid: &Grid) -> impl Iterator<Item = u64> + Clone {
    (grid.left..grid.right).step_by(grid.column_pitch as usize)
}

/// Two grids that share no sample.
fn apart(two: &[Opcode]) -> bool {
    let [Opcode::Kept(a, _), Opcode::Kept(b, _)] = two else {
        return false;
    };
    let rows = rows_of(a).any(|row| rows_of(b).any(|other| other == row));
    let columns = columns_of(a).any(|column| columns_of(b).any(|other| other == column));
    let planes = (a.plane..a.plane + a.planes).any(|plane| (b.plane..b.plane + b.planes).contains(&plane));
    !(rows && columns && planes)
}

fn of_map(grid: &Grid, map: &GainMap) -> Vec<&'static str> {
    let axes = [&map.vertical, &map.horizontal];
    let several = axes.map(|axis| axis.points > 1);
    met([
        (several == [false, false], "map of 1 x 1"),
        (several == [false, true], "map of one row"),
        (several == [true, false], "map of one column"),
        (several == [true, true], "map of rows and columns"),
        (axes.iter().any(|axis| axis.points == 64), "64 points"),
        (map.planes < grid.planes, "map planes fewer"),
        (map.planes == grid.planes, "map planes as many"),
        (map.planes > grid.planes, "map planes more"),
        (axes.iter().any(|axis| axis.spacing <= 0.0), "spacing not above 0"),
    ])
}

/// Where the lines of a grid lie among the points of a map.
fn of_places(axis: &Axis, lines: impl Iterator<Item = u64>) -> Vec<&'static str> {
    let last = (axis.points - 1) as f64;
    let of = |place: f64| match place {
        _ if place < 0.0 => "below the first point",
        _ if place == 0.0 => "at the first point",
        _ if place > last => "above the last point",
        _ if place == last => "at the last point",
        _ if place == place.floor() => "on a point",
        _ => "between points",
    };
    let lines = lines.filter(|_| axis.points > 1);
    lines.map(|line| of(axis.place(line))).collect()
}

fn of_colour(accepted: &Accepted) -> Option<&'static str> {
    if accepted.size().samples == 1 {
        return None;
    }
    let colour = colour::read(&accepted.file, &accepted.first);
    Some(if colour.is_ok() { "colour" } else { "colour refused" })
}

/// What decides about half-size colour, where the colour tags do not refuse it.
fn of_blocks(accepted: &Accepted) -> Vec<&'static str> {
    if accepted.size().samples == 3 || colour::read(&accepted.file, &accepted.first).is_err() {
        return Vec::new();
    }
    let Ok(pattern) = pattern::read(&accepted.file, &accepted.raw_ifd) else {
        return vec!["pattern refused"];
    };
    let FrameSize { rows, columns, .. } = accepted.size();
    let no_blocks = met([
        (rows < pattern::SIDE, "no block in one row"),
        (columns < pattern::SIDE, "no block in one column"),
    ]);
    if !no_blocks.is_empty() {
        return no_blocks;
    }
    let active = &accepted.raw.active;
    let [down, across] = [active.top, active.left].map(|corner| corner % 2 == 1);
    let present = |tag| accepted.raw_ifd.find(tag).is_some();
    let mut kinds = met([
        (present(50710), "plane colours"),
        (present(50711), "CFA layout"),
        (down, "blocks from an odd row"),
        (across, "blocks from an odd column"),
        (down && across, "blocks from both"),
        (rows % 2 == 1, "blocks in odd rows"),
        (columns % 2 == 1, "blocks in odd columns"),
        (accepted.opcodes.iter().any(on_one_colour), "opcode on one colour"),
    ]);
    kinds.extend([of_pattern(pattern), of_depth(BLOCKS, accepted)]);
    kinds
}

/// A grid that takes the same place of two blocks or more.
fn on_one_colour(opcode: &Opcode) -> bool {
    match opcode {
        Opcode::Kept(grid, _) => {
            grid.row_pitch == 2 && grid.column_pitch == 2 && grid.rows() * grid.columns() > 1
        }
        Opcode::Skipped => false,
    }
}

fn of_pattern(Pattern(colours): Pattern) -> &'static str {
    let digits: String = colours.iter().map(u64::to_string).collect();
    let of_patterns = KINDS[PATTERNS..].iter();
    of_patterns.copied().find(|kind| kind.ends_with(&digits)).expect("twelve patterns are carried")
}
