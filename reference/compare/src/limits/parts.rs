//! Rows of few and of many samples, up to powers of two and one past them, where
//! a loop over parts of a row would begin a new part: windows from several left
//! edges, colour windows and half windows. Many of the samples are at a half.

use reference::builder::{Area, Dng, GainMap, Opcode};
use reference::bytes::{ByteOrder, Widths};
use reference::cases::Call;
use reference::random::Random;

use super::blacks::{places, Levels};
use super::colour::with_colour;
use super::levels::Frame;
use super::{DONE, WAYS};
use crate::questions::{colour_window, half_window, table_window, window};
use crate::tally::Tally;

/// Columns of mosaics.
const MOSAIC_WIDTHS: [u32; 20] = [
    1, 2, 3, 127, 128, 129, 255, 256, 257, 511, 512, 513, 1_023, 1_024, 1_025, 8_191, 8_192, 8_193, 16_383,
    16_384,
];

/// Columns of LinearRaw: a third of 512, 1,024, 8,192 and 16,384, rounded down and
/// up, and the most.
const LINEAR_WIDTHS: [u32; 9] = [170, 171, 341, 342, 2_730, 2_731, 5_461, 5_462, 16_384];

/// Columns of blocks.
const BLOCK_WIDTHS: [u32; 13] = [127, 128, 129, 255, 256, 257, 511, 512, 513, 4_095, 4_096, 4_097, 8_192];

/// Up to so many samples a frame is asked in every byte order and layout; above,
/// in one of them, and the next frame in the next.
const FEW: u32 = 1_000;

/// Above so many samples a frame has as many rows as take it past 2^16: the
/// independent program then works out those of the window alone.
const MANY: u32 = 8_000;

/// Bits, and of three planes the white level and how far it stands above the
/// greatest black. These are 2 x divisors of 65535: with D a multiple of 256,
/// 65535 D / S is a whole number or a half.
const PLANES: [(u32, [[i64; 2]; 3]); 2] =
    [(8, [[255, 170], [200, 102], [100, 30]]), (16, [[65_535, 43_690], [50_000, 26_214], [30_000, 7_710]])];

/// What the levels of a frame are made of.
#[derive(Clone, Copy, Debug)]
struct Kind {
    repeat: [u32; 2],
    columns: bool,
    rows: bool,
    table: bool,
    list: List,
}

#[derive(Clone, Copy, Debug)]
enum List {
    Absent,
    Common,
    Denormal,
}

const BARE: Kind = Kind { repeat: [1, 1], columns: false, rows: false, table: false, list: List::Absent };

const KINDS: [Kind; 9] = [
    BARE,
    Kind { repeat: [2, 2], ..BARE },
    Kind { columns: true, ..BARE },
    Kind { rows: true, ..BARE },
    Kind { repeat: [2, 7], columns: true, rows: true, ..BARE },
    Kind { repeat: [1, 3], table: true, ..BARE },
    Kind { columns: true, rows: true, table: true, ..BARE },
    Kind { repeat: [2, 5], columns: true, list: List::Common, ..BARE },
    Kind { repeat: [3, 1], list: List::Denormal, ..BARE },
];

/// Every case of a row's parts.
pub fn check(tally: &mut Tally) {
    each_frame(tally, [2, 1], &MOSAIC_WIDTHS, |dng| dng, ask_mosaic);
    each_frame(tally, [2, 3], &LINEAR_WIDTHS, with_colour, ask_linear);
    // Beside an odd number of blocks stands one more column.
    let columns = BLOCK_WIDTHS.map(|blocks| 2 * blocks + blocks % 2);
    each_frame(tally, [4, 1], &columns, |dng| with_colour(dng).with_pattern([1, 0, 2, 1]), ask_blocks);
}

/// Puts a file's calls, given its rows and columns.
type Ask = fn([u64; 2], &mut dyn FnMut(Call));

/// Frames of so many rows and planes, of every width and kind, in both depths.
fn each_frame(tally: &mut Tally, [rows, planes]: [u32; 2], widths: &[u32], dress: fn(Dng) -> Dng, ask: Ask) {
    let kinds = || KINDS.iter().enumerate().flat_map(|kind| [(kind, 0), (kind, 1)]);
    for ((i, width), ((j, kind), depth)) in
        widths.iter().enumerate().flat_map(|width| kinds().map(move |kind| (width, kind)))
    {
        let samples = rows * width * planes;
        let area = [if samples > MANY { (1 << 16) / (width * planes) + 1 } else { rows }, *width];
        let (bits, all_planes) = &PLANES[depth];
        let frame = frame(*kind, area, *bits, &all_planes[..planes as usize]);
        let next = [WAYS[(i + j + depth) % WAYS.len()]];
        for way in if samples > FEW { &next[..] } else { &WAYS } {
            tally.files += 1;
            let label = format!("{area:?} of {planes}, {bits} bits, {kind:?}, {way:?}");
            let file = dress(dng(&frame, *kind, *way)).file();
            ask(area.map(u64::from), &mut |call| {
                tally.ask(&label, &file, &call, Some(DONE));
            });
        }
    }
}

/// The greatest black stands at the first sample; no two columns have the same
/// delta. Most samples lie between black and white, some at or past either.
fn frame(kind: Kind, area: [u32; 2], bits: u32, planes: &[[i64; 2]]) -> Frame {
    let [rows, width] = area;
    let mut levels = Levels::new(area, kind.repeat, planes.len());
    levels.white = planes.iter().map(|[white, _]| *white as u32).collect();
    let greatest_black = |[white, above]: [i64; 2]| 256 * (white - above);
    let cells = i64::from(kind.repeat[0] * kind.repeat[1]);
    levels.cells = (0..cells)
        .flat_map(|cell| planes.iter().map(move |plane| greatest_black(*plane) - 256 * cell))
        .collect();
    let unit = if bits == 8 { 1 } else { 256 };
    levels.columns =
        kind.columns.then(|| (0..i64::from(width)).map(|column| -unit * (5 * column % 16_384)).collect());
    levels.rows = kind.rows.then(|| (0..i64::from(rows)).map(|row| -768 * row).collect());
    let random = &mut Random::new(u64::from(width));
    let mut values = Vec::new();
    for [row, column] in places(area) {
        for (plane, [_, above]) in planes.iter().enumerate() {
            let black = black_at(&levels, [row, column], plane);
            let [least, most] = [black - 512, black + 256 * above + 512].map(|edge| edge.div_euclid(256));
            let value = random.between(least, most).clamp(0, (1 << bits) - 1);
            // A table has some hundred entries, or two thousand.
            values.push(if kind.table { value & if bits == 8 { !1 } else { !31 } } else { value });
        }
    }
    Frame { levels, values, bits, table: kind.table }
}

fn black_at(levels: &Levels, [row, column]: [u32; 2], plane: usize) -> i64 {
    let [repeat_rows, repeat_columns] = levels.repeat;
    let cell = (row % repeat_rows * repeat_columns + column % repeat_columns) as usize;
    let delta =
        |deltas: &Option<Vec<i64>>, line: u32| deltas.as_ref().map_or(0, |deltas| deltas[line as usize]);
    let deltas = delta(&levels.columns, column) + delta(&levels.rows, row);
    levels.cells[cell * levels.white.len() + plane] + deltas
}

fn dng(frame: &Frame, kind: Kind, way: (ByteOrder, Widths)) -> Dng {
    let dng = frame.dng(way);
    let ([rows, columns], planes) = (frame.levels.area, frame.levels.white.len() as u32);
    let whole = Area::whole(rows, columns, planes);
    let some = Area { left: columns / 3, plane: planes - 1, planes: 1, column_pitch: 2, ..whole };
    match kind.list {
        List::Absent => dng,
        List::Common => dng.with_opcodes(&common(whole, some)),
        List::Denormal => dng.with_opcodes(&denormal(whole, some)),
    }
}

/// Opcodes of every kind on the whole frame and on some of its columns.
fn common(whole: Area, some: Area) -> [Opcode; 8] {
    let (rows, columns) = (whole.bottom, whole.right);
    let number = |column: u32| (column * 7 % 1_021) as f32 / 2_048.0;
    let deltas: Vec<f32> = (0..columns).map(|column| number(column) - 0.25).collect();
    let factors: Vec<f32> = (some.left..columns).step_by(2).map(|column| number(column) + 0.75).collect();
    let of_rows = |least: f32| (0..rows).map(|row| least + number(97 * row)).collect::<Vec<f32>>();
    let entries: Vec<u16> = (0..3_000).map(|i| (i * 21) as u16).collect();
    [
        Opcode::per_line(11, whole, &deltas),
        Opcode::map_polynomial(whole, &[0.01, 0.9, 0.05, -0.1]),
        Opcode::per_line(13, some, &factors),
        Opcode::map_table(Area { planes: 1, ..whole }, &entries),
        Opcode::map_polynomial(some, &[0.0, 0.5, 0.1, 0.1, 0.1, 0.1, 0.05, 0.01, 0.3]),
        Opcode::per_line(12, whole, &of_rows(0.75)),
        Opcode::gain_map(whole, &GainMap::spread(&[[0.9, 1.5, 0.7], [1.1, 0.6, 1.2]])),
        Opcode::per_line(10, some, &of_rows(-0.25)),
    ]
}

/// Denormal numbers, of which no two columns have the same; they leave denormal
/// values, but for some of the columns.
fn denormal(whole: Area, some: Area) -> [Opcode; 5] {
    let number = |line: u32| f32::from_bits(1 + line * 511);
    let columns = |area: Area| (area.left..area.right).step_by(area.column_pitch as usize);
    let factors: Vec<f32> = columns(whole).map(number).collect();
    let deltas: Vec<f32> =
        columns(some).map(|column| number(column) * [1.0, -1.0][column as usize / 2 % 2]).collect();
    let of_rows: Vec<f32> = (0..whole.bottom).map(|row| [0.75, 1.5, 0.5][row as usize % 3]).collect();
    let tiny = f64::from_bits(1);
    [
        Opcode::map_polynomial(whole, &[0.0, f64::from_bits((1023 - 900) << 52)]),
        Opcode::per_line(13, whole, &factors),
        Opcode::per_line(12, whole, &of_rows),
        Opcode::map_polynomial(Area { planes: 1, row_pitch: 3, ..whole }, &[tiny, 0.75, tiny]),
        Opcode::per_line(11, Area { row_pitch: 2, ..some }, &deltas),
    ]
}

/// First columns and numbers of columns: all, all but the first, and parts that
/// begin and end elsewhere.
fn stretches(columns: u64) -> Vec<[u64; 2]> {
    let last = columns.min(513);
    let seventh = 7.min(columns - 1);
    let mut stretches = vec![[0, columns], [1, columns - 1], [columns / 2, columns - columns / 2]];
    stretches.extend([[columns - last, last], [seventh, (columns - seventh).min(512)], [columns - 1, 1]]);
    stretches.retain(|[_, count]| *count > 0);
    stretches.sort_unstable();
    stretches.dedup();
    stretches
}

/// Windows of such stretches: of the last two rows where it is the whole width,
/// of one row otherwise.
fn windows([rows, columns]: [u64; 2]) -> impl Iterator<Item = [u64; 4]> {
    stretches(columns).into_iter().map(move |[left, width]| {
        if width == columns {
            [rows - 2, left, 2, width]
        } else {
            [left % rows, left, 1, width]
        }
    })
}

fn ask_mosaic(area: [u64; 2], ask: &mut dyn FnMut(Call)) {
    for part in windows(area) {
        let slice = (part[2] * part[3]) as usize;
        ask(window(part, slice));
        ask(table_window(part, slice));
    }
    let [rows, columns] = area;
    for column in [columns - 1, columns / 2] {
        ask(Call::Spot { row: column % rows, column, plane: 0 });
    }
}

fn ask_linear(area: [u64; 2], ask: &mut dyn FnMut(Call)) {
    for part in windows(area) {
        let slice = (3 * part[2] * part[3]) as usize;
        ask(window(part, slice));
        ask(colour_window(part, slice));
    }
    let [rows, columns] = area;
    for plane in [0, 1, 2] {
        ask(Call::Spot { row: plane % rows, column: columns - 1 - plane, plane });
    }
}

fn ask_blocks(area: [u64; 2], ask: &mut dyn FnMut(Call)) {
    let blocks = area.map(|lines| lines / 2);
    windows(blocks).for_each(|part| ask(half_window(part, (3 * part[2] * part[3]) as usize)));
}
