//! Chains behind spots (document 02, T-06), worked out by hand and not by `chain`, for
//! `tests/chain.rs` and for the comparison.

use crate::builder::{Area, Dng, GainMap, Opcode, Picture, Tag};
use crate::bytes::ByteOrder;
use crate::chain::Link;

/// One spot of a file, and what its chain must be.
pub struct Worked {
    pub label: &'static str,
    pub dng: Dng,
    /// Row, column, plane.
    pub spot: [u64; 3],
    /// "stored sample, table value, cell's black, column delta, row delta, B, M, L"
    pub level: [i64; 8],
    pub links: Vec<Link>,
    pub skipped: Vec<u64>,
}

impl Worked {
    /// "its last value is the spot's", and without one the scaled value.
    pub fn value(&self) -> f64 {
        let last = self.links.last().map(|link| link.after);
        last.unwrap_or(self.level[7] as f64 / 65535.0)
    }
}

/// Every chain worked out by hand, of files in one byte order.
pub fn worked(order: ByteOrder) -> Vec<Worked> {
    let mut all = examples(order);
    all.extend(tables_and_deltas(order));
    all.extend(planes(order));
    all.extend(defaults(order));
    all.extend(extremes(order));
    all.extend(lists(order));
    all.extend(grids(order));
    all.extend(grids_of_planes(order));
    all.extend(every_kind(order));
    all.extend(each_id(order));
    all.extend(unchanged(order));
    all.extend(gain_maps(order));
    all
}

/// A spot of a file without opcodes.
fn bare(label: &'static str, dng: &Dng, spot: [u64; 3], level: [i64; 8]) -> Worked {
    Worked { label, dng: dng.clone(), spot, level, links: Vec::new(), skipped: Vec::new() }
}

fn link(place: u64, id: u64, before: f64, after: f64) -> Link {
    Link { place, id, before, after }
}

fn picture(width: u32, samples: u32, bits: u32, stored: &[u16]) -> Picture {
    let length = stored.len() as u32 / (width * samples);
    Picture { stored: stored.to_vec(), ..Picture::counting(width, length, samples, bits) }
}

/// The board's examples 1 and 3, and 4 as document 02 has it: "M = 40 and L = 24030".
fn examples(order: ByteOrder) -> Vec<Worked> {
    let stored = [63, 64, 65, 576, 1087, 2000];
    let dng = Dng::new(order, &Picture::row(16, &stored)).with(Tag::shorts(50717, &[1087]));
    let first = dng.clone().with(Tag::shorts(50714, &[64]));
    let levels = [0, 0, 64, 32_800, 65_535, 65_535];
    let mut all: Vec<Worked> = (0..)
        .zip(stored.into_iter().zip(levels))
        .map(|(column, (stored, level))| {
            let numbers = [stored.into(), stored.into(), 16_384, 0, 0, 16_384, 16_384, level];
            bare("example 1", &first, [0, column, 0], numbers)
        })
        .collect();
    let third = dng.with(Tag::rationals(50714, &[(129, 2)]));
    all.push(bare("example 3", &third, [0, 2, 0], [65, 65, 16_512, 0, 0, 16_512, 16_512, 32]));
    let fourth = Dng::new(order, &picture(2, 1, 8, &[37; 4]))
        .with(Tag::shorts(50713, &[2, 2]))
        .with(Tag::shorts(50714, &[10, 20, 30, 40]))
        .with(Tag::srationals(50715, &[(5, 1), (0, 1)]))
        .with(Tag::shorts(50717, &[100]));
    for (spot, cell, delta, black, level) in [
        ([0, 0, 0], 2_560, 1_280, 3_840, 24_030),
        ([0, 1, 0], 5_120, 0, 5_120, 18_568),
        ([1, 0, 0], 7_680, 1_280, 8_960, 2_185),
        ([1, 1, 0], 10_240, 0, 10_240, 0),
    ] {
        let numbers = [37, 37, cell, delta, 0, black, 10_240, level];
        all.push(bare("example 4", &fourth, spot, numbers));
    }
    all
}

/// Two rows and three columns inside a frame, example 5's table, cells that repeat,
/// deltas of columns and rows of either sign. M is 10,272 and S 117,728.
fn tables_and_deltas(order: ByteOrder) -> Vec<Worked> {
    let stored = [9, 9, 9, 9, 9, 0, 1, 2, 9, 7, 2, 1];
    let dng = Dng::new(order, &picture(4, 1, 8, &stored))
        .with(Tag::longs(50829, &[1, 1, 3, 4]))
        .with(Tag::shorts(50712, &[0, 100, 400]))
        .with(Tag::shorts(50713, &[2, 2]))
        .with(Tag::rationals(50714, &[(10, 1), (41, 2), (30, 1), (40, 1)]))
        .with(Tag::srationals(50715, &[(5, 2), (-3, 4), (1, 256)]))
        .with(Tag::srationals(50716, &[(-4, 1), (7, 8)]))
        .with(Tag::shorts(50717, &[500]));
    let m = 10_272;
    [
        ([0, 0, 0], [0, 0, 2_560, 640, -1_024, 2_176, m, 0]),
        ([0, 1, 0], [1, 100, 5_248, -192, -1_024, 4_032, m, 12_006]),
        ([0, 2, 0], [2, 400, 2_560, 1, -1_024, 1_537, m, 56_147]),
        ([1, 0, 0], [7, 400, 7_680, 640, 224, 8_544, m, 52_246]),
        ([1, 1, 0], [2, 400, 10_240, -192, 224, 10_272, m, 51_284]),
        ([1, 2, 0], [1, 100, 7_680, 1, 224, 7_905, m, 9_850]),
    ]
    .into_iter()
    .map(|(spot, numbers)| bare("a table and deltas", &dng, spot, numbers))
    .collect()
}

/// LinearRaw, whose M differs by plane: 134, 208 and 308.
fn planes(order: ByteOrder) -> Vec<Worked> {
    let stored = [
        [9, 9, 9, 128, 500, 4_000, 134, 1_000, 3_000], // The first column is outside.
        [9, 9, 9, 108, 209, 308, 1_000, 34, 65_535],
    ]
    .concat();
    let dng = Dng::new(order, &picture(3, 3, 16, &stored))
        .with(Tag::longs(50829, &[0, 1, 2, 3]))
        .with(Tag::shorts(50713, &[1, 2]))
        .with(Tag::shorts(50714, &[100, 200, 300, 150, 50, 250]))
        .with(Tag::srationals(50715, &[(8, 1), (-16, 1)]))
        .with(Tag::shorts(50717, &[1_000, 2_000, 4_000]));
    let of_columns = [
        [[25_600, 2_048, 27_648], [51_200, 2_048, 53_248], [76_800, 2_048, 78_848]],
        [[38_400, -4_096, 34_304], [12_800, -4_096, 8_704], [64_000, -4_096, 59_904]],
    ];
    let greatest = [34_304, 53_248, 78_848];
    let levels = [[[1_514, 10_679, 65_535], [0, 35_327, 49_098]], [[0, 37, 0], [65_535, 0, 65_535]]];
    let mut all = Vec::new();
    for row in 0..2 {
        for column in 0..2 {
            for plane in 0..3 {
                let [cell, delta, black] = of_columns[column][plane];
                let v = stored[9 * row + 3 * (column + 1) + plane].into();
                let numbers = [v, v, cell, delta, 0, black, greatest[plane], levels[row][column][plane]];
                let spot = [row, column, plane].map(|n| n as u64);
                all.push(bare("planes of LinearRaw", &dng, spot, numbers));
            }
        }
    }
    all
}

/// What is absent is 0, and M may be below 0.
fn defaults(order: ByteOrder) -> Vec<Worked> {
    let plain = Dng::new(order, &Picture::row(8, &[0, 51, 144, 255]));
    let mut all: Vec<Worked> = [(0, 0), (51, 13_107), (144, 37_008), (255, 65_535)]
        .into_iter()
        .zip(0..)
        .map(|((v, level), column)| bare("no tags", &plain, [0, column, 0], [v, v, 0, 0, 0, 0, 0, level]))
        .collect();
    let one_entry = plain.clone().with(Tag::shorts(50712, &[77]));
    for (column, stored) in [0, 51, 144, 255].into_iter().enumerate() {
        let numbers = [stored, 77, 0, 0, 0, 0, 0, 19_789];
        all.push(bare("a table of one entry", &one_entry, [0, column as u64, 0], numbers));
    }
    let rows =
        Dng::new(order, &picture(2, 1, 8, &[10, 0, 10, 0])).with(Tag::srationals(50716, &[(-3, 1), (-1, 2)]));
    for (spot, stored, delta, level) in [
        ([0, 0, 0], 10, -768, 3_334),
        ([0, 1, 0], 0, -768, 769),
        ([1, 0, 0], 10, -128, 2_693),
        ([1, 1, 0], 0, -128, 128),
    ] {
        let numbers = [stored, stored, 0, 0, delta, delta, -128, level];
        all.push(bare("row deltas alone", &rows, spot, numbers));
    }
    let columns = Dng::new(order, &picture(2, 1, 16, &[500, 500, 500, 699, 500, 700]))
        .with(Tag::srationals(50715, &[(1, 2), (-300, 1)]))
        .with(Tag::longs(50717, &[1_000]));
    for (spot, stored, delta, level) in [
        ([0, 0, 0], 500, 128, 32_751),
        ([0, 1, 0], 500, -76_800, 52_454),
        ([1, 1, 0], 699, -76_800, 65_502),
        ([2, 1, 0], 700, -76_800, 65_535),
    ] {
        let numbers = [stored, stored, 0, delta, 0, delta, 128, level];
        all.push(bare("column deltas alone", &columns, spot, numbers));
    }
    all
}

/// The greatest cell, the least deltas, and a row's delta that makes S a 256th; then
/// the least B, which makes S the greatest, 3 x 256 x 65,535: a stored 0 is 2/3 of it.
fn extremes(order: ByteOrder) -> Vec<Worked> {
    let (greatest, least) = (16_776_960, -16_776_960);
    let stored = [0, 65_535, 65_534, 65_535];
    let narrow = Dng::new(order, &picture(2, 1, 16, &stored))
        .with(Tag::shorts(50714, &[65_535]))
        .with(Tag::srationals(50715, &[(-65_535, 1); 2]))
        .with(Tag::srationals(50716, &[(-65_535, 1), (16_776_959, 256)]));
    let mut all: Vec<Worked> = [
        ([0, 0, 0], 0, least, 65_535),
        ([0, 1, 0], 65_535, least, 65_535),
        ([1, 0, 0], 65_534, 16_776_959, 0),
        ([1, 1, 0], 65_535, 16_776_959, 65_535),
    ]
    .into_iter()
    .map(|(spot, stored, delta, level)| {
        let numbers = [stored, stored, greatest, least, delta, delta, 16_776_959, level];
        bare("the greatest black", &narrow, spot, numbers)
    })
    .collect();
    let wide = Dng::new(order, &Picture::row(16, &[0, 1, 32_767, 65_535]))
        .with(Tag::srationals(50715, &[(-65_535, 1); 4]))
        .with(Tag::srationals(50716, &[(-65_535, 1)]));
    let levels = [(0, 0, 43_690), (1, 1, 43_690), (2, 32_767, 54_612), (3, 65_535, 65_535)];
    all.extend(levels.map(|(column, stored, level)| {
        let numbers = [stored, stored, 0, least, least, 2 * least, 2 * least, level];
        bare("the least black", &wide, [0, column, 0], numbers)
    }));
    all
}

/// A frame of more than 2^16 samples: one on two grids, and the greatest delta, which is
/// not part of M.
pub fn great(order: ByteOrder) -> Vec<Worked> {
    let picture = Picture { rows_per_strip: 7, ..Picture::counting(300, 300, 1, 8) };
    let area = Area { top: 1, left: 2, row_pitch: 3, column_pitch: 5, ..Area::whole(300, 300, 1) };
    let mut deltas = [(0, 1); 300];
    (deltas[10], deltas[299]) = ((-3, 2), (7, 4));
    let list = [skipped(), Opcode::map_polynomial(area, &[0.25, 0.5]), Opcode::map_polynomial(area, &[0.75])];
    let dng = Dng::new(order, &picture)
        .with(Tag::shorts(50713, &[2, 1]))
        .with(Tag::shorts(50714, &[16, 8]))
        .with(Tag::srationals(50716, &deltas))
        .with_opcodes(&list);
    // Sample 300 x 10 + 12 is 196 past 11 x 256, sample 300 x 299 is 100 past 350 x 256.
    let on_grids = bare("great", &dng, [10, 12, 0], [196, 196, 4_096, 0, -384, 3_712, 4_096, 49_768]);
    let x = 49_768.0 / 65535.0;
    let links = vec![link(1, 8, x, 0.5 * x + 0.25), link(2, 8, 0.5 * x + 0.25, 0.75)];
    let last_row = bare("great", &dng, [299, 0, 0], [100, 100, 2_048, 0, 448, 2_496, 4_096, 24_747]);
    vec![Worked { links, skipped: vec![0], ..on_grids }, Worked { skipped: vec![0], ..last_row }]
}

/// Numbers of an 8-bit sample of 1.0 without levels.
pub const FULL: [i64; 8] = [255, 255, 0, 0, 0, 0, 0, 65_535];

/// An 8-bit mosaic, or LinearRaw, whose samples are all 1.0.
pub fn full(order: ByteOrder, [rows, columns, samples]: [u32; 3]) -> Dng {
    let stored = vec![255; (rows * columns * samples) as usize];
    Dng::new(order, &picture(columns, samples, 8, &stored))
}

/// An opcode that is skipped.
pub fn skipped() -> Opcode {
    Opcode::new(14, 1, vec![0xEE; 5])
}

/// The board's examples 7, 8 and 11.
fn lists(order: ByteOrder) -> Vec<Worked> {
    let one = Area::whole(1, 1, 1);
    let (half, quarter) = (Opcode::per_line(12, one, &[0.5]), Opcode::per_line(10, one, &[0.25]));
    let of_one = |label, list: &[Opcode], links: &[Link], skipped: &[u64]| Worked {
        label,
        dng: full(order, [1, 1, 1]).with_opcodes(list),
        spot: [0; 3],
        level: FULL,
        links: links.to_vec(),
        skipped: skipped.to_vec(),
    };
    let mut all = vec![
        of_one(
            "example 7",
            &[half.clone(), quarter.clone()],
            &[link(0, 12, 1.0, 0.5), link(1, 10, 0.5, 0.75)],
            &[],
        ),
        of_one(
            "example 7 the other way round",
            &[quarter.clone(), half.clone()],
            &[link(0, 10, 1.0, 1.0), link(1, 12, 1.0, 0.5)],
            &[],
        ),
        of_one(
            "example 7 among skipped ones",
            &[skipped(), half, skipped(), skipped(), quarter, skipped()],
            &[link(1, 12, 1.0, 0.5), link(4, 10, 0.5, 0.75)],
            &[0, 2, 3, 5],
        ),
        of_one("example 8", &[Opcode::map_polynomial(one, &[0.25, 0.5])], &[link(0, 8, 1.0, 0.75)], &[]),
    ];
    let eleventh = Dng::new(order, &Picture::row(8, &[16, 144, 255]))
        .with(Tag::shorts(50714, &[16]))
        .with_opcodes(&[Opcode::map_polynomial(Area { left: 1, right: 2, ..Area::whole(1, 3, 1) }, &[0.5])]);
    for (column, stored, level, links) in [
        (0, 16, 0, vec![]),
        (1, 144, 35_098, vec![link(0, 8, 35_098.0 / 65535.0, 0.5)]),
        (2, 255, 65_535, vec![]),
    ] {
        let numbers = [stored, stored, 4_096, 0, 0, 4_096, 4_096, level];
        all.push(Worked { links, ..bare("example 11", &eleventh, [0, column, 0], numbers) });
    }
    all
}

/// "Rows 1 to 6 (Bottom), pitch 2: rows 1, 3, 5, three values, row 3 takes the
/// second"; of five columns the second and the fourth, behind a skipped opcode.
fn grids(order: ByteOrder) -> Vec<Worked> {
    let area =
        Area { top: 1, left: 1, bottom: 6, right: 5, row_pitch: 2, column_pitch: 2, ..Area::whole(6, 5, 1) };
    let list = [
        skipped(),
        Opcode::per_line(12, area, &[0.5, 0.25, 0.75]),
        Opcode::per_line(11, area, &[-0.125, 0.125]),
    ];
    let dng = full(order, [6, 5, 1]).with_opcodes(&list);
    let mut all = Vec::new();
    for (row, factor) in [(0, None), (1, Some(0.5)), (2, None), (3, Some(0.25)), (4, None), (5, Some(0.75))] {
        for (column, sum) in [(0, None), (1, Some(-0.125)), (2, None), (3, Some(0.125)), (4, None)] {
            let links = match (factor, sum) {
                (Some(factor), Some(sum)) => {
                    vec![link(1, 12, 1.0, factor), link(2, 11, factor, factor + sum)]
                }
                _ => vec![],
            };
            let worked = bare("example 6", &dng, [row, column, 0], FULL);
            all.push(Worked { links, skipped: vec![0], ..worked });
        }
    }
    all
}

/// Rows, columns or planes.
type Lines = &'static [u64];

/// Grids that miss spots by a row, a column, a plane or a pitch; each leaves the
/// numbers as they were. Their rows, columns and planes are listed by hand.
fn grids_of_planes(order: ByteOrder) -> Vec<Worked> {
    let whole = Area::whole(7, 8, 3);
    let every_row: Lines = &[0, 1, 2, 3, 4, 5, 6];
    let every_column: Lines = &[0, 1, 2, 3, 4, 5, 6, 7];
    let every_plane: Lines = &[0, 1, 2];
    let pitched = Area { row_pitch: u32::MAX, column_pitch: 5, plane: 2, planes: 1, ..whole };
    let grids: [(Area, Lines, Lines, Lines); 9] = [
        (whole, every_row, every_column, every_plane),
        (Area { top: 2, bottom: 5, ..whole }, &[2, 3, 4], every_column, every_plane),
        (Area { left: 3, right: 4, ..whole }, every_row, &[3], every_plane),
        (Area { plane: 1, planes: 1, top: 6, ..whole }, &[6], every_column, &[1]),
        (Area { plane: 1, planes: 2, left: 7, ..whole }, every_row, &[7], &[1, 2]),
        (Area { top: 1, bottom: 6, row_pitch: 2, right: 1, ..whole }, &[1, 3, 5], &[0], every_plane),
        (Area { top: 1, bottom: 5, row_pitch: 2, planes: 2, ..whole }, &[1, 3], every_column, &[0, 1]),
        (Area { left: 1, column_pitch: 3, bottom: 2, ..whole }, &[0, 1], &[1, 4, 7], every_plane),
        (Area { top: 3, left: 2, ..pitched }, &[3], &[2, 7], &[2]),
    ];
    let opcodes = grids.map(|(area, ..)| Opcode::map_polynomial(area, &[0.0, 1.0]));
    let dng = full(order, [7, 8, 3]).with_opcodes(&opcodes);
    let mut all = Vec::new();
    for row in 0..7 {
        for (column, plane) in (0..8).flat_map(|column| [0, 1, 2].map(|plane| (column, plane))) {
            let covers = |(_, rows, columns, planes): &(Area, Lines, Lines, Lines)| {
                rows.contains(&row) && columns.contains(&column) && planes.contains(&plane)
            };
            let covering = (0..).zip(&grids).filter(|(_, grid)| covers(grid));
            let links = covering.map(|(place, _)| link(place, 8, 1.0, 1.0)).collect();
            all.push(Worked { links, ..bare("rows, columns and planes", &dng, [row, column, plane], FULL) });
        }
    }
    all
}

/// Each kind alone; flag bit 0 does not make it a skipped one, a later version does.
fn each_id(order: ByteOrder) -> Vec<Worked> {
    let area = Area::whole(2, 3, 1);
    let mut all = Vec::new();
    for (opcode, id, after) in [
        (Opcode::map_table(area, &[5, 0]), 7, 0.0),
        (Opcode::map_polynomial(area, &[0.25, 0.5]), 8, 0.75),
        (constant_gain(area, &[0.375]), 9, 0.375),
        (Opcode::per_line(10, area, &[0.0, -0.5]), 10, 0.5),
        (Opcode::per_line(11, area, &[0.0, -0.25, 0.0]), 11, 0.75),
        (Opcode::per_line(12, area, &[0.0, 0.625]), 12, 0.625),
        (Opcode::per_line(13, area, &[0.0, 0.125, 0.0]), 13, 0.125),
    ] {
        for flags in [0, 1, 0xFFFF_FFFE] {
            let dng = full(order, [2, 3, 1]).with_opcodes(&[opcode.clone().with_flags(flags)]);
            let links = vec![link(0, id, 1.0, after)];
            all.push(Worked { links, ..bare("each id", &dng, [1, 1, 0], FULL) });
        }
        let later = opcode.with_version(0x0107_0101).with_flags(1);
        let dng = full(order, [2, 3, 1]).with_opcodes(&[later]);
        all.push(Worked { skipped: vec![0], ..bare("each id, later", &dng, [1, 1, 0], FULL) });
    }
    all
}

/// Opcodes that leave 0, 1 and what is between as they were, each alone and all of
/// them: they cover all the same. White is 255, so that L is 257 x stored.
fn unchanged(order: ByteOrder) -> Vec<Worked> {
    let stored = [0, 1, 40, 200, 254, 255];
    let area = Area::whole(1, 6, 1);
    let identity: Vec<u16> = (0..=65_535).collect();
    let list = [
        Opcode::map_table(area, &identity),
        Opcode::map_polynomial(area, &[0.0, 1.0]),
        Opcode::gain_map(area, &GainMap::spread(&[[1.0, 1.0], [1.0, 1.0]])),
        Opcode::per_line(10, area, &[0.0]),
        Opcode::per_line(11, area, &[-0.0; 6]),
        Opcode::per_line(12, area, &[1.0]),
        Opcode::per_line(13, area, &[1.0; 6]),
    ];
    let alone = list.iter().zip(7..).map(|(opcode, id)| (vec![opcode.clone()], vec![id]));
    let mut all = Vec::new();
    for (list, ids) in alone.chain([(list.to_vec(), vec![7, 8, 9, 10, 11, 12, 13])]) {
        let dng = Dng::new(order, &Picture::row(8, &stored)).with_opcodes(&list);
        for (column, stored) in (0..).zip(stored.map(i64::from)) {
            let level = 257 * stored;
            let x = level as f64 / 65535.0;
            let links = (0..).zip(&ids).map(|(place, id)| link(place, *id, x, x)).collect();
            let numbers = [stored, stored, 0, 0, 0, 0, 0, level];
            all.push(Worked { links, ..bare("unchanged", &dng, [0, column, 0], numbers) });
        }
    }
    all
}

/// How an opcode of a list stands to the first sample of a frame of 2 x 2.
#[derive(Clone, Copy, Debug, PartialEq, Eq)]
pub enum Stands {
    Covering,
    Beside,
    Skipped,
}

/// The chain of that sample, a 1.0; every opcode that covers it takes half of what is
/// there.
pub fn of_list(order: ByteOrder, list: &[Stands]) -> Worked {
    let area = Area::whole(2, 2, 1);
    let opcode = |stands: &Stands| match stands {
        Stands::Covering => Opcode::per_line(12, Area { bottom: 1, ..area }, &[0.5]),
        Stands::Beside => Opcode::per_line(13, Area { left: 1, ..area }, &[0.25]),
        Stands::Skipped => skipped(),
    };
    let opcodes: Vec<Opcode> = list.iter().map(opcode).collect();
    let places = |wanted| {
        let found = (0..).zip(list).filter(move |(_, stands)| **stands == wanted);
        found.map(|(place, _)| place)
    };
    let halved = |times: i32| 0.5f64.powi(times);
    let covering = (0..).zip(places(Stands::Covering));
    let links = covering.map(|(times, place)| link(place, 12, halved(times), halved(times + 1))).collect();
    let skipped = places(Stands::Skipped).collect();
    let dng = full(order, [2, 2, 1]).with_opcodes(&opcodes);
    Worked { links, skipped, ..bare("a list", &dng, [0; 3], FULL) }
}

/// Lists of no opcode to 32: all of one kind; one of another kind at each place; and
/// kinds in turn.
pub fn every_list() -> Vec<Vec<Stands>> {
    let kinds @ [covering, beside, skipped] = [Stands::Covering, Stands::Beside, Stands::Skipped];
    let mut lists = Vec::new();
    for length in 0..=32 {
        for kind in kinds {
            let same = vec![kind; length];
            for (place, other) in (0..length).flat_map(|place| kinds.map(|other| (place, other))) {
                if other != kind {
                    let mut list = same.clone();
                    list[place] = other;
                    lists.push(list);
                }
            }
            lists.push(same);
        }
        for turns in [
            &[covering, skipped][..],
            &[skipped, covering, beside],
            &[beside, covering, covering, skipped, skipped],
        ] {
            lists.push(turns.iter().copied().cycle().take(length).collect());
        }
    }
    lists
}

/// All seven kinds on one sample, among skipped ones, which a listed id with a later
/// version is too. The table's last entry is a fifth of 65,535.
fn every_kind(order: ByteOrder) -> Vec<Worked> {
    let area = Area::whole(3, 4, 1);
    let list = [
        skipped(),
        Opcode::map_table(area, &[0, 13_107]),
        Opcode::map_polynomial(area, &[0.75]),
        constant_gain(area, &[0.5]),
        Opcode::map_polynomial(area, &[0.5]).with_version(0x0107_0101).with_flags(1),
        Opcode::per_line(10, area, &[0.5, 0.25, 0.5]),
        Opcode::per_line(11, area, &[0.5, 0.5, -0.125, 0.5]),
        Opcode::per_line(12, area, &[0.0, 0.5, 0.0]),
        Opcode::per_line(13, area, &[0.0, 0.0, 3.0, 0.0]),
        skipped(),
    ];
    let links = vec![
        link(1, 7, 1.0, 0.2),
        link(2, 8, 0.2, 0.75),
        link(3, 9, 0.75, 0.375),
        link(5, 10, 0.375, 0.625),
        link(6, 11, 0.625, 0.5),
        link(7, 12, 0.5, 0.25),
        link(8, 13, 0.25, 0.75),
    ];
    let worked = bare("every kind", &full(order, [3, 4, 1]).with_opcodes(&list), [1, 2, 0], FULL);
    vec![Worked { links, skipped: vec![0, 4, 9], ..worked }]
}

/// A map of one point, with a gain for each plane.
fn constant_gain(area: Area, gains: &[f32]) -> Opcode {
    let (planes, gains) = (gains.len() as u32, gains.to_vec());
    Opcode::gain_map(area, &GainMap { points: [1; 2], spacing: [0.0; 2], origin: [0.0; 2], planes, gains })
}

/// A gain between two points, a quarter of the way from 0.5 to 1 and from 1 to 0.5;
/// and of planes 1 and 2 of LinearRaw the second by map plane 1.
fn gain_maps(order: ByteOrder) -> Vec<Worked> {
    let map = GainMap::spread(&[[0.5, 1.0]]);
    let dng = full(order, [1, 2, 1]).with_opcodes(&[Opcode::gain_map(Area::whole(1, 2, 1), &map)]);
    let mut all: Vec<Worked> = [(0, 0.625), (1, 0.875)]
        .into_iter()
        .map(|(column, gain)| Worked {
            links: vec![link(0, 9, 1.0, gain)],
            ..bare("between two points", &dng, [0, column, 0], FULL)
        })
        .collect();
    let area = Area { plane: 1, planes: 2, ..Area::whole(1, 1, 3) };
    let list = [constant_gain(area, &[0.5, 0.25, 0.75]), constant_gain(area, &[0.5])];
    let dng = full(order, [1, 1, 3]).with_opcodes(&list);
    for (plane, links) in [
        (0, vec![]),
        (1, vec![link(0, 9, 1.0, 0.5), link(1, 9, 0.5, 0.25)]),
        (2, vec![link(0, 9, 1.0, 0.25), link(1, 9, 0.25, 0.125)]),
    ] {
        all.push(Worked { links, ..bare("map planes", &dng, [0, 0, plane], FULL) });
    }
    all
}
