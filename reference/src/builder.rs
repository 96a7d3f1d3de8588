//! A builder of DNG files: a plain description, every part of which can be
//! overridden so that any single fault can be made, and its layout in bytes.

use crate::bytes::{ByteOrder, Widths, BEHIND_64_BIT_MARK, MARKS};
use crate::tag_test::{BYTE, IFD, IFD8, LONG, LONG8, RATIONAL, SHORT, SRATIONAL, UNDEFINED};

/// An offset that is known only once the file is laid out.
#[derive(Clone, Copy, Debug, PartialEq, Eq)]
pub enum Place {
    At(u64),
    Ifd(usize),
    /// A block and a distance into it.
    Block(usize, u32),
}

#[derive(Clone, Debug, PartialEq)]
pub enum Data {
    Bytes(Vec<u8>),
    Shorts(Vec<u16>),
    Longs(Vec<u32>),
    Long8s(Vec<u64>),
    Rationals(Vec<(u32, u32)>),
    SRationals(Vec<(i32, i32)>),
    ShortPlaces(Vec<Place>),
    LongPlaces(Vec<Place>),
    Long8Places(Vec<Place>),
}

/// One entry of an IFD with its value.
#[derive(Clone, Debug, PartialEq)]
pub struct Tag {
    pub tag: u16,
    pub kind: u16,
    pub data: Data,
    /// Stands in the count field in place of the data's own count.
    pub count: Option<u64>,
    /// Stands in the last word of the entry in place of what belongs there.
    pub field: Option<u64>,
}

impl Tag {
    pub fn new(tag: u16, kind: u16, data: Data) -> Tag {
        Tag { tag, kind, data, count: None, field: None }
    }

    pub fn bytes(tag: u16, values: &[u8]) -> Tag {
        Tag::new(tag, BYTE, Data::Bytes(values.to_vec()))
    }

    pub fn undefined(tag: u16, values: &[u8]) -> Tag {
        Tag::new(tag, UNDEFINED, Data::Bytes(values.to_vec()))
    }

    pub fn shorts(tag: u16, values: &[u16]) -> Tag {
        Tag::new(tag, SHORT, Data::Shorts(values.to_vec()))
    }

    pub fn longs(tag: u16, values: &[u32]) -> Tag {
        Tag::new(tag, LONG, Data::Longs(values.to_vec()))
    }

    pub fn long8s(tag: u16, values: &[u64]) -> Tag {
        Tag::new(tag, LONG8, Data::Long8s(values.to_vec()))
    }

    pub fn rationals(tag: u16, values: &[(u32, u32)]) -> Tag {
        Tag::new(tag, RATIONAL, Data::Rationals(values.to_vec()))
    }

    pub fn srationals(tag: u16, values: &[(i32, i32)]) -> Tag {
        Tag::new(tag, SRATIONAL, Data::SRationals(values.to_vec()))
    }

    /// Whole numbers in as many bytes as the type has; an unknown type has bytes.
    pub fn of_type(tag: u16, kind: u16, values: &[u32]) -> Tag {
        let data = match kind {
            3 | 8 => Data::Shorts(values.iter().map(|v| *v as u16).collect()),
            4 | 9 | 11 | 13 => Data::Longs(values.to_vec()),
            5 | 10 | 12 => Data::Rationals(values.iter().map(|v| (*v, 1)).collect()),
            16..=18 => Data::Long8s(values.iter().map(|v| (*v).into()).collect()),
            _ => Data::Bytes(values.iter().map(|v| *v as u8).collect()),
        };
        Tag::new(tag, kind, data)
    }

    pub fn sub_ifds(children: &[usize]) -> Tag {
        Tag::new(330, IFD, Data::LongPlaces(children.iter().map(|i| Place::Ifd(*i)).collect()))
    }

    pub fn with_kind(mut self, kind: u16) -> Tag {
        self.kind = kind;
        self
    }

    pub fn with_count(mut self, count: u64) -> Tag {
        self.count = Some(count);
        self
    }

    pub fn with_field(mut self, field: u64) -> Tag {
        self.field = Some(field);
        self
    }

    /// The same values as SHORT if they are LONG and small enough.
    pub fn shortened(self) -> Tag {
        let Data::Longs(values) = &self.data else {
            return self;
        };
        match values.iter().map(|v| u16::try_from(*v)).collect::<Result<Vec<u16>, _>>() {
            Ok(values) => Tag { kind: SHORT, data: Data::Shorts(values), ..self },
            Err(_) => self,
        }
    }

    /// The same values as LONG8 if they are LONG, as IFD8 if they are IFD.
    pub fn widened(self) -> Tag {
        let kind = match self.kind {
            LONG => LONG8,
            IFD => IFD8,
            _ => return self,
        };
        Tag { kind, data: self.data.widened(), ..self }
    }
}

impl Data {
    pub fn count(&self) -> usize {
        match self {
            Data::Bytes(v) => v.len(),
            Data::Shorts(v) => v.len(),
            Data::Longs(v) => v.len(),
            Data::Long8s(v) => v.len(),
            Data::Rationals(v) => v.len(),
            Data::SRationals(v) => v.len(),
            Data::ShortPlaces(v) | Data::LongPlaces(v) | Data::Long8Places(v) => v.len(),
        }
    }

    /// The same whole numbers in 8 bytes each; fractions have as many already.
    pub fn widened(self) -> Data {
        fn wide<T: Into<u64>>(values: Vec<T>) -> Data {
            Data::Long8s(values.into_iter().map(T::into).collect())
        }
        match self {
            Data::Bytes(v) => wide(v),
            Data::Shorts(v) => wide(v),
            Data::Longs(v) => wide(v),
            Data::ShortPlaces(v) | Data::LongPlaces(v) => Data::Long8Places(v),
            of_8_bytes => of_8_bytes,
        }
    }

    pub fn byte_length(&self) -> usize {
        let size = match self {
            Data::Bytes(_) => 1,
            Data::Shorts(_) | Data::ShortPlaces(_) => 2,
            Data::Longs(_) | Data::LongPlaces(_) => 4,
            Data::Long8s(_) | Data::Long8Places(_) => 8,
            Data::Rationals(_) | Data::SRationals(_) => 8,
        };
        size * self.count()
    }

    fn spell(&self, order: ByteOrder, find: impl Fn(Place) -> u64) -> Vec<u8> {
        let short = |n: u16| order.spell(n.into(), 2);
        let long = |n: u32| order.spell(n.into(), 4);
        let places = |v: &[Place], width| v.iter().flat_map(|p| order.spell(find(*p), width)).collect();
        match self {
            Data::Bytes(v) => v.clone(),
            Data::Shorts(v) => v.iter().flat_map(|n| short(*n)).collect(),
            Data::Longs(v) => v.iter().flat_map(|n| long(*n)).collect(),
            Data::Long8s(v) => v.iter().flat_map(|n| order.spell(*n, 8)).collect(),
            Data::Rationals(v) => v.iter().flat_map(|(n, d)| [long(*n), long(*d)].concat()).collect(),
            Data::SRationals(v) => {
                v.iter().flat_map(|(n, d)| [long(*n as u32), long(*d as u32)].concat()).collect()
            }
            Data::ShortPlaces(v) => places(v, 2),
            Data::LongPlaces(v) => places(v, 4),
            Data::Long8Places(v) => places(v, 8),
        }
    }
}

#[derive(Clone, Debug, Default, PartialEq)]
pub struct Ifd {
    pub tags: Vec<Tag>,
    /// Stands in place of the number of entries.
    pub count: Option<u64>,
    pub next: u64,
    /// Entries stand as listed; otherwise they are sorted by tag.
    pub as_listed: bool,
}

impl Ifd {
    pub fn new(tags: &[Tag]) -> Ifd {
        Ifd { tags: tags.to_vec(), ..Ifd::default() }
    }

    /// Puts a tag in, in place of one of the same number.
    pub fn set(&mut self, tag: Tag) -> &mut Ifd {
        self.remove(tag.tag);
        self.tags.push(tag);
        self
    }

    pub fn remove(&mut self, tag: u16) -> &mut Ifd {
        self.tags.retain(|t| t.tag != tag);
        self
    }

    pub fn get(&self, tag: u16) -> Option<&Tag> {
        self.tags.iter().find(|t| t.tag == tag)
    }

    pub fn get_mut(&mut self, tag: u16) -> Option<&mut Tag> {
        self.tags.iter_mut().find(|t| t.tag == tag)
    }

    fn sorted(&self) -> Vec<&Tag> {
        let mut tags: Vec<&Tag> = self.tags.iter().collect();
        if !self.as_listed {
            tags.sort_by_key(|t| t.tag);
        }
        tags
    }

    fn byte_length(&self, widths: Widths) -> usize {
        (widths.entries + widths.entry() * self.tags.len() as u64 + widths.word) as usize
    }
}

/// The stored samples and how they are cut into strips.
#[derive(Clone, Debug, PartialEq)]
pub struct Picture {
    pub width: u32,
    pub length: u32,
    /// 1 for a mosaic, 3 for LinearRaw.
    pub samples: u32,
    /// 8 or 16.
    pub bits: u32,
    pub rows_per_strip: u32,
    /// Row by row, planes together.
    pub stored: Vec<u16>,
}

impl Picture {
    /// One strip; the samples count up from 0.
    pub fn counting(width: u32, length: u32, samples: u32, bits: u32) -> Picture {
        let count = width * length * samples;
        let modulus = 1u32 << bits;
        let stored = (0..count).map(|i| (i % modulus) as u16).collect();
        Picture { width, length, samples, bits, rows_per_strip: length, stored }
    }

    /// A mosaic of one row in one strip.
    pub fn row(bits: u32, stored: &[u16]) -> Picture {
        let width = stored.len() as u32;
        Picture { width, length: 1, samples: 1, bits, rows_per_strip: 1, stored: stored.to_vec() }
    }

    fn strips(&self, order: ByteOrder) -> Vec<Vec<u8>> {
        let samples_per_strip = (self.rows_per_strip.min(self.length) * self.width * self.samples) as usize;
        let bytes = (self.bits / 8) as usize;
        let strip = |samples: &[u16]| samples.iter().flat_map(|s| order.spell((*s).into(), bytes)).collect();
        self.stored.chunks(samples_per_strip).map(strip).collect()
    }
}

/// The tags that stand in IFD 0 wherever the raw IFD stands.
pub const FIRST_IFD_TAGS: [u16; 7] = [50706, 50707, 50723, 50727, 50728, 50964, 50965];

/// The tags of a mosaic's pattern, in order of test.
pub const PATTERN_TAGS: [u16; 4] = [33421, 33422, 50710, 50711];

/// These tags, for the colours of a block row by row, with carried values.
pub fn pattern_tags(colours: [u8; 4]) -> [Tag; 4] {
    [
        Tag::shorts(33421, &[2, 2]),
        Tag::bytes(33422, &colours),
        Tag::bytes(50710, &[0, 1, 2]),
        Tag::shorts(50711, &[1]),
    ]
}

/// A whole file.
#[derive(Clone, Debug, PartialEq)]
pub struct Dng {
    pub order: ByteOrder,
    /// The layout.
    pub widths: Widths,
    /// Stands in place of as many bytes at the file's start.
    pub start: Vec<u8>,
    pub first: Place,
    /// IFD 0 first.
    pub ifds: Vec<Ifd>,
    /// Which of `ifds` is the raw one.
    pub raw: usize,
    /// Strips, as a rule one block each.
    pub blocks: Vec<Vec<u8>>,
    /// IFDs stand before the values outside entries, not after them.
    pub ifds_first: bool,
    /// Idle bytes before every part of the file.
    pub gap: usize,
    /// Idle bytes at the end.
    pub tail: usize,
}

impl Dng {
    /// A file in the 32-bit layout with IFD 0 as the raw one and its required
    /// tags.
    pub fn new(order: ByteOrder, picture: &Picture) -> Dng {
        let blocks = picture.strips(order);
        let strips: Vec<Place> = (0..blocks.len()).map(|i| Place::Block(i, 0)).collect();
        let byte_counts: Vec<u32> = blocks.iter().map(|b| b.len() as u32).collect();
        let samples = picture.samples as usize;
        let photometric = if samples == 1 { 32803 } else { 34892 };
        let raw = Ifd::new(&[
            Tag::longs(254, &[0]),
            Tag::longs(256, &[picture.width]),
            Tag::longs(257, &[picture.length]),
            Tag::shorts(258, &vec![picture.bits as u16; samples]),
            Tag::shorts(259, &[1]),
            Tag::shorts(262, &[photometric]),
            Tag::new(273, LONG, Data::LongPlaces(strips)),
            Tag::shorts(277, &[picture.samples as u16]),
            Tag::longs(278, &[picture.rows_per_strip]),
            Tag::longs(279, &byte_counts),
            Tag::bytes(50706, &[1, 7, 1, 0]),
        ]);
        Dng {
            order,
            widths: Widths::BITS_32,
            start: Vec::new(),
            first: Place::Ifd(0),
            ifds: vec![raw],
            raw: 0,
            blocks,
            ifds_first: false,
            gap: 0,
            tail: 0,
        }
    }

    pub fn first_ifd(&mut self) -> &mut Ifd {
        &mut self.ifds[0]
    }

    pub fn raw_ifd(&mut self) -> &mut Ifd {
        &mut self.ifds[self.raw]
    }

    /// The same file with a tag set in the raw IFD.
    pub fn with(mut self, tag: Tag) -> Dng {
        self.raw_ifd().set(tag);
        self
    }

    /// The same file with a tag set in IFD 0.
    pub fn with_first(mut self, tag: Tag) -> Dng {
        self.first_ifd().set(tag);
        self
    }

    /// The same file without a tag of the raw IFD.
    pub fn without(mut self, tag: u16) -> Dng {
        self.raw_ifd().remove(tag);
        self
    }

    pub fn with_opcodes(self, opcodes: &[Opcode]) -> Dng {
        self.with(OpcodeList::new(opcodes).tag())
    }

    /// The same file with all tags of a pattern in the raw IFD.
    pub fn with_pattern(self, colours: [u8; 4]) -> Dng {
        pattern_tags(colours).into_iter().fold(self, Dng::with)
    }

    /// The same file in the 64-bit layout.
    pub fn in_64_bits(self) -> Dng {
        Dng { widths: Widths::BITS_64, ..self }
    }

    /// The same file with the raw IFD at the end of a chain of `depth` SubIFDs.
    pub fn nested(mut self, depth: usize) -> Dng {
        for _ in 0..depth {
            let child = self.ifds.len();
            let (stay, moved) =
                self.ifds[self.raw].tags.iter().cloned().partition(|t| FIRST_IFD_TAGS.contains(&t.tag));
            let mut parent = Ifd { tags: stay, ..Ifd::default() };
            parent.set(Tag::longs(254, &[1])).set(Tag::sub_ifds(&[child]));
            self.ifds[self.raw] = parent;
            self.ifds.push(Ifd { tags: moved, ..Ifd::default() });
            self.raw = child;
        }
        self
    }

    pub fn file(&self) -> Vec<u8> {
        self.layout().file
    }

    /// The file's bytes: header, blocks, values outside entries, IFDs (or IFDs
    /// before values).
    pub fn layout(&self) -> Layout {
        let mut plan = Plan { end: self.widths.header as usize, gap: self.gap, widths: self.widths };
        let blocks: Vec<usize> = self.blocks.iter().map(|b| plan.take(b.len())).collect();
        let early = self.ifds_first.then(|| plan.take_ifds(&self.ifds));
        let values: Vec<Vec<usize>> = self.ifds.iter().map(|ifd| plan.take_values(ifd)).collect();
        let ifds = early.unwrap_or_else(|| plan.take_ifds(&self.ifds));
        let mut layout = Layout { file: vec![IDLE; plan.end + self.tail], ifds, blocks, entries: Vec::new() };
        self.write_header(&mut layout);
        for (i, block) in self.blocks.iter().enumerate() {
            layout.write(layout.blocks[i], block);
        }
        for (i, places) in values.iter().enumerate() {
            self.write_ifd(&mut layout, i, places);
        }
        layout
    }

    fn write_header(&self, layout: &mut Layout) {
        let Widths { header, word, .. } = self.widths;
        let own = (self.order, self.widths);
        let mark = MARKS.iter().find(|(_, order, widths)| (*order, *widths) == own);
        layout.write(0, &mark.expect("every layout has a mark in each order").0);
        if self.widths == Widths::BITS_64 {
            layout.write(4, &BEHIND_64_BIT_MARK.map(|n| self.order.spell(n, 2)).concat());
        }
        layout.write_number((header - word) as usize, self.order, layout.find(self.first), word);
        layout.write(0, &self.start);
    }

    fn write_ifd(&self, layout: &mut Layout, number: usize, values: &[usize]) {
        let ifd = &self.ifds[number];
        let start = layout.ifds[number];
        let count = ifd.count.unwrap_or(ifd.tags.len() as u64);
        let Widths { entries, word, .. } = self.widths;
        layout.write_number(start, self.order, count, entries);
        let mut at = start + entries as usize;
        for (tag, value) in ifd.sorted().into_iter().zip(values) {
            self.write_entry(layout, number, at, tag, *value);
            at += self.widths.entry() as usize;
        }
        layout.write_number(at, self.order, ifd.next, word);
    }

    fn write_entry(&self, layout: &mut Layout, ifd: usize, at: usize, tag: &Tag, value: usize) {
        let bytes = tag.data.spell(self.order, |place| layout.find(place));
        let word = self.widths.word;
        let field = at + 4 + word as usize;
        let in_entry = bytes.len() as u64 <= word;
        let value = if in_entry { field } else { value };
        let count = tag.count.unwrap_or(tag.data.count() as u64);
        layout.write_number(at, self.order, tag.tag.into(), 2);
        layout.write_number(at + 2, self.order, tag.kind.into(), 2);
        layout.write_number(at + 4, self.order, count, word);
        layout.write_number(field, self.order, if in_entry { 0 } else { value as u64 }, word);
        layout.write(value, &bytes);
        if let Some(stated) = tag.field {
            layout.write_number(field, self.order, stated, word);
        }
        layout.entries.push(EntryPlace { ifd, tag: tag.tag, entry: at, value, length: bytes.len() });
    }
}

/// Idle bytes hold this, so that reading one would show.
const IDLE: u8 = 0xA5;

/// Hands out the file's bytes from front to back.
struct Plan {
    end: usize,
    gap: usize,
    widths: Widths,
}

impl Plan {
    fn take(&mut self, length: usize) -> usize {
        let start = self.end + self.gap;
        self.end = start + length;
        start
    }

    fn take_ifds(&mut self, ifds: &[Ifd]) -> Vec<usize> {
        ifds.iter().map(|ifd| self.take(ifd.byte_length(self.widths))).collect()
    }

    fn take_values(&mut self, ifd: &Ifd) -> Vec<usize> {
        let in_entry = self.widths.word as usize;
        let mut place = |length| if length > in_entry { self.take(length) } else { 0 };
        ifd.sorted().iter().map(|tag| place(tag.data.byte_length())).collect()
    }
}

/// Where one entry and its value stand.
#[derive(Clone, Copy, Debug, PartialEq, Eq)]
pub struct EntryPlace {
    pub ifd: usize,
    pub tag: u16,
    pub entry: usize,
    pub value: usize,
    pub length: usize,
}

/// The bytes of a file and where its parts stand.
#[derive(Clone, Debug)]
pub struct Layout {
    pub file: Vec<u8>,
    pub ifds: Vec<usize>,
    pub blocks: Vec<usize>,
    pub entries: Vec<EntryPlace>,
}

impl Layout {
    pub fn entry(&self, ifd: usize, tag: u16) -> EntryPlace {
        let found = self.entries.iter().find(|e| e.ifd == ifd && e.tag == tag);
        *found.expect("the description holds the tag")
    }

    fn find(&self, place: Place) -> u64 {
        match place {
            Place::At(offset) => offset,
            Place::Ifd(i) => self.ifds[i] as u64,
            Place::Block(i, distance) => self.blocks[i] as u64 + u64::from(distance),
        }
    }

    fn write_number(&mut self, start: usize, order: ByteOrder, number: u64, width: u64) {
        self.write(start, &order.spell(number, width as usize));
    }

    fn write(&mut self, start: usize, bytes: &[u8]) {
        self.file[start..start + bytes.len()].copy_from_slice(bytes);
    }
}

/// The first eight parameters of an opcode.
#[derive(Clone, Copy, Debug, PartialEq, Eq)]
pub struct Area {
    pub top: u32,
    pub left: u32,
    pub bottom: u32,
    pub right: u32,
    pub plane: u32,
    pub planes: u32,
    pub row_pitch: u32,
    pub column_pitch: u32,
}

impl Area {
    /// Every sample of the first `planes` planes of a frame.
    pub fn whole(rows: u32, columns: u32, planes: u32) -> Area {
        Area {
            top: 0,
            left: 0,
            bottom: rows,
            right: columns,
            plane: 0,
            planes,
            row_pitch: 1,
            column_pitch: 1,
        }
    }

    pub fn fields(&self) -> [u32; 8] {
        let Area { top, left, bottom, right, plane, planes, row_pitch, column_pitch } = *self;
        [top, left, bottom, right, plane, planes, row_pitch, column_pitch]
    }
}

/// What a GainMap says behind its area; of two the vertical one stands first.
#[derive(Clone, Debug, PartialEq)]
pub struct GainMap {
    pub points: [u32; 2],
    pub spacing: [f64; 2],
    pub origin: [f64; 2],
    pub planes: u32,
    /// Row, column, plane.
    pub gains: Vec<f32>,
}

/// Which LONGs of a GainMap have its points and planes, and which bytes its
/// spacings, origins and gains.
pub const MAP_POINTS: [usize; 2] = [8, 9];
pub const MAP_PLANES: usize = 18;
pub const MAP_SPACING: [usize; 2] = [40, 48];
pub const MAP_ORIGIN: [usize; 2] = [56, 64];
pub const MAP_GAINS: usize = 76;

impl GainMap {
    /// One plane of gains, row by row. The first and the last points stand on
    /// the frame's edges.
    pub fn spread<const H: usize>(gains: &[[f32; H]]) -> GainMap {
        let points = [gains.len() as u32, H as u32];
        let spacing = points.map(|points| 1.0 / f64::from(points.max(2) - 1));
        GainMap { points, spacing, origin: [0.0; 2], planes: 1, gains: gains.concat() }
    }

    /// The parameters behind the area.
    fn spell(&self) -> Vec<u8> {
        let points = self.points.into_iter().flat_map(u32::to_be_bytes);
        let doubles = self.spacing.into_iter().chain(self.origin).flat_map(f64::to_be_bytes);
        let gains = self.gains.iter().flat_map(|gain| gain.to_be_bytes());
        points.chain(doubles).chain(self.planes.to_be_bytes()).chain(gains).collect()
    }
}

/// One opcode of OpcodeList2.
#[derive(Clone, Debug, PartialEq)]
pub struct Opcode {
    pub id: u32,
    pub version: u32,
    pub flags: u32,
    /// Stands in place of the parameters' length.
    pub length: Option<u32>,
    pub parameters: Vec<u8>,
}

impl Opcode {
    pub fn new(id: u32, flags: u32, parameters: Vec<u8>) -> Opcode {
        Opcode { id, version: 0x0103_0000, flags, length: None, parameters }
    }

    fn on_area(id: u32, area: Area, stated: u32, numbers: Vec<u8>) -> Opcode {
        let longs = area.fields().into_iter().chain([stated]);
        let parameters = longs.flat_map(u32::to_be_bytes).chain(numbers).collect();
        Opcode::new(id, 0, parameters)
    }

    pub fn map_table(area: Area, entries: &[u16]) -> Opcode {
        let numbers = entries.iter().flat_map(|e| e.to_be_bytes()).collect();
        Opcode::on_area(7, area, entries.len() as u32, numbers)
    }

    /// Constant first; at least one coefficient.
    pub fn map_polynomial(area: Area, coefficients: &[f64]) -> Opcode {
        let numbers = coefficients.iter().flat_map(|c| c.to_be_bytes()).collect();
        Opcode::on_area(8, area, coefficients.len() as u32 - 1, numbers)
    }

    pub fn gain_map(area: Area, map: &GainMap) -> Opcode {
        let area = area.fields().into_iter().flat_map(u32::to_be_bytes);
        Opcode::new(9, 0, area.chain(map.spell()).collect())
    }

    /// 10, 11, 12 or 13: delta or scale, per row or per column.
    pub fn per_line(id: u32, area: Area, values: &[f32]) -> Opcode {
        let numbers = values.iter().flat_map(|v| v.to_bits().to_be_bytes()).collect();
        Opcode::on_area(id, area, values.len() as u32, numbers)
    }

    pub fn with_version(mut self, version: u32) -> Opcode {
        self.version = version;
        self
    }

    pub fn with_flags(mut self, flags: u32) -> Opcode {
        self.flags = flags;
        self
    }

    pub fn with_length(mut self, length: u32) -> Opcode {
        self.length = Some(length);
        self
    }

    /// The same opcode with one of its LONG parameters changed.
    pub fn with_long(self, place: usize, value: u32) -> Opcode {
        self.with_bytes(4 * place, &value.to_be_bytes())
    }

    /// The same opcode with some bytes of its parameters changed.
    pub fn with_bytes(mut self, place: usize, bytes: &[u8]) -> Opcode {
        self.parameters[place..place + bytes.len()].copy_from_slice(bytes);
        self
    }

    pub fn spell(&self) -> Vec<u8> {
        let length = self.length.unwrap_or(self.parameters.len() as u32);
        let header = [self.id, self.version, self.flags, length];
        header.into_iter().flat_map(u32::to_be_bytes).chain(self.parameters.clone()).collect()
    }
}

#[derive(Clone, Debug, PartialEq)]
pub struct OpcodeList {
    pub opcodes: Vec<Opcode>,
    /// Stands in place of the number of opcodes.
    pub count: Option<u32>,
    /// Bytes after the last opcode.
    pub tail: Vec<u8>,
}

impl OpcodeList {
    pub fn new(opcodes: &[Opcode]) -> OpcodeList {
        OpcodeList { opcodes: opcodes.to_vec(), count: None, tail: Vec::new() }
    }

    pub fn spell(&self) -> Vec<u8> {
        let count = self.count.unwrap_or(self.opcodes.len() as u32);
        let opcodes = self.opcodes.iter().flat_map(Opcode::spell);
        count.to_be_bytes().into_iter().chain(opcodes).chain(self.tail.clone()).collect()
    }

    pub fn tag(&self) -> Tag {
        Tag::undefined(51009, &self.spell())
    }
}
