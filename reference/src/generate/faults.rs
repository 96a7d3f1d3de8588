//! Single faults in a valid description, at each limit and one step off it.
//! Not every edit is a fault: some land on the good side of their limit.

use crate::builder::{pattern_tags, Data, Dng, OpcodeList, Place, Tag, MAP_GAINS, PATTERN_TAGS};
use crate::bytes::{ByteOrder, LAYOUTS};
use crate::random::Random;

use super::colours;
use super::draft::Draft;
use super::layouts::WIDE_TYPES;
use super::{crops, gain_maps, lists};

type Fault = fn(&mut Random, &mut Draft);

const FAULTS: &[(&str, Fault)] = &[
    ("tag absent", tag_absent),
    ("tag type", tag_type),
    ("tag type", tag_type),
    ("wide type", wide_type),
    ("tag count", tag_count),
    ("tag count", tag_count),
    ("tag value", tag_value),
    ("tag value", tag_value),
    ("tag value", tag_value),
    ("tag forbidden", tag_forbidden),
    ("crop", crop),
    ("crop", crop),
    ("50717 and 50719", white_and_origin),
    ("50719 and 50720", origin_and_size),
    ("50720 and the crop", size_and_crop),
    ("the crop and 51008", crop_and_list_1),
    ("the crop and 9", crop_and_9),
    ("pattern", pattern),
    ("pattern", pattern),
    ("value place", value_place),
    ("strip place", strip_place),
    ("tag order", tag_order),
    ("entry count", entry_count),
    ("header", header),
    ("version", version),
    ("white", white),
    ("list count", list_count),
    ("list bytes", list_bytes),
    ("opcode header", opcode_header),
    ("opcode area", opcode_area),
    ("opcode area", opcode_area),
    ("opcode numbers", opcode_numbers),
    ("opcode numbers", opcode_numbers),
    ("opcode numbers", opcode_numbers),
    ("opcode size", opcode_size),
    ("gain map", gain_map),
    ("gain map", gain_map),
];

/// A valid file with one fault, or now and then two or three.
pub fn faulty(random: &mut Random) -> (String, Vec<u8>) {
    let mut draft = Draft::valid(random);
    let mut labels = Vec::new();
    for _ in 0..random.pick(&[1, 1, 1, 1, 2, 2, 3]) {
        let (label, fault) = random.pick(FAULTS);
        fault(random, &mut draft);
        labels.push(label);
    }
    (labels.join(" + "), draft.dng().file())
}

const RAW_TAGS: [u16; 28] = [
    254, 256, 257, 262, 277, 258, 259, 284, 339, 50975, 52547, 278, 273, 279, 50829, 50712, 50713, 50714,
    50715, 50716, 50717, 50719, 50720, 51009, 33421, 33422, 50710, 50711,
];
const FIRST_TAGS: [u16; 6] = [254, 330, 50706, 50707, 50728, 50964];
const FORBIDDEN_IN_RAW: [u16; 2] = [51008, 51022];
const FORBIDDEN_IN_FIRST: [u16; 3] = [50723, 50727, 50965];

/// An IFD and one of its tags, put there with a harmless value if absent.
fn choose_tag<'a>(random: &mut Random, draft: &'a mut Draft) -> &'a mut Tag {
    if let Some(list) = draft.list.take() {
        draft.dng.raw_ifd().set(list.tag());
    }
    let raw = !random.one_in(5);
    let tag = if raw { random.pick(&RAW_TAGS) } else { random.pick(&FIRST_TAGS) };
    let harmless = harmless_tag(draft, tag);
    let ifd = if raw { draft.dng.raw_ifd() } else { draft.dng.first_ifd() };
    if ifd.get(tag).is_none() {
        ifd.set(harmless);
    }
    ifd.get_mut(tag).expect("it was set")
}

/// A tag that says what its absence says, as far as that can be.
fn harmless_tag(draft: &Draft, tag: u16) -> Tag {
    if let Some(carried) = pattern_tags([0, 1, 1, 2]).into_iter().find(|carried| carried.tag == tag) {
        return carried;
    }
    let samples = draft.samples() as usize;
    let zeros = |count: u32| vec![(0, 1); count as usize];
    match tag {
        254 => Tag::longs(254, &[0]),
        278 => Tag::longs(278, &[draft.picture.rows_per_strip]),
        277 => Tag::shorts(277, &[samples as u16]),
        259 | 284 | 50975 | 52547 => Tag::shorts(tag, &[1]),
        339 => Tag::shorts(339, &vec![1; samples]),
        330 => Tag::sub_ifds(&[0]),
        50829 => Tag::longs(50829, &[0, 0, draft.picture.length, draft.picture.width]),
        50712 => Tag::shorts(50712, &[0, 1, 2, 3]),
        50713 => Tag::shorts(50713, &[1, 1]),
        50714 => Tag::shorts(50714, &vec![0; samples]),
        50715 => Tag::srationals(50715, &zeros(draft.columns)),
        50716 => Tag::srationals(50716, &zeros(draft.rows)),
        50717 => Tag::longs(50717, &vec![(1 << draft.picture.bits) - 1; samples]),
        50719 => Tag::longs(50719, &[0, 0]),
        50720 => Tag::longs(50720, &[draft.columns, draft.rows]),
        51009 => OpcodeList::new(&[]).tag(),
        50707 => Tag::bytes(50707, &[1, 4, 0, 0]),
        50964 => Tag::srationals(50964, &zeros(9)),
        50728 => Tag::rationals(50728, &[(1, 1), (1, 1), (1, 1)]),
        _ => Tag::longs(tag, &[1]),
    }
}

fn tag_absent(random: &mut Random, draft: &mut Draft) {
    let required =
        [256, 257, 258, 262, 273, 279, 277, 278, 50706, 50964, 50728, 50713, 254, 330, 33421, 33422];
    let tag = random.pick(&required);
    draft.dng.raw_ifd().remove(tag);
    draft.dng.first_ifd().remove(tag);
}

fn tag_type(random: &mut Random, draft: &mut Draft) {
    let kind = random.pick(&[0, 1, 2, 3, 4, 5, 6, 7, 8, 9, 10, 11, 12, 13, 14, 15, 16, 17, 18, 19, 65_535]);
    choose_tag(random, draft).kind = kind;
}

/// The same values in 8 bytes each, whether the layout knows the type or not
/// and the tag takes it or not.
fn wide_type(random: &mut Random, draft: &mut Draft) {
    let kind = random.pick(&WIDE_TYPES);
    let tag = choose_tag(random, draft);
    tag.data = tag.data.clone().widened();
    tag.kind = kind;
}

fn tag_count(random: &mut Random, draft: &mut Draft) {
    let tag = choose_tag(random, draft);
    let count = tag.data.count() as u64;
    let counts = [0, count.saturating_sub(1), count + 1, 1, 17, 65_536, 65_537, LONG_MAX];
    // Of these some are the right count, or none, but for 2^32 or 2^64 bytes.
    let wide = [count + LONG_MAX + 1, count + (1 << 61), 1 << 61, 1 << 62, 1 << 63, u64::MAX];
    tag.count = Some(if random.one_in(3) { random.pick(&wide) } else { random.pick(&counts) });
}

/// The greatest LONG.
const LONG_MAX: u64 = u32::MAX as u64;

/// One value changed to one of its limits or a neighbour of it.
fn tag_value(random: &mut Random, draft: &mut Draft) {
    let (length, width) = (draft.picture.length, draft.picture.width);
    let tag = choose_tag(random, draft);
    let edges = edges(tag.tag, length, width);
    let edge = random.pick(&edges);
    let unsigned = [0, 1, 2, 3, 128, 255, 256, 512, 65_535, 65_536, 16_776_960, 16_776_961, u32::MAX];
    let signed = [0, 1, 2, 3, 128, 256, 512, 65_535, 65_536, 16_776_960, 16_776_961, i32::MAX, i32::MIN];
    let count = tag.data.count();
    if count == 0 {
        return;
    }
    let i = random.index(count);
    match &mut tag.data {
        Data::Bytes(v) => v[i] = edge as u8,
        Data::Shorts(v) => v[i] = edge as u16,
        Data::Longs(v) => v[i] = edge,
        Data::Long8s(v) => v[i] = widened(random, edge),
        Data::Rationals(v) if random.one_in(2) => v[i].0 = random.pick(&unsigned),
        Data::Rationals(v) => v[i].1 = random.pick(&unsigned),
        Data::SRationals(v) if random.one_in(2) => {
            v[i].0 = random.pick(&signed).wrapping_mul(random.pick(&[1, -1]));
        }
        Data::SRationals(v) => v[i].1 = random.pick(&signed).wrapping_mul(random.pick(&[1, -1])),
        Data::ShortPlaces(v) | Data::LongPlaces(v) => v[i] = Place::At(edge.into()),
        Data::Long8Places(v) => v[i] = Place::At(widened(random, edge)),
    }
}

/// A number itself, or one that is it but for 2^32 or 2^63, or the greatest.
fn widened(random: &mut Random, number: u32) -> u64 {
    let number = u64::from(number);
    random.pick(&[number, number, number, number + (1 << 32), number + (1 << 63), u64::MAX])
}

fn edges(tag: u16, length: u32, width: u32) -> Vec<u32> {
    let edges: &[u32] = match tag {
        256 | 257 => &[0, 1, 16_384, 16_385, 65_535, u32::MAX],
        262 => &[0, 1, 2, 32_802, 32_803, 32_804, 34_891, 34_892, 34_893],
        258 => &[0, 1, 7, 8, 9, 12, 15, 16, 17, 32],
        278 => &[0, 1, 2, length, length + 1, 65_535, u32::MAX],
        50829 | 50719 | 50720 => &[0, 1, length, width, length + 1, width + 1, u32::MAX],
        50713 => &[0, 1, 2, 7, 8, 9, 65_535],
        50714 | 50717 => &[0, 1, 254, 65_534, 65_535, 65_536, u32::MAX],
        50706 | 50707 => &[0, 1, 2, 7, 8, 255],
        33421 | 33422 | 50710 | 50711 => &[0, 1, 2, 3, 255, 258],
        _ => &[0, 1, 2, 3, 4, 8, 255, 65_535, u32::MAX],
    };
    edges.to_vec()
}

fn tag_forbidden(random: &mut Random, draft: &mut Draft) {
    let tag = |number| Tag::bytes(number, &[0; 4]);
    let kind = random.pick(&[0, 1, 3, 7, 14]);
    if random.one_in(2) {
        draft.dng.raw_ifd().set(tag(random.pick(&FORBIDDEN_IN_RAW)).with_kind(kind));
    } else {
        draft.dng.first_ifd().set(tag(random.pick(&FORBIDDEN_IN_FIRST)).with_kind(kind));
    }
}

/// One of the crop's two tags with a fault of its own, or a crop that is empty or
/// outside.
fn crop(random: &mut Random, draft: &mut Draft) {
    match random.index(3) {
        0 => crop_outside(random, draft),
        1 => crop_tag(random, draft, crops::ORIGIN),
        _ => crop_tag(random, draft, crops::SIZE),
    }
}

fn crop_tag(random: &mut Random, draft: &mut Draft, tag: u16) {
    draft.dng.raw_ifd().set(crops::faulty(random, tag));
}

fn crop_outside(random: &mut Random, draft: &mut Draft) {
    crops::outside(random, &mut draft.dng, [draft.columns, draft.rows]);
}

/// These and the next four: two faults whose tests stand one behind the other.
fn white_and_origin(random: &mut Random, draft: &mut Draft) {
    crop_tag(random, draft, crops::ORIGIN);
    let whites = vec![65_536; draft.samples() as usize];
    let kind = random.pick(&[0, 1, 4, 4, 14]);
    draft.dng.raw_ifd().set(Tag::longs(50717, &whites).with_kind(kind));
}

fn origin_and_size(random: &mut Random, draft: &mut Draft) {
    crop_tag(random, draft, crops::SIZE);
    crop_tag(random, draft, crops::ORIGIN);
}

fn size_and_crop(random: &mut Random, draft: &mut Draft) {
    let beyond = [draft.columns, draft.rows].map(|side| side + random.small(0, 1));
    draft.dng.raw_ifd().set(Tag::longs(crops::ORIGIN, &beyond).shortened());
    crop_tag(random, draft, crops::SIZE);
}

fn crop_and_list_1(random: &mut Random, draft: &mut Draft) {
    crop_outside(random, draft);
    draft.dng.raw_ifd().set(Tag::undefined(51008, &[0; 4]));
}

fn crop_and_9(random: &mut Random, draft: &mut Draft) {
    if random.one_in(2) {
        crop_outside(random, draft);
    } else {
        crop(random, draft);
    }
    let whites = vec![one_black(random, draft); draft.samples() as usize];
    draft.dng.raw_ifd().set(Tag::longs(50717, &whites));
}

/// Of the pattern's four tags one absent, with a value more or less or another
/// one, or SHORT for BYTE and BYTE for SHORT; the other three are carried.
fn pattern(random: &mut Random, draft: &mut Draft) {
    let place = random.index(PATTERN_TAGS.len());
    let tags = colours::carried(random);
    let (tag, mut bytes, mut values) = match &tags[place] {
        Tag { tag, data: Data::Bytes(values), .. } => (*tag, true, values.clone()),
        Tag { tag, .. } => (*tag, false, if *tag == 33421 { vec![2, 2] } else { vec![1] }),
    };
    for carried in tags {
        draft.dng.raw_ifd().set(carried);
    }
    match random.index(8) {
        0 | 1 => {
            draft.dng.raw_ifd().remove(tag);
            return;
        }
        2 => bytes = !bytes,
        3 => values.push(1),
        4 => values.truncate(values.len() - 1),
        _ => {
            let place = random.index(values.len());
            values[place] = random.pick(&[0, 1, 2, 3, 255]);
        }
    }
    let shorts: Vec<u16> = values.iter().map(|v| (*v).into()).collect();
    draft.dng.raw_ifd().set(if bytes { Tag::bytes(tag, &values) } else { Tag::shorts(tag, &shorts) });
}

/// A value that ends at the file's end, or past it by a byte, or far away.
fn value_place(random: &mut Random, draft: &mut Draft) {
    let length = draft.dng().file().len() as u64;
    let tag = choose_tag(random, draft);
    let last = length.saturating_sub(tag.data.byte_length() as u64);
    tag.field = Some(at_the_end(random, length, last));
}

/// The last place inside a file of some length, and others that are outside,
/// two of them inside but for 2^32 or 2^64.
fn at_the_end(random: &mut Random, length: u64, last: u64) -> u64 {
    random.pick(&[last, last, last + 1, length, LONG_MAX, 0, last + (1 << 32), u64::MAX])
}

/// A strip that ends at the file's end, or past it by a byte, or far away.
fn strip_place(random: &mut Random, draft: &mut Draft) {
    let length = draft.dng().file().len() as u64;
    let sizes = match draft.dng.raw_ifd().get(279).map(|t| t.data.clone().widened()) {
        Some(Data::Long8s(sizes)) => sizes,
        _ => Vec::new(),
    };
    let Some(tag) = draft.dng.raw_ifd().get_mut(273) else {
        return;
    };
    if let Data::ShortPlaces(places) | Data::LongPlaces(places) | Data::Long8Places(places) = &mut tag.data {
        if !places.is_empty() && places.len() == sizes.len() {
            let i = random.index(places.len());
            let last = length.saturating_sub(sizes[i]);
            places[i] = Place::At(at_the_end(random, length, last));
        }
    }
}

fn tag_order(random: &mut Random, draft: &mut Draft) {
    let raw = draft.dng.raw;
    let ifd = random.pick(&[0, raw]);
    let ifd = &mut draft.dng.ifds[ifd];
    ifd.tags.sort_by_key(|t| t.tag);
    ifd.as_listed = true;
    let i = random.index(ifd.tags.len());
    if random.one_in(2) {
        let twice = ifd.tags[i].clone();
        ifd.tags.insert(i, twice);
    } else {
        let j = (i + 1) % ifd.tags.len();
        ifd.tags.swap(i, j);
    }
}

fn entry_count(random: &mut Random, draft: &mut Draft) {
    let raw = draft.dng.raw;
    let ifd = random.pick(&[0, raw]);
    let ifd = &mut draft.dng.ifds[ifd];
    let count = ifd.tags.len() as u64;
    // Twenty times the last of them is twenty times the right one but for 2^64.
    let wide = [count + 65_536, count + (1 << 32), u64::MAX, u64::MAX / 20 + 1, count + (1 << 62)];
    let counts = [0, count - 1, count + 1, 65_535, random.pick(&wide)];
    ifd.count = Some(random.pick(&counts));
}

fn header(random: &mut Random, draft: &mut Draft) {
    let length = draft.dng().file().len() as u64;
    let ifd = draft.dng().layout().ifds[0] as u64;
    match random.index(4) {
        0 => {
            let starts = [
                *b"II\x2A\x01",
                *b"II\x00\x2A",
                *b"II\x00\x2B",
                *b"MM\x2A\x00",
                *b"MM\x2B\x00",
                *b"MM\x00\x2C",
                *b"IM\x2A\x00",
                *b"\0\0\0\0",
            ];
            draft.dng.start = random.pick(&starts).to_vec();
        }
        1 => other_header(random, draft),
        2 => {
            // In a 64-bit file this is where 8 and 0 stand.
            let place = 4 + random.index(4);
            draft.dng.start = draft.dng().file()[..8].to_vec();
            draft.dng.start[place] ^= 1 << random.index(8);
        }
        _ => {
            let places = [0, ifd - 1, ifd + 1, length - 1, length - 2, length, LONG_MAX, ifd + (1 << 32)];
            draft.dng.first = Place::At(random.pick(&places));
        }
    }
}

/// The mark, or the whole header, of the other byte order or the other layout.
fn other_header(random: &mut Random, draft: &mut Draft) {
    let order = random.pick(&[ByteOrder::Little, ByteOrder::Big]);
    let other = Dng { order, widths: random.pick(&LAYOUTS), ..draft.dng() };
    let length = random.pick(&[4, other.widths.header as usize]);
    draft.dng.start = other.file()[..length].to_vec();
}

fn version(random: &mut Random, draft: &mut Draft) {
    let versions = [[1, 7, 1, 0], [1, 7, 1, 1], [1, 7, 2, 0], [1, 8, 0, 0], [2, 0, 0, 0], [1, 7, 0, 9]];
    let tag = random.pick(&[50706, 50707]);
    if tag == 50706 && random.one_in(2) {
        draft.dng.first_ifd().remove(50707);
    }
    draft.dng.first_ifd().set(Tag::bytes(tag, &random.pick(&versions)));
}

/// White levels next to the greatest black of their planes, which comes of the
/// draft's own black levels and deltas or of one black for all.
fn white(random: &mut Random, draft: &mut Draft) {
    if random.one_in(2) {
        one_black(random, draft);
    }
    let next = |m: &i128| (m.div_euclid(256) + i128::from(random.pick(&[-1, 0, 1, 1, 1]))).clamp(0, 65_535);
    let whites: Vec<u32> = draft.greatest_black.iter().map(next).map(|white| white as u32).collect();
    draft.dng.raw_ifd().set(Tag::longs(50717, &whites));
}

/// One black for all planes and samples, which comes back.
fn one_black(random: &mut Random, draft: &mut Draft) -> u32 {
    let black = random.small(1, 200);
    let samples = draft.samples() as usize;
    let raw = draft.dng.raw_ifd();
    for tag in [50713, 50715, 50716] {
        raw.remove(tag);
    }
    raw.set(Tag::longs(50714, &vec![black; samples]));
    draft.greatest_black = vec![256 * i128::from(black); samples];
    black
}

/// The draft's list, made if there is none.
fn list<'a>(random: &mut Random, draft: &'a mut Draft) -> &'a mut OpcodeList {
    let one = lists::kept(random, draft);
    let list = draft.list.get_or_insert_with(|| OpcodeList::new(&[]));
    if list.opcodes.is_empty() {
        list.opcodes.push(one);
    }
    list
}

fn list_count(random: &mut Random, draft: &mut Draft) {
    let one = lists::kept(random, draft);
    let list = list(random, draft);
    let length = list.opcodes.len() as u32;
    match random.index(3) {
        0 => list.opcodes.resize(random.pick(&[31, 32, 33]), one),
        1 => list.count = Some(random.pick(&[32, 33, 0x0100_0000, u32::MAX])),
        _ => list.count = Some(random.pick(&[0, length - 1, length + 1])),
    }
}

fn list_bytes(random: &mut Random, draft: &mut Draft) {
    let list = list(random, draft);
    if random.one_in(2) {
        let length = random.index(17) + 1;
        list.tail = random.bytes(length);
        return;
    }
    let length = list.spell().len() as u64;
    let tag = list.tag().with_count(random.pick(&[0, 3, 4, 5, 19, 20, length - 1, length - 4]));
    draft.list = None;
    draft.dng.raw_ifd().set(tag);
}

fn opcode_header(random: &mut Random, draft: &mut Draft) {
    let list = list(random, draft);
    let i = random.index(list.opcodes.len());
    let opcode = &mut list.opcodes[i];
    let length = opcode.parameters.len() as u32;
    match random.index(4) {
        0 => opcode.id = random.pick(&[0, 6, 7, 8, 9, 10, 11, 12, 13, 14, 0x0700_0000]),
        1 => opcode.version = random.pick(&[0, 0x0107_0100, 0x0107_0101, 0x0108_0000, u32::MAX]),
        2 => opcode.length = Some(random.pick(&[0, 35, 36, length.saturating_sub(1), length + 1, u32::MAX])),
        _ => opcode.id = random.pick(&[6, 9, 14]),
    }
    opcode.flags = random.pick(&[0, 0, 1, 2, 0xFFFF_FFFE]);
}

/// One of the first nine LONGs changed to a limit or a neighbour of it.
fn opcode_area(random: &mut Random, draft: &mut Draft) {
    let (rows, columns, samples) = (draft.rows, draft.columns, draft.samples());
    let list = list(random, draft);
    let i = random.index(list.opcodes.len());
    if list.opcodes[i].parameters.len() < 36 {
        return;
    }
    let edges = [0, 1, 2, 8, 9, rows, rows + 1, columns, columns + 1, samples, samples + 1, u32::MAX];
    let long = random.index(9);
    list.opcodes[i] = list.opcodes[i].clone().with_long(long, random.pick(&edges));
}

/// A FLOAT or DOUBLE that is infinite or NaN, or one next to these or to 0.
fn opcode_numbers(random: &mut Random, draft: &mut Draft) {
    let list = list(random, draft);
    let i = random.index(list.opcodes.len());
    let opcode = &mut list.opcodes[i];
    let bytes = match opcode.id {
        8 => random.pick(&lists::DOUBLES).to_be_bytes().to_vec(),
        9..=13 => random.pick(&lists::FLOATS).to_be_bytes().to_vec(),
        _ => return,
    };
    let first = if opcode.id == 9 { MAP_GAINS } else { 36 };
    let numbers = opcode.parameters.len().saturating_sub(first) / bytes.len();
    if numbers > 0 {
        let place = first + bytes.len() * random.index(numbers);
        opcode.parameters[place..place + bytes.len()].copy_from_slice(&bytes);
    }
}

/// A stated size at its limit, with exactly as many bytes.
fn opcode_size(random: &mut Random, draft: &mut Draft) {
    let one = lists::kept(random, draft);
    let (stated, bytes) = match one.id {
        7 => random.pick(&[(0, 0), (1, 2), (3, 6), (3, 5), (3, 8), (65_536, 131_072), (65_537, 131_074)]),
        8 => random.pick(&[(0, 8), (8, 72), (9, 80), (2, 16), (2, 32), (u32::MAX, 0)]),
        9 => return gain_map(random, draft),
        _ => random.pick(&[(0, 0), (1, 4), (2, 8), (1, 5), (u32::MAX, 4)]),
    };
    let mut one = one.with_long(8, stated);
    one.parameters.resize(36 + bytes, 0);
    list(random, draft).opcodes.push(one);
}

/// A GainMap with a fault of its own, anywhere in the list.
fn gain_map(random: &mut Random, draft: &mut Draft) {
    let area = lists::area(random, draft);
    let flags = random.pick(&[0, 0, 1]);
    let one = gain_maps::faulty(random, area, [draft.rows, draft.columns]).with_flags(flags);
    let list = list(random, draft);
    let place = random.index(list.opcodes.len() + 1);
    list.opcodes.insert(place, one);
}
