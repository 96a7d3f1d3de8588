//! A valid file, described part by part with random choices.

use crate::builder::{Data, Dng, OpcodeList, Picture, Place, Tag};
use crate::bytes::ByteOrder;
use crate::random::Random;
use crate::tag_test::{LONG, SHORT};

use super::levels::{self, Frame};
use super::{colours, crops, layouts, lists, trees};

/// A description that can still be edited; the opcode list is kept apart.
#[derive(Clone, Debug)]
pub struct Draft {
    pub dng: Dng,
    pub picture: Picture,
    /// Active rows and columns.
    pub rows: u32,
    pub columns: u32,
    /// The greatest black of each plane, in 256ths.
    pub greatest_black: Vec<i128>,
    pub list: Option<OpcodeList>,
}

impl Draft {
    pub fn valid(random: &mut Random) -> Draft {
        let mut draft = Draft::of_either_layout(random);
        layouts::lay_out_in_either(random, &mut draft.dng);
        draft
    }

    /// A description that both layouts can hold.
    pub fn of_either_layout(random: &mut Random) -> Draft {
        let mut draft = Draft::plain(random);
        draft.choose_strips(random);
        draft.choose_optional_tags(random);
        draft.choose_active_area(random);
        draft.choose_table(random);
        let frame = draft.frame();
        draft.greatest_black = levels::choose(random, &mut draft.dng, frame);
        draft.finish(random);
        draft
    }

    /// All that is chosen behind the levels.
    pub fn finish(&mut self, random: &mut Random) {
        crops::choose(random, &mut self.dng, [self.columns, self.rows]);
        self.list = lists::list(random, self);
        colours::choose(random, &mut self.dng);
        self.choose_noise(random);
        colours::choose_pattern(random, &mut self.dng, self.picture.samples);
        trees::nest(random, &mut self.dng);
        colours::choose_unread(random, &mut self.dng);
        crops::choose_unread(random, &mut self.dng);
        self.dng.ifds_first = random.one_in(2);
        self.dng.gap = random.pick(&[0, 0, 0, 1, 2, 5]);
        self.dng.tail = random.pick(&[0, 0, 0, 1, 9]);
    }

    /// The finished description.
    pub fn dng(&self) -> Dng {
        let mut dng = self.dng.clone();
        if let Some(list) = &self.list {
            dng.raw_ifd().set(list.tag());
        }
        dng
    }

    pub fn samples(&self) -> u32 {
        self.picture.samples
    }

    pub fn frame(&self) -> Frame {
        Frame { rows: self.rows, columns: self.columns, samples: self.samples(), bits: self.picture.bits }
    }

    fn plain(random: &mut Random) -> Draft {
        let greatest = if random.one_in(24) { 40 } else { random.pick(&[9, 9, 16]) };
        let (width, length) = (random.small(1, greatest), random.small(1, greatest));
        let samples = random.pick(&[1, 3]);
        let bits = random.pick(&[8, 16]);
        let mask = if random.one_in(3) { 0x3F } else { (1u32 << bits) - 1 };
        let stored = (0..width * length * samples).map(|_| (random.any() as u32 & mask) as u16).collect();
        let rows_per_strip = match random.index(4) {
            0 => random.small(1, length),
            1 => random.small(length, length + 2),
            2 => 1,
            _ => u32::MAX,
        };
        Draft::of(random, Picture { width, length, samples, bits, rows_per_strip, stored })
    }

    /// With the required tags, in either byte order.
    pub fn of(random: &mut Random, picture: Picture) -> Draft {
        let dng = Dng::new(random.pick(&[ByteOrder::Little, ByteOrder::Big]), &picture);
        let (rows, columns) = (picture.length, picture.width);
        Draft { dng, rows, columns, picture, greatest_black: Vec::new(), list: None }
    }

    /// SHORT or LONG, apart or overlapping.
    fn choose_strips(&mut self, random: &mut Random) {
        let strips = self.dng.blocks.len();
        if strips > 1 && random.one_in(4) {
            self.overlap_strips(random);
        }
        if random.one_in(2) {
            if let Some(Tag { kind, data, .. }) = self.dng.raw_ifd().get_mut(273) {
                if let Data::LongPlaces(places) = data {
                    *data = Data::ShortPlaces(places.clone());
                    *kind = SHORT;
                }
            }
        }
        for tag in [256, 257, 278, 279] {
            if random.one_in(2) {
                self.shorten(tag);
            }
        }
    }

    /// All strips stand anywhere in one block.
    pub fn overlap_strips(&mut self, random: &mut Random) {
        let sizes: Vec<usize> = self.dng.blocks.iter().map(Vec::len).collect();
        let block = self.dng.blocks.concat();
        let places = sizes.iter().map(|size| Place::Block(0, random.index(block.len() - size + 1) as u32));
        let places = Data::LongPlaces(places.collect());
        self.dng.blocks = vec![block];
        self.dng.raw_ifd().set(Tag::new(273, LONG, places));
    }

    /// Turns a tag of LONGs into one of SHORTs where the values allow it.
    fn shorten(&mut self, tag: u16) {
        if let Some(tag) = self.dng.raw_ifd().get_mut(tag) {
            *tag = tag.clone().shortened();
        }
    }

    pub fn choose_optional_tags(&mut self, random: &mut Random) {
        let samples = self.samples() as usize;
        for tag in [254, 259] {
            if random.one_in(3) {
                self.dng.raw_ifd().remove(tag);
            }
        }
        if samples == 1 && random.one_in(3) {
            self.dng.raw_ifd().remove(277);
        }
        if self.picture.rows_per_strip >= self.picture.length && random.one_in(2) {
            self.dng.raw_ifd().remove(278);
        }
        let ones = [
            Tag::shorts(284, &[1]),
            Tag::shorts(339, &vec![1; samples]),
            Tag::shorts(50975, &[1]),
            Tag::longs(52547, &[1]),
        ];
        for tag in ones {
            if random.one_in(3) {
                self.dng.raw_ifd().set(tag);
            }
        }
        if random.one_in(3) {
            let version = random.pick(&[[1, 1, 0, 0], [1, 7, 1, 0], [1, 7, 0, 255], [0, 9, 9, 9]]);
            self.dng.first_ifd().set(Tag::bytes(50707, &version));
        }
    }

    fn choose_active_area(&mut self, random: &mut Random) {
        if random.one_in(3) {
            return;
        }
        let rows = random.stretch(self.picture.length);
        let columns = random.stretch(self.picture.width);
        self.set_active_area(random, rows, columns);
    }

    pub fn set_active_area(&mut self, random: &mut Random, [top, bottom]: [u32; 2], [left, right]: [u32; 2]) {
        self.rows = bottom - top;
        self.columns = right - left;
        self.dng.raw_ifd().set(Tag::longs(50829, &[top, left, bottom, right]));
        if random.one_in(2) {
            self.shorten(50829);
        }
    }

    fn choose_table(&mut self, random: &mut Random) {
        if !random.one_in(4) {
            return;
        }
        let length = match random.index(24) {
            0 => 65_536,
            1..=4 => 256,
            _ => random.index(8) + 1,
        };
        let entries: Vec<u16> = (0..length).map(|_| random.any() as u16).collect();
        self.dng.raw_ifd().set(Tag::shorts(50712, &entries));
    }

    /// Tags that no call reads, of known and unknown types; two of them are read
    /// of a mosaic, which as a rule has its own in their place.
    fn choose_noise(&mut self, random: &mut Random) {
        for _ in 0..random.index(3) {
            let tag = random.pick(&[1, 253, 266, 271, 305, 330, 700, 33_421, 50_710, 50_718, 51_041, 65_535]);
            let length = random.index(12);
            let bytes = random.bytes(length);
            let noise = if random.one_in(3) {
                let kind = random.pick(&[0, 14, 15, 19, 255, 65_535]);
                Tag::bytes(tag, &bytes).with_kind(kind).with_count(random.any())
            } else {
                Tag::bytes(tag, &bytes).with_kind(random.pick(&[1, 2, 6, 7]))
            };
            self.dng.raw_ifd().set(noise);
        }
    }
}
