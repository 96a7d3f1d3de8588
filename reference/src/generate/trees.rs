//! Trees of SubIFDs: valid ones, and odd ones at the limits and beyond.

use crate::builder::{Data, Dng, Ifd, Picture, Place, Tag};
use crate::bytes::ByteOrder;
use crate::random::Random;
use crate::tag_test::LONG;

use super::{colours, layouts};

/// Moves the raw IFD down a chain of SubIFDs, with other children beside it.
pub fn nest(random: &mut Random, dng: &mut Dng) {
    let depth = random.pick(&[0, 0, 0, 1, 1, 2, 3]);
    if depth == 0 {
        return;
    }
    *dng = dng.clone().nested(depth);
    let parents: Vec<usize> = (0..dng.ifds.len()).filter(|i| *i != dng.raw).collect();
    for parent in parents {
        add_siblings(random, dng, parent);
    }
    if random.one_in(2) {
        for ifd in &mut dng.ifds {
            ifd.next = random.any();
        }
    }
}

/// Up to two visited children before the one that leads to the raw IFD, and
/// after it up to two that are never visited, wherever they point.
fn add_siblings(random: &mut Random, dng: &mut Dng, parent: usize) {
    let Some(Data::LongPlaces(mut children)) = dng.ifds[parent].get(330).map(|t| t.data.clone()) else {
        return;
    };
    for _ in 0..random.index(3) {
        children.insert(0, Place::Ifd(dng.ifds.len()));
        dng.ifds.push(preview(random));
    }
    for _ in 0..random.index(3) {
        children.push(Place::At(random.any()));
    }
    let mut tag = Tag::new(330, LONG, Data::LongPlaces(children));
    if random.one_in(2) {
        tag = tag.with_kind(13);
    }
    dng.ifds[parent].set(tag);
}

/// An IFD that is not raw and has no children.
fn preview(random: &mut Random) -> Ifd {
    let kind = random.pick(&[1, 1, 2, 4, 65_537, u32::MAX]);
    let mut ifd = Ifd::new(&[Tag::longs(254, &[kind])]);
    if random.one_in(2) {
        ifd.set(Tag::shorts(256, &[random.any() as u16; 3]));
    }
    ifd
}

type Arrangement = fn(&mut Random, &mut Dng);

/// A small picture whose IFDs point at each other in any way at all: chains,
/// circles, shared children, up to the limits and beyond.
pub fn odd_tree(random: &mut Random) -> (String, Vec<u8>) {
    let mut dng = Dng::new(ByteOrder::Big, &Picture::counting(2, 2, 1, 8)).nested(1);
    colours::choose(random, &mut dng);
    colours::choose_pattern(random, &mut dng, 1);
    let kinds: [(&str, Arrangement); 4] =
        [("chain", chain), ("many visits", many_visits), ("circle", circle), ("web", web)];
    let (label, arrange) = random.pick(&kinds);
    arrange(random, &mut dng);
    layouts::lay_out_in_either(random, &mut dng);
    (label.into(), dng.file())
}

/// The raw IFD at depth 2 to 6.
fn chain(random: &mut Random, dng: &mut Dng) {
    let more = random.index(5) + 1;
    *dng = dng.clone().nested(more);
}

/// The raw IFD at the 10th to 24th visit.
fn many_visits(random: &mut Random, dng: &mut Dng) {
    let before = random.index(15) + 8;
    let raw = dng.raw;
    let leaf = dng.ifds.len();
    dng.ifds.push(preview(random));
    let branch = dng.ifds.len();
    let in_branch = before / 2;
    dng.ifds.push(Ifd::new(&[Tag::longs(254, &[1]), Tag::sub_ifds(&vec![leaf; in_branch])]));
    let mut children = vec![branch];
    children.extend(vec![leaf; before - in_branch - 1]);
    children.push(raw);
    dng.first_ifd().set(Tag::sub_ifds(&children));
}

/// A child that points back at itself or an ancestor before the raw one.
fn circle(random: &mut Random, dng: &mut Dng) {
    let raw = dng.raw;
    let back = dng.ifds.len();
    let target = random.pick(&[0, back]);
    dng.ifds.push(Ifd::new(&[Tag::longs(254, &[1]), Tag::sub_ifds(&[target])]));
    let children = if random.one_in(2) { vec![back, raw] } else { vec![raw, back] };
    dng.first_ifd().set(Tag::sub_ifds(&children));
}

/// Some IFDs with random children among themselves.
fn web(random: &mut Random, dng: &mut Dng) {
    for _ in 0..random.index(4) {
        dng.ifds.push(preview(random));
    }
    let count = dng.ifds.len();
    for ifd in 0..count {
        if ifd != dng.raw && !random.one_in(4) {
            let children: Vec<usize> = (0..random.index(5)).map(|_| random.index(count)).collect();
            dng.ifds[ifd].set(Tag::sub_ifds(&children));
        }
    }
}
