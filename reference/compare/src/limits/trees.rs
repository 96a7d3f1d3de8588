//! The walk: refusal 6, which IFD is the raw one, and SubIFDs.

use reference::builder::{Data, Dng, Ifd, Place, Tag};
use reference::bytes::{Widths, LAYOUTS};
use reference::tag_test::{IFD, IFD8, LONG, LONG8};

use super::{
    both, entry, every_type_in_layouts, far, in_orders, plain, takes, Answer, DONE, LONG8_MAX, MAX, MOSAIC,
    SHAPE, TREE,
};
use crate::tally::Tally;

enum Node {
    Raw,
    /// Raw, of width 0.
    Faulty,
    /// Not raw, without SubIFDs.
    Leaf,
    /// Not raw, with these IFDs as children.
    Parent(&'static [usize]),
    /// Not raw, with IFD 1 so many times as a child, then one outside the file.
    Astray(usize),
}

use Node::{Astray, Faulty, Leaf, Parent, Raw};

/// IFDs, IFD 0 first, and the answer.
const TREES: &[(&[Node], Answer)] = &[
    (&[Leaf], TREE),
    (&[Parent(&[1]), Leaf], TREE),
    (&[Parent(&[1]), Faulty], (4, 256)),
    (&[Parent(&[1, 2]), Raw, Faulty], DONE),
    (&[Parent(&[1, 2]), Faulty, Raw], (4, 256)),
    (&[Parent(&[2, 1]), Faulty, Raw], DONE),
    (&[Parent(&[1, 2]), Leaf, Raw], DONE),
    (&[Parent(&[1, 2]), Parent(&[3]), Faulty, Raw], DONE),
    (&[Parent(&[1, 2]), Parent(&[3]), Raw, Faulty], (4, 256)),
    (&[Parent(&[1, 2]), Parent(&[3]), Raw, Leaf], DONE),
    (&[Parent(&[0])], TREE),
    (&[Parent(&[1]), Parent(&[0])], TREE),
    (&[Parent(&[1, 0, 2]), Leaf, Raw], TREE),
    (&[Astray(0)], SHAPE),
    (&[Parent(&[1]), Parent(&[2]), Astray(0)], SHAPE),
    (&[Parent(&[1]), Parent(&[2]), Parent(&[3]), Astray(0)], TREE),
    (&[Astray(14), Leaf], SHAPE),
    (&[Astray(15), Leaf], TREE),
    (&[Astray(16), Leaf], (4, 330)),
    (&[Parent(&[]), Leaf], (4, 330)),
    (&[Parent(&[1; 16]), Raw], DONE),
    (&[Parent(&[1; 17]), Raw], (4, 330)),
    (&[Parent(&[1, 1, 1, 1, 1, 1, 1, 1, 1, 1, 1, 1, 1, 1, 2]), Leaf, Raw], DONE),
    (&[Parent(&[1, 1, 1, 1, 1, 1, 1, 1, 1, 1, 1, 1, 1, 1, 2, 1]), Leaf, Raw], DONE),
    (&[Parent(&[1, 1, 1, 1, 1, 1, 1, 1, 1, 1, 1, 1, 1, 1, 1, 2]), Leaf, Raw], TREE),
    (&[Parent(&[1, 1, 2, 4]), Parent(&[3; 4]), Parent(&[3; 3]), Leaf, Raw], DONE),
    (&[Parent(&[1, 1, 1, 3]), Parent(&[2; 4]), Leaf, Raw], TREE),
];

/// Every case of a tree.
pub fn check(tally: &mut Tally) {
    trees(tally);
    depths(tally);
    sub_ifds(tally);
    wide_sub_ifds(tally);
}

/// 330 with offsets of the size of its type.
fn children(kind: u16, places: Vec<Place>) -> Tag {
    let wide = [LONG8, IFD8].contains(&kind);
    Tag::new(330, kind, if wide { Data::Long8Places(places) } else { Data::LongPlaces(places) })
}

fn tree(nodes: &[Node], kind: u16) -> Dng {
    let mut dng = plain(MOSAIC).without(50706);
    let raw = dng.ifds.remove(0);
    let parent = |places| Ifd::new(&[Tag::longs(254, &[1]), children(kind, places)]);
    let ifd = |node: &Node| match node {
        Raw => raw.clone(),
        Faulty => raw.clone().set(Tag::longs(256, &[0])).clone(),
        Leaf => Ifd::new(&[Tag::longs(254, &[1])]),
        Parent(ifds) => parent(ifds.iter().map(|i| Place::Ifd(*i)).collect()),
        Astray(before) => parent([vec![Place::Ifd(1); *before], vec![Place::At(LONG8_MAX)]].concat()),
    };
    dng.ifds = nodes.iter().map(ifd).collect();
    dng.with_first(Tag::bytes(50706, &[1, 7, 1, 0]))
}

/// Refusal 6, and which IFD is the raw one, by offsets of 4 bytes in both
/// layouts and of 8 bytes in the 64-bit one.
fn trees(tally: &mut Tally) {
    for (i, (nodes, answer)) in TREES.iter().enumerate() {
        for kind in [LONG, IFD] {
            both(tally, &format!("tree {i}, type {kind}"), &tree(nodes, kind), *answer);
        }
        for kind in [LONG8, IFD8] {
            in_orders(tally, &format!("tree {i}, type {kind}"), &tree(nodes, kind).in_64_bits(), *answer);
        }
    }
}

fn depths(tally: &mut Tally) {
    for depth in 0..=5 {
        let dng = plain(MOSAIC).nested(depth);
        let unless_deep = |answer| if depth < 4 { answer } else { TREE };
        both(tally, &format!("depth {depth}"), &dng, unless_deep(DONE));
        both(tally, &format!("254 at depth {depth}"), &dng.with(entry(254, 14, &[0])), unless_deep((4, 254)));
    }
}

/// 330 where it is read, at depths 0 to 3, and in the raw IFD.
fn sub_ifds(tally: &mut Tally) {
    for (depth, (widths, kind)) in (0..=3).flat_map(|depth| every_type_in_layouts().map(move |t| (depth, t)))
    {
        let mut dng = Dng { widths, ..plain(MOSAIC).nested(depth + 1) };
        dng.ifds[depth].set(children(kind, vec![Place::Ifd(depth + 1)]));
        let answer = match takes(widths, &[LONG, IFD], kind) {
            true if depth < 3 => DONE,
            true => TREE,
            false => (4, 330),
        };
        in_orders(tally, &format!("330 at depth {depth}, type {kind}"), &dng, answer);
        let unread = Dng { widths, ..plain(MOSAIC).with(entry(330, kind, &[MAX])).nested(depth) };
        in_orders(tally, &format!("330 of the raw IFD, type {kind}"), &unread, DONE);
    }
}

/// A child as far away as 8 bytes reach, or right but for 2^32 or 2^63, before
/// the raw one and after it; such counts of children; and such a 254.
fn wide_sub_ifds(tally: &mut Tally) {
    let dng = plain(MOSAIC).nested(1).in_64_bits();
    for (count, kind) in
        far(1).into_iter().chain([(1 << 61) + 1]).flat_map(|n| [LONG, IFD, LONG8, IFD8].map(|k| (n, k)))
    {
        let dng = dng.clone().with_first(children(kind, vec![Place::Ifd(1)]).with_count(count));
        in_orders(tally, &format!("{count} children, type {kind}"), &dng, SHAPE);
    }
    let raw = dng.layout().ifds[1] as u64;
    for (place, kind) in far(raw).into_iter().flat_map(|place| [(place, LONG8), (place, IFD8)]) {
        let (astray, right) = (Place::At(place), Place::Ifd(1));
        for (places, answer) in
            [(vec![astray], SHAPE), (vec![astray, right], SHAPE), (vec![right, astray], DONE)]
        {
            let dng = dng.clone().with_first(children(kind, places));
            in_orders(tally, &format!("child at {place}, type {kind}, {answer:?}"), &dng, answer);
        }
    }
    for value in far(0) {
        let leaf = Tag::long8s(254, &[value]);
        in_orders(tally, &format!("254 = {value}"), &plain(MOSAIC).with(leaf.clone()).in_64_bits(), TREE);
        in_orders(tally, &format!("254 = {value}, then its child"), &dng.clone().with_first(leaf), DONE);
    }
    for widths in LAYOUTS {
        let answer = if widths == Widths::BITS_64 { DONE } else { (4, 254) };
        let dng = Dng { widths, ..plain(MOSAIC).nested(1) }.with(Tag::long8s(254, &[0]));
        in_orders(tally, "254 = 0 as LONG8", &dng, answer);
    }
}
