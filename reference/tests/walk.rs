//! The walk through the directory tree: refusals 6 and 7, and tags 50706,
//! 50707, 254 and 330.

mod common;

use common::*;
use reference::builder::{Data, Dng, Ifd, Place, Tag};
use reference::tag_test::LONG;

fn preview() -> Ifd {
    Ifd::new(&[Tag::longs(254, &[1])])
}

/// IFD 0 with `leaves` visits to a preview, then the raw IFD.
fn after_leaves(leaves: usize) -> Dng {
    let mut dng = mosaic(2, 2).nested(1);
    let leaf = dng.ifds.len();
    dng.ifds.push(preview());
    let mut children = vec![leaf; leaves];
    children.push(dng.raw);
    dng.first_ifd().set(Tag::sub_ifds(&children));
    dng
}

#[test]
fn depth_3_is_visited_and_depth_4_refused() {
    for depth in 0..=3 {
        accepts(&mosaic(2, 2).nested(depth));
    }
    for depth in 4..=6 {
        refuses(&mosaic(2, 2).nested(depth), 6, 0);
    }
}

#[test]
fn sixteen_visits_are_made_and_the_seventeenth_refused() {
    // IFD 0, 14 leaves, the raw one: 16 visits.
    accepts(&after_leaves(14));
    refuses(&after_leaves(15), 6, 0);
}

#[test]
fn visits_count_through_all_depths() {
    let with_branch = |in_branch: usize, beside: usize| {
        let mut dng = after_leaves(beside);
        let leaf = dng.ifds.len() - 1;
        let branch = dng.ifds.len();
        dng.ifds.push(Ifd::new(&[Tag::longs(254, &[1]), Tag::sub_ifds(&vec![leaf; in_branch])]));
        let mut children = vec![branch];
        children.extend(vec![leaf; beside]);
        children.push(dng.raw);
        dng.first_ifd().set(Tag::sub_ifds(&children));
        dng
    };
    accepts(&with_branch(7, 6));
    refuses(&with_branch(8, 6), 6, 0);
    refuses(&with_branch(7, 7), 6, 0);
}

#[test]
fn depth_and_visits_are_refused_before_the_shape() {
    let mut deep = mosaic(2, 2).nested(4);
    deep.raw_ifd().count = Some(0);
    refuses(&deep, 6, 0);
    let mut late = after_leaves(15);
    late.raw_ifd().count = Some(0);
    refuses(&late, 6, 0);
    // One step earlier the shape answers.
    let mut shallow = mosaic(2, 2).nested(3);
    shallow.raw_ifd().count = Some(0);
    refuses(&shallow, 3, 0);
}

#[test]
fn depth_is_refused_after_the_parents_330() {
    let mut dng = mosaic(2, 2).nested(4);
    let parent = dng.ifds.len() - 2;
    dng.ifds[parent].get_mut(330).unwrap().kind = 3;
    refuses(&dng, 4, 330);
}

#[test]
fn no_raw_directory_is_refused() {
    let mut alone = mosaic(2, 2);
    alone.first_ifd().set(Tag::longs(254, &[1]));
    refuses(&alone, 6, 0);
    let mut children = mosaic(2, 2).nested(1);
    children.raw_ifd().set(Tag::longs(254, &[1]));
    refuses(&children, 6, 0);
}

#[test]
fn circles_end_by_refusal_6() {
    let mut own_child = mosaic(2, 2);
    own_child.first_ifd().set(Tag::longs(254, &[1])).set(Tag::sub_ifds(&[0]));
    refuses(&own_child, 6, 0);
    let mut wide = mosaic(2, 2);
    wide.first_ifd().set(Tag::longs(254, &[1])).set(Tag::sub_ifds(&[0; 16]));
    refuses(&wide, 6, 0);
    // A circle before the raw child never reaches it; after it, never starts.
    for (circle_first, expected) in [(true, refusal(6, 0)), (false, DONE)] {
        let mut dng = mosaic(2, 2).nested(1);
        let children = if circle_first { [0, dng.raw] } else { [dng.raw, 0] };
        dng.first_ifd().set(Tag::sub_ifds(&children));
        assert_eq!(answer(&dng), expected);
    }
}

#[test]
fn a_directory_seen_before_counts_again() {
    // The leaf of `after_leaves` is one directory visited many times.
    assert_eq!(after_leaves(15).ifds.len(), 3);
    refuses(&after_leaves(15), 6, 0);
}

#[test]
fn the_walk_is_depth_first_and_in_the_order_of_330() {
    // IFD 0 -> [branch -> [narrow raw], wide raw]
    let mut dng = mosaic(3, 1).nested(2);
    let narrow = dng.raw;
    let mut wide = dng.ifds[narrow].clone();
    wide.set(Tag::longs(50829, &[0, 0, 1, 1]));
    let wide_place = dng.ifds.len();
    dng.ifds.push(wide);
    dng.first_ifd().set(Tag::sub_ifds(&[1, wide_place]));
    assert_eq!(reference::card(&dng.file()).columns, 3);
    dng.first_ifd().set(Tag::sub_ifds(&[wide_place, 1]));
    assert_eq!(reference::card(&dng.file()).columns, 1);
}

#[test]
fn the_raw_directory_ends_the_walk() {
    let mut dng = mosaic(2, 2).nested(1);
    let children = vec![Place::Ifd(dng.raw), Place::At(u64::MAX), Place::At(3)];
    dng.first_ifd().set(Tag::new(330, LONG, Data::LongPlaces(children)));
    accepts(&dng);
    // A raw directory's own 330 is not read.
    accepts(&mosaic(2, 2).with(Tag::shorts(330, &[1, 2, 3])));
    // A raw directory that fails its tags refuses the file, whatever follows.
    let mut two = mosaic(2, 2).nested(1);
    let mut broken = two.ifds[two.raw].clone();
    broken.remove(256);
    two.ifds.push(broken);
    two.first_ifd().set(Tag::sub_ifds(&[2, 1]));
    refuses(&two, 5, 256);
}

#[test]
fn a_childless_preview_is_passed_over() {
    accepts(&after_leaves(1));
}

#[test]
fn a_child_outside_the_file_has_no_shape() {
    let mut dng = mosaic(2, 2).nested(1);
    dng.first_ifd().set(Tag::longs(330, &[u32::MAX, 8]));
    refuses(&dng, 3, 0);
}

#[test]
fn tag_330_is_long_or_ifd_and_1_to_16_of_them() {
    let mut dng = mosaic(2, 2).nested(1);
    let raw = dng.raw;
    for kind in (0..=15).chain([19]) {
        dng.first_ifd().set(Tag::sub_ifds(&[raw]).with_kind(kind));
        let answer = answer(&dng);
        assert_eq!(answer == DONE, kind == 4 || kind == 13);
        // A DOUBLE or RATIONAL of count 1 may also lie outside the file.
        assert!(answer == DONE || answer == refusal(4, 330) || answer == refusal(3, 0));
    }
    for count in [1, 2, 15, 16] {
        dng.first_ifd().set(Tag::sub_ifds(&vec![raw; count]));
        accepts(&dng);
    }
    dng.first_ifd().set(Tag::sub_ifds(&[raw; 17]));
    refuses(&dng, 4, 330);
    dng.first_ifd().set(Tag::sub_ifds(&[]));
    refuses(&dng, 4, 330);
}

#[test]
fn tag_254_is_one_long_and_only_0_is_raw() {
    accepts(&mosaic(2, 2).without(254));
    for (tag, expected) in [
        (Tag::longs(254, &[0]), DONE),
        (Tag::longs(254, &[1]), refusal(6, 0)),
        (Tag::longs(254, &[0x0001_0000]), refusal(6, 0)),
        (Tag::longs(254, &[u32::MAX]), refusal(6, 0)),
        (Tag::shorts(254, &[0]), refusal(4, 254)),
        (Tag::longs(254, &[0]).with_kind(13), refusal(4, 254)),
        (Tag::longs(254, &[0, 0]), refusal(4, 254)),
        (Tag::longs(254, &[0]).with_count(0), refusal(4, 254)),
    ] {
        assert_eq!(answer(&mosaic(2, 2).with(tag)), expected);
    }
}

#[test]
fn tag_50706_stands_in_ifd_0_only() {
    refuses(&mosaic(2, 2).without(50706), 5, 50706);
    let mut dng = mosaic(2, 2).nested(1);
    dng.first_ifd().remove(50706);
    dng.raw_ifd().set(Tag::bytes(50706, &[1, 4, 0, 0]));
    refuses(&dng, 5, 50706);
    // In another directory neither is read.
    let mut dng = mosaic(2, 2).nested(1);
    dng.raw_ifd().set(Tag::shorts(50706, &[1])).set(Tag::bytes(50707, &[9, 9, 9, 9]));
    accepts(&dng);
}

#[test]
fn tags_50706_and_50707_are_four_bytes() {
    for tag in [50706u16, 50707] {
        refuses(&mosaic(2, 2).with(Tag::bytes(tag, &[1, 4, 0])), 4, tag.into());
        refuses(&mosaic(2, 2).with(Tag::bytes(tag, &[1, 4, 0, 0, 0])), 4, tag.into());
        refuses(&mosaic(2, 2).with(Tag::undefined(tag, &[1, 4, 0, 0])), 4, tag.into());
        refuses(&mosaic(2, 2).with(Tag::bytes(tag, &[])), 4, tag.into());
    }
}

#[test]
fn the_backward_version_is_compared_byte_by_byte() {
    let backward = |version: [u8; 4]| mosaic(2, 2).with(Tag::bytes(50707, &version));
    for version in
        [[0, 0, 0, 0], [1, 1, 0, 0], [1, 7, 0, 255], [1, 6, 255, 255], [0, 255, 255, 255], [1, 7, 1, 0]]
    {
        accepts(&backward(version));
    }
    for version in [[1, 7, 1, 1], [1, 7, 2, 0], [1, 8, 0, 0], [2, 0, 0, 0], [255, 0, 0, 0]] {
        refuses(&backward(version), 7, 0);
    }
}

#[test]
fn the_default_backward_version_drops_two_bytes() {
    let version = |version: [u8; 4]| mosaic(2, 2).with(Tag::bytes(50706, &version));
    for version_of_file in [[1, 7, 1, 0], [1, 7, 9, 9], [1, 7, 255, 255], [0, 0, 0, 0]] {
        accepts(&version(version_of_file));
    }
    refuses(&version([1, 8, 0, 0]), 7, 0);
    refuses(&version([2, 0, 0, 0]), 7, 0);
    // A present 50707 is compared in place of 50706, which is never refused.
    accepts(&version([9, 9, 9, 9]).with(Tag::bytes(50707, &[1, 7, 1, 0])));
    refuses(&version([1, 1, 0, 0]).with(Tag::bytes(50707, &[1, 7, 1, 1])), 7, 0);
}
