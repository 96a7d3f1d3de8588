//! Half-size colour from mosaics (document 02, T-01): the tags of the pattern,
//! and all refusals of a half window in their order.

mod common;

use common::*;
use reference::builder::{pattern_tags, Dng, Tag, PATTERN_TAGS};
use reference::tag_test::{BYTE, SHORT};
use reference::{half_window, Answer};

/// Of all types a tag takes one.
#[track_caller]
fn takes_only(tag: u16, right: u16, values: &[u32]) {
    for kind in (0..=20).chain([256 + right, 65_535]) {
        let dng = counting_mosaic(2, 2).with(Tag::of_type(tag, kind, values));
        if kind == right {
            half_accepts(&dng);
        } else {
            half_refuses(&dng, 4, tag.into());
        }
    }
}

/// Of all patterns of 0 to 3 and 255 those with one 0, two 1 and one 2.
#[test]
fn no_other_pattern_is_carried() {
    let values = [0, 1, 2, 3, 255];
    let mut carried = 0;
    for number in 0..5usize.pow(4) {
        let pattern = [125, 25, 5, 1].map(|power| values[number / power % 5]);
        let dng = counting_mosaic(2, 2).with(Tag::bytes(33422, &pattern));
        let mut sorted = pattern;
        sorted.sort_unstable();
        if sorted == [0, 1, 1, 2] {
            carried += 1;
            half_accepts(&dng);
        } else {
            half_refuses(&dng, 8, 33422);
        }
    }
    assert_eq!(carried, 12);
}

#[test]
fn the_repeat_is_two_shorts_of_2() {
    let with = |tag: Tag| counting_mosaic(2, 2).with(tag);
    half_refuses(&counting_mosaic(2, 2).without(33421), 5, 33421);
    takes_only(33421, SHORT, &[2, 2]);
    for values in [&[][..], &[2], &[2, 2, 2], &[0], &[1, 1, 1]] {
        half_refuses(&with(Tag::shorts(33421, values)), 4, 33421);
    }
    for values in [[0, 2], [2, 0], [1, 2], [2, 1], [3, 2], [2, 3], [4, 1], [1, 4], [512, 2], [2, 258]] {
        half_refuses(&with(Tag::shorts(33421, &values)), 8, 33421);
    }
}

#[test]
fn the_pattern_is_four_bytes() {
    let with = |tag: Tag| counting_mosaic(2, 2).with(tag);
    half_refuses(&counting_mosaic(2, 2).without(33422), 5, 33422);
    takes_only(33422, BYTE, &PATTERN.map(u32::from));
    for values in [&[][..], &[0], &[0, 1, 1], &[0, 1, 1, 2, 1], &[3; 5], &[0, 1, 1, 2, 0, 1, 1, 2]] {
        half_refuses(&with(Tag::bytes(33422, values)), 4, 33422);
    }
}

#[test]
fn the_plane_colours_are_0_1_2() {
    let with = |values: &[u8]| counting_mosaic(2, 2).with(Tag::bytes(50710, values));
    half_accepts(&counting_mosaic(2, 2).without(50710));
    half_accepts(&with(&[0, 1, 2]));
    takes_only(50710, BYTE, &[0, 1, 2]);
    for values in [&[][..], &[0], &[0, 1], &[0, 1, 2, 3]] {
        half_refuses(&with(values), 4, 50710);
    }
    let others =
        [[1, 1, 2], [0, 0, 2], [0, 2, 2], [0, 1, 1], [0, 1, 3], [2, 1, 0], [0, 2, 1], [255, 1, 2], [3, 4, 5]];
    for values in others {
        half_refuses(&with(&values), 8, 50710);
    }
}

#[test]
fn the_layout_is_rectangular() {
    let with = |values: &[u16]| counting_mosaic(2, 2).with(Tag::shorts(50711, values));
    half_accepts(&counting_mosaic(2, 2).without(50711));
    half_accepts(&with(&[1]));
    takes_only(50711, SHORT, &[1]);
    for values in [&[][..], &[1, 1], &[0, 0]] {
        half_refuses(&with(values), 4, 50711);
    }
    for value in [0, 2, 3, 4, 5, 6, 7, 8, 9, 10, 256, 257, 65_535] {
        half_refuses(&with(&[value]), 8, 50711);
    }
}

/// The raw directory's tags are read, the colour tags are IFD 0's.
#[test]
fn the_pattern_stands_in_the_raw_directory() {
    let below = counting_mosaic(2, 2).nested(2);
    half_accepts(&below);
    for tag in PATTERN_TAGS {
        let faulty = Tag::bytes(tag, &[9]);
        half_accepts(&below.clone().with_first(faulty.clone()));
        half_refuses(&below.clone().with(faulty), 4, tag.into());
    }
    for carried in pattern_tags(PATTERN) {
        let tag = carried.tag;
        let expected = if [33421, 33422].contains(&tag) { (5, tag.into()) } else { (0, 0) };
        half_refuses(&below.clone().without(tag).with_first(carried), expected.0, expected.1);
    }
}

/// A good half window of a file with all tags; of LinearRaw it is refused by 15.
fn question_of(dng: Dng) -> Question {
    let dng = with_pattern_and_colour(dng, PATTERN)
        .with_pattern(PATTERN)
        .with(Tag::undefined(51009, &[0; 4]))
        .nested(1);
    Question::new(half_window, dng)
}

fn remove(question: &mut Question, tag: u16) {
    question.dng.raw_ifd().remove(tag);
    question.dng.first_ifd().remove(tag);
}

/// White levels that are not above the greatest black.
fn darken(question: &mut Question) {
    let samples = question.dng.raw_ifd().get(258).map_or(1, |bits| bits.data.count());
    question.set_raw(Tag::shorts(50717, &vec![0; samples]));
}

fn in_raw(number: u32, tag: Tag) -> (Answer, Fault) {
    (refusal(number, tag.tag.into()), Box::new(move |q| q.set_raw(tag.clone())))
}

fn in_first(number: u32, tag: Tag) -> (Answer, Fault) {
    (refusal(number, tag.tag.into()), Box::new(move |q| q.set_first(tag.clone())))
}

fn absent(tag: u16) -> (Answer, Fault) {
    (refusal(5, tag.into()), Box::new(move |q| remove(q, tag)))
}

fn fault(number: u32, detail: u32, change: impl Fn(&mut Question) + 'static) -> (Answer, Fault) {
    (refusal(number, detail), Box::new(change))
}

/// All faults in the order of their tests, with 15 left out; those in one
/// inner list are of the same tag.
fn faults_in_order() -> Vec<Vec<(Answer, Fault)>> {
    let shorts = Tag::shorts;
    vec![
        vec![in_raw(8, shorts(259, &[7])), in_raw(4, shorts(259, &[1, 1]))],
        vec![in_raw(4, Tag::longs(50712, &[1]))],
        vec![in_raw(8, Tag::bytes(51008, &[1]))],
        vec![fault(9, 0, darken)],
        vec![fault(11, 32, |q| q.set_raw(Tag::undefined(51009, &[0, 0, 0, 33])))],
        vec![in_first(8, Tag::bytes(50723, &[1]))],
        vec![in_first(8, Tag::bytes(50727, &[1]))],
        vec![in_first(8, Tag::bytes(50965, &[1]))],
        vec![absent(50964), in_first(4, Tag::srationals(50964, &[(1, 0); 9]))],
        vec![absent(50728), in_first(4, shorts(50728, &[1, 1, 0])), in_first(4, shorts(50728, &[1, 1]))],
        vec![absent(33421), in_raw(4, shorts(33421, &[2])), in_raw(8, shorts(33421, &[2, 3]))],
        vec![absent(33422), in_raw(4, Tag::bytes(33422, &[0, 1, 1])), in_raw(8, Tag::bytes(33422, &[0; 4]))],
        vec![in_raw(4, shorts(50710, &[0, 1, 2])), in_raw(8, Tag::bytes(50710, &[0, 2, 1]))],
        vec![in_raw(4, Tag::bytes(50711, &[1])), in_raw(8, shorts(50711, &[2]))],
        vec![fault(13, 0, |q| q.height = 2), fault(13, 0, |q| q.height = 0)],
        vec![fault(14, 0, |q| q.slice = 4), fault(14, 0, |q| q.slice = 0)],
    ]
}

/// So many of them come before 15.
const BEFORE_15: usize = 5;

#[test]
fn each_fault_alone_gives_its_refusal() {
    let good = question_of(mosaic(3, 3));
    assert_eq!(good.answer(), DONE);
    each_alone_answers(&good, &faults_in_order());
}

#[test]
fn of_two_faults_the_first_answers() {
    first_of_two_answers(&question_of(mosaic(3, 3)), &faults_in_order());
}

#[test]
fn a_linear_raw_has_no_blocks() {
    let good = question_of(linear(4, 4));
    assert_eq!(good.answer(), refusal(15, 0));
    let faults = faults_in_order();
    for (i, (alone, fault)) in faults.iter().enumerate().flat_map(|(i, f)| f.iter().map(move |f| (i, f))) {
        let expected = if i < BEFORE_15 { *alone } else { refusal(15, 0) };
        assert_eq!(good.changed(&[fault]).answer(), expected, "with {alone:?}");
    }
}

/// No other call reads the four tags, and a colour window gives 15 as before.
#[test]
fn the_other_calls_do_not_test_the_pattern() {
    for tag in PATTERN_TAGS {
        let bad = counting_mosaic(2, 2).with(Tag::longs(tag, &[7; 9]));
        accepts(&bad);
        assert_eq!(colour_answer(&bad), refusal(15, 0));
        assert_eq!(bits(&frame(&bad)), bits(&frame(&mosaic(2, 2))));
        let colour = with_pattern_and_colour(linear(2, 2), PATTERN);
        let same = colour.clone().with(Tag::longs(tag, &[7; 9]));
        assert_eq!(bits(&colours(&same)), bits(&colours(&colour)));
    }
}
