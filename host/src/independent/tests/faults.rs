//! Faults, by themselves and in messages, with the offset and the rule that
//! are shown.

use super::{assert_fault, assert_faults, clean, REFUSED_BY_SIZE};
use crate::independent::{check_elements, read};
use crate::limits::MESSAGE_LIMIT;
use crate::testing::der::{hex, nest, show, Node};
use crate::testing::messages::{bare, body, header, message, name, request_message, status_info};
use crate::testing::papers::{self, dozen, sample};

#[test]
fn cuts_of_the_sample_are_refused_at_its_start() {
    let sample = sample();
    assert_eq!(read(&[]), REFUSED_BY_SIZE);
    for cut in 1..sample.len() {
        assert_fault(&sample[..cut], 0, 2);
    }
}

#[test]
fn edits_of_the_sample_are_shown_where_they_are() {
    assert_faults(papers::edits_of_the_sample());
}

#[test]
fn of_two_faults_the_lower_is_shown() {
    assert_faults(papers::two_faults());
    // A sound BOOLEAN where pvno stands.
    assert_fault(&hex("30 05 30 03 01 01 FF"), 4, 5);
}

#[test]
fn bytes_after_the_sample_are_refused() {
    assert_faults(papers::bytes_after_the_sample());
}

#[test]
fn a_missing_element_gives_way_to_the_next_elements_own_fault() {
    assert_faults(papers::missing_elements());
    // The next element's child is at fault, not the element.
    assert_fault(&hex("30 06 30 00 30 02 05 01"), 4, 5);
}

#[test]
fn the_outer_element_is_judged_first() {
    assert_faults(papers::outer_elements());
    assert_fault(&hex("1F"), 0, 1);
    assert_fault(&hex("20 00"), 0, 1);
}

#[test]
fn fail_info_is_judged_at_its_first_byte() {
    assert_faults(papers::fail_infos());
    for clean in ["03 01 00", "03 02 00 41", "03 02 06 40", "03 02 07 80"] {
        let info = [hex("02 01 02"), hex(clean)].concat();
        let info = Node::primitive(0x30, &info);
        let error = Node::explicit(23, Node::sequence(vec![info]));
        assert!(read(&bare(error).encode()).is_ok(), "{clean}");
    }
    // Only failInfo may not end in a zero bit.
    let zero_bits = Node::explicit(0, Node::bits(0, &[0x40]));
    assert!(read(&message(header(0), body(19, 0, false), vec![zero_bits]).encode()).is_ok());
}

#[test]
fn four_bytes_are_the_most_for_the_small_integers() {
    let wide = Node::integer(0x1_0000_0000);
    let status = Node::sequence(vec![wide.clone()]);
    let pvno = Node::sequence(vec![wide.clone(), name(), name()]);
    assert_fault(&message(pvno, body(19, 0, false), vec![]).encode(), 4, 5);
    let request = Node::sequence(vec![Node::sequence(vec![wide.clone()])]);
    let bad = bare(Node::explicit(
        0,
        Node::sequence(vec![request_message(0, false), request]),
    ));
    let [at, ..] = bad.place(&[1, 0, 1, 0, 0]).unwrap();
    assert_fault(&bad.encode(), at, 5);
    let bad = bare(Node::explicit(23, Node::sequence(vec![status])));
    let [at, ..] = bad.place(&[1, 0, 0, 0]).unwrap();
    assert_fault(&bad.encode(), at, 5);
    // An error code may be of any size.
    let error = Node::sequence(vec![status_info(-1, false), wide]);
    let reading = clean(&bare(Node::explicit(23, error)));
    assert_eq!((reading.has_status, reading.status), (true, u32::MAX));
}

#[test]
fn a_nest_is_sixteen_deep() {
    let body_of =
        |levels: usize| bare(Node::explicit(5, nest(levels - 1, Node::sequence(vec![])))).encode();
    assert!(read(&body_of(14)).is_ok());
    let deep = body_of(15);
    assert_fault(&deep, deep.len() - 2, 3);
    let primitive = bare(Node::explicit(5, nest(14, Node::null()))).encode();
    assert_fault(&primitive, primitive.len() - 2, 3);
    // The element at depth 17 may break a lower rule itself.
    let mut bad_tag = primitive.clone();
    bad_tag[primitive.len() - 2] = 0x1F;
    assert_fault(&bad_tag, primitive.len() - 2, 1);
    assert_eq!(check_elements(&nest(15, Node::null()).encode()), None);
    assert_eq!(
        check_elements(&nest(16, Node::null()).encode()),
        Some((32, 3))
    );
}

#[test]
fn dozen_is_sorted_into_sound_and_not() {
    let (sound, unsound) = dozen();
    let sound_run = sound.concat();
    assert_eq!(check_elements(&sound_run), None);
    for element in sound {
        assert_eq!(check_elements(&element), None, "{}", show(&element));
    }
    for (element, rule) in unsound.iter().zip([4, 4, 4, 4, 4, 2, 2]) {
        assert_eq!(
            check_elements(element),
            Some((0, rule)),
            "{}",
            show(element)
        );
        let later = [sound_run.clone(), element.clone()].concat();
        assert_eq!(check_elements(&later), Some((sound_run.len(), rule)));
    }
    assert_eq!(check_elements(&[]), None);
}

/// Sound elements at the edges of their rules.
const SOUND: [&str; 15] = [
    "01 01 00",
    "01 01 FF",
    "02 01 00",
    "02 02 FF 7F",
    "03 02 00 01",
    "06 01 7F",
    "06 03 81 80 00",
    "0A 00",
    "0C 01 FF",
    "04 00",
    "81 00",
    "1E 00",
    "31 00",
    "5E 01 00",
    "E0 02 05 00",
];

/// Elements that are not, with the rule they break.
const UNSOUND: [(&str, u8); 28] = [
    ("01 00", 4),
    ("01 02 00 00", 4),
    ("02 00", 4),
    ("02 02 FF 80", 4),
    ("03 00", 4),
    ("03 02 08 00", 4),
    ("05 01 00", 4),
    ("06 00", 4),
    ("06 01 80", 4),
    ("06 02 80 01", 4),
    ("06 03 01 80 01", 4),
    ("06 01 81", 4),
    ("10 00", 3),
    ("11 00", 3),
    ("28 00", 3),
    ("22 00", 3),
    ("00 00", 1),
    ("20 00", 1),
    ("9F 01 00", 1),
    ("DF 00", 1),
    ("04", 2),
    ("04 01", 2),
    ("04 81", 2),
    ("04 81 80", 2),
    ("04 82 01", 2),
    ("04 82 00 80", 2),
    ("04 83 00 01 00", 2),
    ("04 FF", 2),
];

#[test]
fn contents_are_held_to_point_four() {
    for sound in SOUND {
        assert_eq!(check_elements(&hex(sound)), None, "{sound}");
    }
    for (unsound, rule) in UNSOUND {
        let bytes = hex(unsound);
        assert_eq!(check_elements(&bytes), Some((0, rule)), "{unsound}");
    }
    assert_eq!(check_elements(&hex("30 02 05 01")), Some((2, 2)));
    assert_eq!(check_elements(&hex("30 01 05 00")), Some((2, 2)));
    assert_eq!(check_elements(&hex("A0 03 05 00 00")), Some((4, 1)));
}

#[test]
fn size_decides_before_all_else() {
    let mut bytes = vec![0; MESSAGE_LIMIT];
    assert_fault(&bytes, 0, 1);
    bytes.push(0);
    assert_eq!(read(&bytes), REFUSED_BY_SIZE);
}

#[test]
fn names_are_nine_context_tags() {
    for tag in 0..=255 {
        let header = Node::sequence(vec![Node::integer(2), name(), Node::primitive(tag, &[])]);
        let bytes = message(header, body(19, 0, false), vec![]).encode();
        let known = [0xA0, 0x81, 0x82, 0xA3, 0xA4, 0xA5, 0x86, 0x87, 0x88].contains(&tag);
        assert_eq!(read(&bytes).is_ok(), known, "{tag:02X}");
    }
}
