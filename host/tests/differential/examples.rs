//! The examples the papers give, and the fields as the library's boundary has
//! them.

use super::tally::Tally;
use duskstall_host::compiled::{self, FIELDS, TOO_FEW_FIELDS};
use duskstall_host::testing::der::Node;
use duskstall_host::testing::messages::bare;
use duskstall_host::testing::papers::{self, sample};
use duskstall_host::Span;

#[test]
fn sample_and_its_cuts() {
    let mut tally = Tally::default();
    let sample = sample();
    let reading = tally.clean(&sample);
    assert_eq!(reading.kind, 24);
    assert_eq!(reading.header, Span { start: 3, len: 88 });
    assert_eq!(reading.body, Span { start: 91, len: 43 });
    assert_eq!(reading.protection, Span { start: 134, len: 6 });
    assert_eq!(reading.cert_hash, Span { start: 99, len: 32 });
    assert_eq!(reading.protected_len, 131);
    assert_eq!(tally.message(&[]).map_err(|refused| refused.number), Err(1));
    for cut in 1..sample.len() {
        tally.fault(&sample[..cut], 0, 2);
    }
    tally.report("sample and its cuts");
}

#[test]
fn sample_with_every_byte_changed() {
    let mut tally = Tally::default();
    for at in 0..sample().len() {
        let mut bytes = sample();
        for value in 0..=255 {
            bytes[at] = value;
            let _ = tally.message(&bytes);
        }
    }
    tally.report("sample with every byte changed");
}

#[test]
fn faults_are_shown_where_the_papers_say() {
    let mut tally = Tally::default();
    for fault in [
        papers::edits_of_the_sample(),
        papers::bytes_after_the_sample(),
        papers::missing_elements(),
        papers::outer_elements(),
        papers::fail_infos(),
        papers::two_faults(),
    ]
    .concat()
    {
        tally.fault(&fault.bytes, fault.offset, fault.rule);
    }
    tally.report("faults the papers show");
}

#[test]
fn dozen() {
    let mut tally = Tally::default();
    let (sound, unsound) = papers::dozen();
    for element in &sound {
        assert_eq!(tally.run(element), None);
    }
    for (element, rule) in unsound.iter().zip([4, 4, 4, 4, 4, 2, 2]) {
        assert_eq!(tally.run(element), Some((0, rule)));
    }
    // The same where a message takes any element.
    for element in sound.iter().chain(&unsound) {
        let body = Node::primitive(0xA5, element);
        let answer = tally.message(&bare(body).encode());
        assert_eq!(answer.is_ok(), sound.contains(element));
    }
    tally.report("dozen");
}

#[test]
fn fields_are_written_as_promised() {
    const UNTOUCHED: u64 = 0xDEAD_BEEF;
    let sample = sample();
    for lent in 0..FIELDS {
        let mut fields = vec![UNTOUCHED; lent];
        assert_eq!(compiled::read_fields(&sample, &mut fields), TOO_FEW_FIELDS);
        assert_eq!(compiled::read_fields(&[], &mut fields), TOO_FEW_FIELDS);
        assert!(fields.iter().all(|field| *field == UNTOUCHED));
    }
    for lent in [FIELDS, FIELDS + 1, 2 * FIELDS] {
        let mut fields = vec![UNTOUCHED; lent];
        assert_eq!(compiled::read_fields(&sample, &mut fields), 0);
        assert!(!fields[..FIELDS].contains(&UNTOUCHED));
        assert!(fields[FIELDS..].iter().all(|field| *field == UNTOUCHED));

        let mut fields = vec![UNTOUCHED; lent];
        assert_eq!(compiled::read_fields(&sample[..91], &mut fields), 2);
        assert_eq!(fields[..2], [0, 2]);
        assert!(fields[2..].iter().all(|field| *field == UNTOUCHED));

        let mut fields = vec![UNTOUCHED; lent];
        assert_eq!(compiled::read_fields(&[], &mut fields), 1);
        assert_eq!(fields[..2], [0, 0]);
        assert!(fields[2..].iter().all(|field| *field == UNTOUCHED));
    }
}
