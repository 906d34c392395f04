//! "Reading what was written gives the order back", and every given field at its
//! place: by the independent reader and by the library's.

use duskstall_host::independent::writer::{Part, PARTS};
use duskstall_host::testing::received::Received;
use duskstall_host::testing::writing::Call;
use duskstall_host::{Reading, Span};

/// The order's bytes at these places.
fn field(call: &Call, place: usize, len: usize) -> &[u8] {
    &call.outgoing[place..][..len]
}

fn number(call: &Call, place: usize) -> u32 {
    let bytes = field(call, place, 4).try_into();
    u32::from_be_bytes(bytes.expect("four bytes"))
}

/// Both readers take the message and find in it what it was written from.
pub fn reads_back(call: &Call, message: &[u8]) {
    let received = Received::read(message.to_vec());
    order_is_back(call, &received);
    for part in PARTS {
        part_is_back(call, part, &received);
    }
    let reading = &received.reading;
    let none = [reading.extra_certs, reading.ca_pubs, reading.hash_alg];
    assert_eq!(none, [Span::default(); 3]);
    let end = reading.header.start + reading.protected_len + reading.protection.len;
    assert_eq!(end, message.len());
}

fn order_is_back(call: &Call, message: &Received) {
    let reading = &message.reading;
    let kind = call.outgoing[0];
    assert_eq!((reading.kind, reading.version), (kind, call.version));
    assert_eq!(message.part(reading.transaction_id), field(call, 1, 16));
    assert_eq!(message.part(reading.sender_nonce), field(call, 17, 16));
    let answers = call.outgoing[33] == 1;
    assert_eq!(reading.recip_nonce.start > 0, answers);
    // Where it is not sent it is zero.
    assert!(answers || field(call, 34, 16) == [0; 16]);
    let recip_nonce = message.part(reading.recip_nonce);
    assert!(!answers || recip_nonce == field(call, 34, 16));
    contents_are_back(call, message);
}

fn contents_are_back(call: &Call, message: &Received) {
    let Reading {
        kind,
        entries,
        number: cert_req_id,
        has_status,
        status,
        cert_hash,
        ..
    } = message.reading;
    // Absent in a certConf it counts as 0; elsewhere what is not there is zero.
    let is_back = status == number(call, 51) && has_status == (call.outgoing[50] == 1);
    assert!(is_back || (kind == 24 && !has_status && number(call, 51) == 0));
    assert_eq!(
        message.part(cert_hash),
        match kind {
            24 => field(call, 55, 32),
            _ => &[],
        }
    );
    match kind {
        // certReqId is the caller's.
        0 | 2 | 7 => assert_eq!(entries, 1),
        _ => {
            assert_eq!(entries, usize::from(call.outgoing[88] == 1));
            assert_eq!(cert_req_id, number(call, 89));
        }
    }
}

fn part_is_back(call: &Call, part: Part, message: &Received) {
    let reading = &message.reading;
    let span = match part {
        Part::Sender => reading.sender,
        Part::Recipient => reading.recipient,
        Part::MessageTime => reading.message_time,
        Part::ProtectionAlg => reading.protection_alg,
        Part::SenderKid => reading.sender_kid,
        Part::RecipKid => reading.recip_kid,
        Part::FreeText => reading.free_text,
        Part::GeneralInfo => reading.general_info,
        Part::Protection => reading.protection,
        Part::Request => reading.request,
        Part::Certificate => reading.certificate,
    };
    let found = message.part(span);
    match call.part(part) {
        None => assert_eq!(span, Span::default(), "{part:?}"),
        // The reader gives the whole [0].
        Some(bits) if part == Part::Protection => assert!(found.ends_with(bits)),
        Some(bytes) => assert!(span.start > 0 && found == bytes, "{part:?}"),
    }
}
