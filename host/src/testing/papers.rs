//! The examples that the papers give: the sample message, the dozen elements,
//! and faults with the offset and the rule they are shown by. And how the papers
//! write a number.

use super::der::hex;

/// The sample message of "One message byte for byte", W, written out from its
/// bytes there.
pub fn sample() -> Vec<u8> {
    let repeat = |byte: &str, times: usize| byte.repeat(times);
    hex(&[
        "30 81 89",
        "30 56 02 01 02 A4 02 30 00 A4 02 30 00",
        "A1 0D 30 0B 06 09 2A 86 48 86 F6 7D 07 42 0D",
        "A4 12 04 10",
        &repeat("11", 16),
        "A5 12 04 10",
        &repeat("22", 16),
        "A6 12 04 10",
        &repeat("33", 16),
        "B8 29 30 27 30 25 04 20",
        &repeat("AB", 32),
        "02 01 00",
        "A0 04 03 02 00 5A",
    ]
    .concat())
}

/// The dozen elements of "The dozen at the definitions": five sound ones, then
/// seven that are not.
pub fn dozen() -> ([Vec<u8>; 5], [Vec<u8>; 7]) {
    (
        ["0201FF", "02020080", "030100", "03020780", "0500"].map(hex),
        [
            "0202007F", "030101", "030207C0", "010101", "060180", "30817F", "3080",
        ]
        .map(hex),
    )
}

/// A number of four to six digits as the papers write it, with a comma.
pub fn with_comma(number: usize) -> String {
    format!("{},{:03}", number / 1_000, number % 1_000)
}

/// A message that refusal 2 has to name by this offset and rule.
#[derive(Clone)]
pub struct Fault {
    pub bytes: Vec<u8>,
    pub offset: usize,
    pub rule: u8,
}

fn fault(bytes: Vec<u8>, offset: usize, rule: u8) -> Fault {
    Fault {
        bytes,
        offset,
        rule,
    }
}

/// The sample with these bytes in place of its own.
fn edited(edits: &[(usize, u8)]) -> Vec<u8> {
    let mut bytes = sample();
    for (at, byte) in edits {
        bytes[*at] = *byte;
    }
    bytes
}

/// The sample with one byte changed.
pub fn edits_of_the_sample() -> Vec<Fault> {
    [
        (5, 0x03, 5, 4),
        (91, 0xBB, 91, 5),
        (93, 0x31, 93, 5),
        (97, 0x24, 97, 3),
        (136, 0x02, 136, 4),
        (138, 0x07, 136, 4),
    ]
    .map(|(at, byte, offset, rule)| fault(edited(&[(at, byte)]), offset, rule))
    .into()
}

/// The sample with bytes after it.
pub fn bytes_after_the_sample() -> Vec<Fault> {
    [("00", 1), ("30", 2), ("05 00", 5)]
        .map(|(more, rule)| fault([sample(), hex(more)].concat(), 140, rule))
        .into()
}

/// A header without its first part, and what may come next.
pub fn missing_elements() -> Vec<Fault> {
    [
        ("30 02 30 00", 5),
        ("30 04 30 00 1F 00", 1),
        ("30 04 30 00 05 01", 2),
        ("30 04 30 00 24 00", 3),
        ("30 05 30 00 05 01 00", 4),
        ("30 04 30 00 B3 00", 5),
        ("30 02 30 00 00", 1),
        ("30 02 30 00 30", 2),
        ("30 02 30 00 05 00", 5),
    ]
    .map(|(bytes, rule)| fault(hex(bytes), 4, rule))
    .into()
}

/// Outermost elements that are no message's.
pub fn outer_elements() -> Vec<Fault> {
    [
        ("30 00", 2, 5),
        ("31 00", 0, 5),
        ("10 00", 0, 3),
        ("30 80", 0, 2),
    ]
    .map(|(bytes, offset, rule)| fault(hex(bytes), offset, rule))
    .into()
}

/// Two faults, of which the lower is shown.
pub fn two_faults() -> Vec<Fault> {
    vec![
        // A bad BOOLEAN where pvno stands.
        fault(hex("30 05 30 03 01 01 01"), 4, 4),
        // The body's tag and the protection's content.
        fault(edited(&[(91, 0xBB), (138, 0x07)]), 91, 5),
    ]
}

/// Errors whose failInfo ends in a zero bit, or is no BIT STRING.
pub fn fail_infos() -> Vec<Fault> {
    [
        ("B7 0B 30 09 30 07 02 01 02 03 02 00 40", 5),
        ("B7 09 30 07 30 05 02 01 02 03 00", 4),
    ]
    .map(|(body, rule)| fault(after_header(body), 24, rule))
    .into()
}

/// The shortest header, 13 bytes at 2, before a body.
fn after_header(body: &str) -> Vec<u8> {
    let mut bytes = hex("30 00 30 0B 02 01 02 A4 02 30 00 A4 02 30 00");
    bytes.extend(hex(body));
    bytes[1] = (bytes.len() - 2) as u8;
    bytes
}
