//! The forms an element's length can be written in, DER's own and bad ones.

/// How an element's length is written.
#[derive(Clone, Copy, Debug, PartialEq, Eq)]
pub enum LengthForm {
    /// As DER asks: in as few bytes as the length allows.
    Shortest,
    /// The low seven bits in the one byte of the short form.
    Short,
    /// `80 + n`, then the length's low `n` bytes, high byte first. `Long(0)` is
    /// the indefinite form's `80`.
    Long(u8),
    /// The shortest form of another length than the content has.
    Wrong(usize),
}

/// The length forms that are tried on every length.
pub const LENGTH_FORMS: [LengthForm; 8] = [
    LengthForm::Shortest,
    LengthForm::Short,
    LengthForm::Long(0),
    LengthForm::Long(1),
    LengthForm::Long(2),
    LengthForm::Long(3),
    LengthForm::Long(4),
    LengthForm::Long(127),
];

impl LengthForm {
    pub(super) fn size(self, length: usize) -> usize {
        match self {
            LengthForm::Shortest => shortest_size(length),
            LengthForm::Short => 1,
            LengthForm::Long(bytes) => 1 + usize::from(bytes),
            LengthForm::Wrong(other) => shortest_size(other),
        }
    }

    pub(super) fn write(self, length: usize, out: &mut Vec<u8>) {
        match self {
            LengthForm::Shortest => write_shortest(length, out),
            LengthForm::Short => out.push(length as u8 & 0x7F),
            LengthForm::Long(bytes) => {
                out.push(0x80 | bytes);
                out.extend((0..u32::from(bytes)).rev().map(|at| byte_of(length, at)));
            }
            LengthForm::Wrong(other) => write_shortest(other, out),
        }
    }
}

fn byte_of(length: usize, at: u32) -> u8 {
    length.checked_shr(8 * at).unwrap_or(0) as u8
}

fn shortest_size(length: usize) -> usize {
    match length {
        0..=0x7F => 1,
        0x80..=0xFF => 2,
        0x100..=0xFFFF => 3,
        _ => 4,
    }
}

fn write_shortest(length: usize, out: &mut Vec<u8>) {
    let bytes = shortest_size(length) - 1;
    if bytes == 0 {
        out.push(length as u8);
    } else {
        LengthForm::Long(bytes as u8).write(length, out);
    }
}
