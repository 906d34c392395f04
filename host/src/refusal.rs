//! Refusals: the number and bit of the table in document 01, and its words.

use crate::limits;
use crate::types::Refused;
use std::error::Error;
use std::fmt;

/// Why a call was refused.
///
/// ```
/// use duskstall_host::Refusal;
///
/// let refusal = Refusal { number: 12, bit: Some(2), fault: None };
/// assert_eq!(
///     refusal.to_string(),
///     "refused 12, bit 2: certConf, id not in the book; board: id not its own",
/// );
/// ```
#[derive(Clone, Copy, Debug, PartialEq, Eq)]
pub struct Refusal {
    /// 1 to 21, 30 to 32 or 34 to 36.
    pub number: u8,
    /// The PKIFailureInfo bit that goes with it.
    pub bit: Option<u8>,
    /// Where the message stopped to be readable, for numbers 1 and 2.
    pub fault: Option<Refused>,
}

impl Refusal {
    /// An answer outside the library's contract. No call gives it.
    pub const OUTSIDE_CONTRACT: Refusal = Refusal {
        number: 255,
        bit: None,
        fault: None,
    };

    /// The table's words for the number.
    pub fn reason(&self) -> &'static str {
        match self.number {
            1 => limits::REFUSED_LENGTH,
            2 => "not DER or not the grammar",
            3 => "pvno not 2 or 3",
            4 => "transactionID absent or not 16 bytes",
            5 => "senderNonce absent or not 16 bytes",
            6 => "protectionAlg or protection absent",
            7 => "verdict bad",
            8 => "kind not taken here",
            9 => "opening with recipNonce",
            10 => "opening, id in the book",
            11 => "opening, no free place",
            12 => "certConf, id not in the book; board: id not its own",
            13 => "certConf, verdict names another board than the record",
            14 => "recipNonce absent or not the last nonce this record sent",
            15 => "not exactly one entry",
            16 => "certReqId in that one entry not -1 for p10cr, not 0 for the others",
            17 => "certConf, hashAlg with pvno 2",
            18 => {
                "certConf status not 0 or 2; board: response status not 0, 1, 2; error status not 2"
            }
            19 => "certHash not the record's 32 bytes, or no hash set",
            20 => "the state doesn't take it",
            21 => "status 0 or 1 and no plain certificate",
            30 => "host step, id not in the book",
            31 => "host step, state doesn't allow it",
            32 => "board start, kind not 0, 2, 4 or 7",
            34 => "the result is over the message limit",
            35 => "the buffer is too short",
            36 => "a given element or field doesn't fit the grammar at its place",
            _ => "no number of the table",
        }
    }
}

impl fmt::Display for Refusal {
    fn fmt(&self, to: &mut fmt::Formatter) -> fmt::Result {
        write!(to, "refused {}", self.number)?;
        if let Some(bit) = self.bit {
            write!(to, ", bit {bit}")?;
        }
        write!(to, ": {}", self.reason())?;
        match self.fault {
            Some(fault) if fault.number == 2 => {
                write!(to, " (offset {}, rule {})", fault.offset, fault.rule)
            }
            _ => Ok(()),
        }
    }
}

impl Error for Refusal {}
