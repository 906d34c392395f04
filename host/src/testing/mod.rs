//! What the tests make their messages with: a small DER writer that can also
//! write badly on purpose, the parts of CMP messages, the papers' examples,
//! messages drawn at random, those of an exchange and another implementation's,
//! and those that are to be written; and the answers of both ends, with one name
//! for the library's and the model's.

pub mod answers;
pub mod chains;
pub mod corpus;
pub mod der;
pub mod ends;
pub mod exchange;
pub mod messages;
pub mod openssl;
pub mod papers;
pub mod random;
pub mod received;
pub mod sha256;
pub mod writing;
