//! The library's writer against the independent one: answer and every byte of the
//! buffer, on orders and parts of any bytes. What is written is read by both
//! readers, which have to find the order and every given field in it. And the
//! papers' examples, the lengths at which an element's length takes a byte more,
//! and OpenSSL as a reader.

#[path = "writer/back.rs"]
mod back;
#[path = "writer/corpus.rs"]
mod corpus;
#[path = "writer/drawn.rs"]
mod drawn;
#[path = "writer/examples.rs"]
mod examples;
#[path = "writer/lengths.rs"]
mod lengths;
#[path = "writer/openssl.rs"]
mod openssl;
#[path = "writer/protected.rs"]
mod protected;
#[path = "writer/random_calls.rs"]
mod random_calls;
#[path = "writer/source.rs"]
mod source;
#[path = "writer/tally.rs"]
mod tally;
