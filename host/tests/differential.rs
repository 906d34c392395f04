//! The compiled proved reader against the independent one. Every field of
//! every clean reading, and the number, offset and rule of every refusal, have
//! to be the same. `--nocapture` shows how many messages each test compared.

#[path = "differential/corpus.rs"]
mod corpus;
#[path = "differential/drawn.rs"]
mod drawn;
#[path = "differential/examples.rs"]
mod examples;
#[path = "differential/places.rs"]
mod places;
#[path = "differential/sizes.rs"]
mod sizes;
#[path = "differential/tally.rs"]
mod tally;
