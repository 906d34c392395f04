//! The comparison of library and model on one call, and the counts that show it
//! was not idle.

use super::calls::Call;
use duskstall_host::independent;
use duskstall_host::library::{BAD_LENGTH, NO_ROOM, NO_STATE};
use duskstall_host::testing::der::show;
use duskstall_host::testing::exchange::P10CR;
use duskstall_host::testing::random::Random;
use std::collections::BTreeMap;
use std::fmt::Debug;

/// Bytes before and after what is lent, which no call may touch.
const MARGIN: usize = 16;

/// How often each row, number and state has to be met at least.
const ENOUGH: usize = 500;

/// A record's kind, and its state by name.
pub type Record = (u8, String);

/// One of the two ends.
pub struct End {
    pub name: &'static str,
    /// The size of its answer.
    pub answer: usize,
    /// The refusals that it can give.
    pub rows: &'static [u8],
    /// Whether it can answer "again".
    pub again: bool,
    /// The records in its state.
    pub records: fn(&[u8]) -> Vec<Option<Record>>,
    /// The states that its calls move a record to.
    pub states: &'static [&'static str],
}

/// What is compared at one end.
pub struct Tally {
    end: End,
    /// Calls by the number they gave.
    numbers: BTreeMap<u64, usize>,
    /// Refused calls by the refusal's number.
    refusals: BTreeMap<u8, usize>,
    /// Those refused by 16 for certReqId 0, at a p10cr record, and for -1, at
    /// another.
    number_0: usize,
    number_minus_1: usize,
    /// Calls that moved a p10cr record, by its state after them.
    p10cr: BTreeMap<String, usize>,
    differences: usize,
}

/// A state and an answer that are lent to a call, with a margin around each.
#[derive(Clone, PartialEq)]
struct Lent {
    state: Vec<u8>,
    answer: Vec<u8>,
}

impl Lent {
    fn new(state: &[u8], answer: usize, fill: u8) -> Lent {
        let margin = [fill; MARGIN];
        Lent {
            state: [&margin, state, &margin].concat(),
            answer: vec![fill; MARGIN + answer + MARGIN],
        }
    }

    fn call(&mut self, call: impl FnOnce(&mut [u8], &mut [u8]) -> u64) -> u64 {
        call(inside(&mut self.state), inside(&mut self.answer))
    }
}

fn inside(bytes: &mut [u8]) -> &mut [u8] {
    let end = bytes.len() - MARGIN;
    &mut bytes[MARGIN..end]
}

impl Tally {
    pub fn new(end: End) -> Tally {
        Tally {
            end,
            numbers: BTreeMap::new(),
            refusals: BTreeMap::new(),
            number_0: 0,
            number_minus_1: 0,
            p10cr: BTreeMap::new(),
            differences: 0,
        }
    }

    /// Runs a call on both and leaves the library's state. Seldom it is lent a
    /// state or an answer of another size.
    pub fn compare(&mut self, call: &(impl Call + Debug), state: &mut [u8], random: &mut Random) {
        let answer = match random.below(64) {
            0 => random.below(self.end.answer),
            1..=8 => self.end.answer + random.below(40),
            _ => self.end.answer,
        };
        let mut lent = state.to_vec();
        if random.once_in(256) {
            lent.resize(random.below(2 * state.len()), random.byte());
        }
        let before = Lent::new(&lent, answer, random.byte());
        let (mut library, mut model) = (before.clone(), before.clone());
        let number = library.call(|state, answer| call.on_library(state, answer));
        let expected = model.call(|state, answer| call.on_model(state, answer));
        if number != expected || library != model {
            self.differs(call, &before, (number, &library), (expected, &model));
        }
        if lent.len() == state.len() {
            state.copy_from_slice(inside(&mut library.state));
        }
        self.count(number, inside(&mut library.answer), call.message());
        if number == 0 {
            self.count_moves(&lent, inside(&mut library.state));
        }
    }

    fn count(&mut self, number: u64, answer: &[u8], message: Option<&[u8]>) {
        *self.numbers.entry(number).or_default() += 1;
        let (2, Some(refusal)) = (number, answer.get(1)) else {
            return;
        };
        *self.refusals.entry(*refusal).or_default() += 1;
        if *refusal == 16 {
            let message = message.expect("row 16 is about a message");
            let reading = independent::read(message).expect("row 2 comes first");
            match reading.number as i32 {
                0 => self.number_0 += 1,
                -1 => self.number_minus_1 += 1,
                _ => {}
            }
        }
    }

    fn count_moves(&mut self, before: &[u8], after: &[u8]) {
        let [before, after] = [before, after].map(self.end.records);
        for (before, after) in before.into_iter().zip(after) {
            match after {
                Some((P10CR, state)) if before != Some((P10CR, state.clone())) => {
                    *self.p10cr.entry(state).or_default() += 1;
                }
                _ => {}
            }
        }
    }

    /// Counts a difference and shows the first ones.
    fn differs(
        &mut self,
        call: &impl Debug,
        before: &Lent,
        library: (u64, &Lent),
        model: (u64, &Lent),
    ) {
        self.differences += 1;
        if self.differences > 3 {
            return;
        }
        println!("the {} differs: {call:?}", self.end.name);
        println!("  before {}", show(&before.state));
        for (name, (number, lent)) in [("library", library), ("model", model)] {
            println!("  {name} gives {number}, answer {}", show(&lent.answer));
            println!("    state {}", show(&lent.state));
        }
    }

    pub fn calls(&self) -> usize {
        self.numbers.values().sum()
    }

    /// Prints the counts.
    pub fn report(&self) {
        println!("{}: {} calls", self.end.name, self.calls());
        println!("  by the number given {:?}", self.numbers);
        println!("  by the refusal {:?}", self.refusals);
        println!(
            "  refused by 16: certReqId 0 at p10cr {}, -1 at others {}",
            self.number_0, self.number_minus_1
        );
        println!("  p10cr, by the state after the call {:?}", self.p10cr);
        println!("  differences {}", self.differences);
    }

    /// No difference, and every answer that this end has was met, no other.
    pub fn assert_whole(&self) {
        assert_eq!(self.differences, 0, "{}", self.end.name);
        let numbers = [0, 1, 2, NO_STATE, BAD_LENGTH, NO_ROOM];
        let numbers = numbers.iter();
        let numbers = numbers.filter(|number| self.end.again || **number != 1);
        assert!(self.numbers.keys().eq(numbers), "{:?}", self.numbers);
        let (rows, states) = (self.end.rows, self.end.states);
        assert!(self.refusals.keys().eq(rows), "{:?}", self.refusals);
        assert!(self.p10cr.keys().eq(states), "{:?}", self.p10cr);
        let wrong = [&self.number_0, &self.number_minus_1];
        let counts = self.numbers.values().chain(self.refusals.values());
        let mut counts = counts.chain(self.p10cr.values()).chain(wrong);
        assert!(counts.all(|count| *count >= ENOUGH));
    }
}
