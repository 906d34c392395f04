//! The independent reader by itself, on the examples the papers give.

mod faults;
mod places;

use super::read;
use crate::testing::der::{show, Node};
use crate::testing::papers::Fault;
use crate::types::{Reading, Refused};

const REFUSED_BY_SIZE: Result<Reading, Refused> = Err(Refused {
    number: 1,
    offset: 0,
    rule: 0,
});

/// Refusal 2 with this offset and rule.
fn assert_fault(bytes: &[u8], offset: usize, rule: u8) {
    let expected = Err(Refused {
        number: 2,
        offset,
        rule,
    });
    assert_eq!(read(bytes), expected, "{}", show(bytes));
}

fn assert_faults(faults: Vec<Fault>) {
    for fault in faults {
        assert_fault(&fault.bytes, fault.offset, fault.rule);
    }
}

fn clean(message: &Node) -> Reading {
    let bytes = message.encode();
    read(&bytes).unwrap_or_else(|refused| panic!("{refused:?}: {}", show(&bytes)))
}
