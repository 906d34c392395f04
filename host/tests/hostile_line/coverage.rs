//! Which moves and refusals of which calls were met, and which there are.

use duskstall_host::testing::exchange::P10CR;
use duskstall_host::{independent, Outcome};
use std::collections::{BTreeMap, BTreeSet};

/// Counts by a call and how it ended, as "certConf: refused 12".
#[derive(Default)]
pub struct Coverage {
    counts: BTreeMap<String, usize>,
    /// Of these the moves of p10cr transactions and enrolments.
    p10cr: BTreeMap<String, usize>,
    /// Calls refused by 16, as "certConf: certReqId 0".
    numbers: BTreeMap<String, usize>,
}

impl Coverage {
    pub fn note(&mut self, label: String) {
        *self.counts.entry(label).or_default() += 1;
    }

    /// A call that was not refused, about a record of this kind.
    pub fn note_move(&mut self, kind: u8, label: String) {
        if kind == P10CR {
            *self.p10cr.entry(label.clone()).or_default() += 1;
        }
        self.note(label);
    }

    /// A call that was handed this message.
    pub fn note_number(&mut self, what: &str, outcome: Outcome, message: &[u8]) {
        if outcome
            .refusal()
            .is_some_and(|refusal| refusal.number == 16)
        {
            let reading = independent::read(message).expect("row 2 comes first");
            let label = format!("{what}: certReqId {}", reading.number as i32);
            *self.numbers.entry(label).or_default() += 1;
        }
    }

    pub fn moves_of_p10cr(&self) -> BTreeSet<String> {
        self.p10cr.keys().cloned().collect()
    }

    /// Whether it was refused by 16, as in "certConf: certReqId 0".
    pub fn refused_number(&self, label: &str) -> bool {
        self.numbers.contains_key(label)
    }

    pub fn met(&self) -> BTreeSet<String> {
        self.counts.keys().cloned().collect()
    }

    /// Prints one line for each call.
    pub fn report(&self) {
        print("", &self.counts);
        print("of p10cr, ", &self.p10cr);
        print("refused 16, ", &self.numbers);
    }
}

fn print(of: &str, counts: &BTreeMap<String, usize>) {
    let mut lines: BTreeMap<&str, Vec<String>> = BTreeMap::new();
    for (label, count) in counts {
        let (call, end) = label.split_once(": ").unwrap_or((label, ""));
        let line = lines.entry(call).or_default();
        line.push(format!("{end} {count}"));
    }
    for (call, ends) in lines {
        println!("  {of}{call}: {}", ends.join(", "));
    }
}

/// The refusals that the table has for each call. Row 20 has two bits at the
/// registrar.
const REFUSALS: [(&str, &[&str]); 15] = [
    ("unread", &["1", "2"]),
    (
        "request",
        &["3", "4", "5", "6", "7", "9", "10", "11", "15", "16"],
    ),
    (
        "certConf",
        &[
            "3",
            "4",
            "5",
            "6",
            "7",
            "12",
            "13",
            "14",
            "15",
            "16",
            "17",
            "18",
            "19",
            "20 bit 2",
            "20 bit 11",
        ],
    ),
    ("other kind", &["3", "4", "5", "6", "7", "8"]),
    ("issue", &["30", "31"]),
    ("refuse", &["30", "31"]),
    ("lapse", &["30", "31"]),
    ("close", &["30", "31"]),
    ("board start", &["32"]),
    ("board unread", &["1", "2"]),
    (
        "board response",
        &[
            "3", "4", "5", "6", "7", "12", "14", "15", "16", "18", "20", "21",
        ],
    ),
    (
        "board pkiconf",
        &["3", "4", "5", "6", "7", "12", "14", "20"],
    ),
    (
        "board error",
        &["3", "4", "5", "6", "7", "12", "14", "18", "20"],
    ),
    ("board other kind", &["3", "4", "5", "6", "7", "8"]),
    ("board time out", &["31"]),
];

/// The moves that there are.
const MOVES: [&str; 26] = [
    "request: Free to Asked",
    "certConf: Granted to Confirmed",
    "certConf: Granted to Declined",
    "certConf: again at Confirmed",
    "certConf: again at Declined",
    "issue: Asked to Granted",
    "refuse: Asked to Refused",
    "lapse: Granted to Lapsed",
    "close: Confirmed to Free",
    "close: Declined to Free",
    "close: Refused to Free",
    "close: Lapsed to Free",
    "board start: to Asked",
    "board response 0: Asked to Confirming",
    "board response 0: Asked to Declining",
    "board response 1: Asked to Confirming",
    "board response 1: Asked to Declining",
    "board response 2: Asked to Failed",
    "board pkiconf: Confirming to Sure",
    "board pkiconf: Declining to Declined",
    "board error: Asked to Failed",
    "board error: Confirming to Unsettled",
    "board error: Declining to Unsettled",
    "board time out: Asked to Failed",
    "board time out: Confirming to Unsettled",
    "board time out: Declining to Unsettled",
];

/// Those that the premise of demand 3 rules out: no end issues such a message,
/// so its verdict is bad.
const OUTSIDE: [&str; 10] = [
    "request: refused 9",
    "certConf: refused 13",
    "certConf: refused 18",
    "certConf: refused 20 bit 11",
    "other kind: refused 8",
    "board response: refused 18",
    "board response 1: Asked to Confirming",
    "board response 1: Asked to Declining",
    // Each enrolment sends one certConf, so every pkiconf answers it.
    "board pkiconf: refused 14",
    "board error: refused 18",
];

/// Everything that can be met.
pub fn whole() -> BTreeSet<String> {
    let refusals = REFUSALS
        .iter()
        .flat_map(|(call, rows)| rows.iter().map(move |row| format!("{call}: refused {row}")));
    refusals.chain(moves()).collect()
}

/// The moves among it.
pub fn moves() -> BTreeSet<String> {
    MOVES.iter().map(|label| label.to_string()).collect()
}

/// A message with the certReqId of a p10cr enrolment at another, and the other
/// way round; a request is its own record, and a p10cr has no certReqId.
pub const WRONG_NUMBERS: [&str; 5] = [
    "request: certReqId -1",
    "certConf: certReqId -1",
    "certConf: certReqId 0",
    "board response: certReqId -1",
    "board response: certReqId 0",
];

/// What can be met outside the premise only.
pub fn outside() -> BTreeSet<String> {
    OUTSIDE.iter().map(|label| label.to_string()).collect()
}
