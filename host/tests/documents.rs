//! The documents name what is there: each name in docs/ is found in the tree, and a limit is the one that holds;
//! docs/PROMISES.md names each wrong answer of the must-fail edits, and each public function with two of them. And what the
//! sources keep to: public functions require nothing, and functions are small.

#[path = "documents/tree.rs"]
mod tree;

use duskstall_host::testing::papers::with_comma;
use duskstall_host::{MESSAGE_LIMIT, SLOTS};
use std::collections::{BTreeMap, BTreeSet};
use std::path::PathBuf;
use tree::{
    all_functions, all_labels, crate_of, edits, files, labels, names_of_the_tree, quoted,
    replacements, root, text, turned, words, Function,
};

/// The names in a document's backticks that are not in the tree, and how many were looked at.
fn missing_names(document: &str, names: &BTreeSet<String>) -> (BTreeSet<String>, usize) {
    let mut looked_at = 0;
    let mut missing = BTreeSet::new();
    for quote in quoted(document) {
        for word in words(quote).filter(|word| word.chars().count() > 1) {
            looked_at += 1;
            if !names.contains(word) && word.parse::<u64>().is_err() {
                missing.insert(format!("{word} in `{quote}`"));
            }
        }
    }
    (missing, looked_at)
}

fn document(name: &str) -> String {
    text(&root().join("docs").join(name))
}

fn promises() -> String {
    document("PROMISES.md")
}

/// The documents but for the landing pages, which say what was there when a request landed, and the pages of the port and of the
/// design pass, which say what was there before them.
fn documents() -> impl Iterator<Item = PathBuf> {
    let all = files(&root().join("docs")).into_iter();
    all.filter(|path| {
        let inside = path.strip_prefix(root().join("docs")).expect("of docs/");
        !["landings", "PORT", "DESIGN-PASS"]
            .iter()
            .any(|past| inside.to_string_lossy().starts_with(past))
    })
}

#[test]
fn documents_name_what_exists() {
    let names = names_of_the_tree();
    let mut all_missing = BTreeSet::new();
    for document in documents() {
        let (missing, looked_at) = missing_names(&text(&document), &names);
        let name = document.file_name().expect("a name").to_string_lossy();
        println!("names in {name}: {looked_at}, missing {}", missing.len());
        assert!(looked_at > 10, "{name} was not read");
        all_missing.extend(missing);
    }
    assert!(all_missing.is_empty(), "not in the tree: {all_missing:#?}");
}

/// The texts that name a limit by its number.
#[test]
fn documents_name_the_limits() {
    let [limit, above] = [MESSAGE_LIMIT, MESSAGE_LIMIT + 1].map(with_comma);
    for (name, expected) in [
        ("DIFFERENCES.md", format!("Here 1 to {limit} bytes")),
        ("DIFFERENCES.md", format!("Here {SLOTS} transactions")),
        ("PROMISES.md", format!("table has {SLOTS} transactions")),
        ("PROMISES.md", format!("of 1 to {limit} bytes at both ends")),
        ("PROMISES.md", format!("0, 1, {limit} and {above} tried")),
    ] {
        assert!(document(name).contains(&expected), "{expected} in {name}");
    }
}

#[test]
fn promises_name_every_wrong_answer() {
    let promises = promises();
    let named: BTreeSet<&str> = quoted(&promises).into_iter().flat_map(words).collect();
    let all = all_labels();
    let missing: Vec<&String> = all
        .iter()
        .filter(|label| !named.contains(label.as_str()))
        .collect();
    let count: usize = edits().iter().map(|edit| labels(edit).len()).sum();
    println!(
        "wrong answers: {count} in {} edit files, not named {}",
        edits().len(),
        missing.len()
    );
    assert!(missing.is_empty(), "not in PROMISES.md: {missing:#?}");
}

#[test]
fn promises_count_the_edits_of_protocol() {
    let (mut of_code, mut all) = (0, 0);
    for edit in edits().iter().filter(|edit| crate_of(edit) == "protocol") {
        all += labels(edit).len();
        of_code += turned(edit).len();
    }
    let expected = format!("{all} edits, {of_code} of code and the others of definitions");
    assert!(promises().contains(&expected), "{expected}");
}

/// A row of PROMISES.md that begins with the function's name has two labels in its last column.
#[test]
fn every_public_function_has_two_wrong_answers() {
    let promises = promises();
    let labels = all_labels();
    let rows: Vec<Vec<&str>> = promises
        .lines()
        .filter(|line| line.starts_with("| `"))
        .map(|line| line.trim_matches('|').split(" | ").collect())
        .collect();
    let two_for = |function: &Function| {
        rows.iter().any(|row| {
            let named = quoted(row[0])
                .into_iter()
                .flat_map(words)
                .any(|word| word == function.name);
            let last = quoted(row[row.len() - 1]).into_iter().flat_map(words);
            named && last.filter(|word| labels.contains(*word)).count() >= 2
        })
    };
    let public: Vec<Function> = all_functions().into_iter().filter(|f| f.public).collect();
    let missing: Vec<String> = public
        .iter()
        .filter(|function| !two_for(function))
        .map(|function| format!("{} of {}", function.name, crate_of(&function.path)))
        .collect();
    println!(
        "public functions: {}, without two wrong answers {}",
        public.len(),
        missing.len()
    );
    assert!(missing.is_empty(), "not in PROMISES.md: {missing:#?}");
}

/// In one edit file no function is turned twice, and none uses a constant that is changed for another: else it would not show
/// which change the prover refused. That none calls another, `.ci/edits` asks of the prover's log.
#[test]
fn edits_of_one_file_stand_apart() {
    let all = all_functions();
    let uses = |edit: &std::path::Path, function: &str, constant: &str| {
        all.iter().any(|f| {
            crate_of(&f.path) == crate_of(edit)
                && f.name == function
                && words(&f.body).any(|word| word == constant)
        })
    };
    let mut together = 0;
    for edit in edits() {
        let turned = turned(&edit);
        for (at, (function, constants)) in turned.iter().enumerate() {
            for (other, changed) in turned.iter().skip(at + 1) {
                together += 1;
                let shared = constants.iter().any(|c| uses(&edit, other, c))
                    || changed.iter().any(|c| uses(&edit, function, c));
                assert!(
                    function != other && !shared,
                    "{}: {function} and {other} do not stand apart",
                    edit.display()
                );
            }
        }
    }
    println!("pairs of functions turned in one file: {together}");
    assert!(together > 100, "the edits were not read");
}

/// Two labels are two wrong answers.
#[test]
fn no_edit_stands_twice() {
    let mut seen = BTreeMap::new();
    for edit in edits() {
        let replacements = replacements(&edit);
        assert_eq!(replacements.len(), labels(&edit).len(), "{edit:?}");
        for (label, replaced) in labels(&edit).into_iter().zip(replacements) {
            assert!(replaced.contains("\nold: ") && replaced.contains("\nnew:"));
            let same = seen.insert((crate_of(&edit), replaced), label.clone());
            assert_eq!(same, None, "{label} is the same edit");
        }
    }
}

#[test]
fn public_functions_require_nothing() {
    let all = all_functions();
    let requiring: Vec<&str> = all
        .iter()
        .filter(|f| f.public && f.requires)
        .map(|f| f.name.as_str())
        .collect();
    let private = all.iter().filter(|f| !f.public && f.requires).count();
    println!(
        "functions: {}, private ones with a requires {private}",
        all.len()
    );
    assert!(
        requiring.is_empty(),
        "public with a requires: {requiring:?}"
    );
    assert!(private > 0, "no requires was seen at all");
}

#[test]
fn functions_are_small() {
    let all = all_functions();
    let longest = all.iter().max_by_key(|f| f.lines).expect("functions");
    println!(
        "the longest function is {} with {} lines",
        longest.name, longest.lines
    );
    assert!(
        longest.lines <= 40,
        "{} has {} lines",
        longest.name,
        longest.lines
    );
    let loops: Vec<&str> = all
        .iter()
        .filter(|f| f.loops > 1)
        .map(|f| f.name.as_str())
        .collect();
    assert!(loops.is_empty(), "more than one loop: {loops:?}");
    assert!(all.iter().any(|f| f.loops == 1), "no loop was seen at all");
}
