//! What the tests of the documents look at: the files of the tree, the names in them, the functions of the crates and the
//! labels of their must-fail edits.

use std::collections::BTreeSet;
use std::fs;
use std::path::{Path, PathBuf};

pub fn root() -> PathBuf {
    Path::new(env!("CARGO_MANIFEST_DIR"))
        .parent()
        .expect("the repository")
        .to_path_buf()
}

/// The files below a folder, but for what a build writes.
pub fn files(folder: &Path) -> Vec<PathBuf> {
    let mut found = Vec::new();
    for entry in fs::read_dir(folder).expect("a folder of the tree") {
        let path = entry.expect("an entry").path();
        if path.is_dir() {
            if path.file_name().is_some_and(|name| name != "target" && name != "out") {
                found.extend(files(&path));
            }
        } else {
            found.push(path);
        }
    }
    found
}

pub fn text(path: &Path) -> String {
    fs::read_to_string(path).unwrap_or_default()
}

pub fn has_extension(path: &Path, extension: &str) -> bool {
    path.extension().is_some_and(|e| e == extension)
}

/// Letters, digits, `_` and `-`: a name of Rattle, of antt or of Rust.
pub fn words(text: &str) -> impl Iterator<Item = &str> {
    text.split(|c: char| !(c.is_alphanumeric() || c == '_' || c == '-'))
        .map(|word| word.trim_matches('-'))
        .filter(|word| !word.is_empty())
}

/// The labels of the wrong answers in an edit file: one to a line `# label: function`, or else the file's name.
pub fn labels(edit: &Path) -> Vec<String> {
    let named: Vec<String> = text(edit)
        .lines()
        .filter_map(|line| line.strip_prefix("# "))
        .filter_map(|line| line.split_once(": "))
        .map(|(label, _)| label.to_string())
        .collect();
    if !named.is_empty() {
        return named;
    }
    let stem = edit.file_stem().expect("a name").to_string_lossy();
    vec![stem.into_owned()]
}

/// The functions that an edit file turns, by their last name, each with the constants that are changed for it.
pub fn turned(edit: &Path) -> Vec<(String, Vec<String>)> {
    let mut found: Vec<(String, Vec<String>)> = Vec::new();
    for line in text(edit).lines() {
        if let Some((_, function)) = line.strip_prefix("# ").and_then(|l| l.split_once(": ")) {
            let name = function.rsplit("::").next().expect("a name");
            found.push((name.to_string(), Vec::new()));
        }
        let changed = line
            .strip_prefix("old: ")
            .and_then(|l| l.split_once("const "));
        if let (Some((_, rest)), Some((_, constants))) = (changed, found.last_mut()) {
            constants.extend(words(rest).next().map(String::from));
        }
    }
    found
}

/// What each wrong answer of an edit file replaces and by what, with the file that it stands in, in the order of the labels.
pub fn replacements(edit: &Path) -> Vec<String> {
    let (mut found, mut file) = (Vec::new(), String::new());
    let content = text(edit);
    let labelled = content.lines().any(|line| line.starts_with("# "));
    for line in content.lines() {
        if let Some(named) = line.strip_prefix("file: ") {
            file = named.to_string();
        } else if line.starts_with("# ") || (!labelled && found.is_empty()) {
            found.push(file.clone());
        }
        if let (true, Some(last)) = (is_replacement(line), found.last_mut()) {
            *last += &format!("\n{line}");
        }
    }
    found
}

fn is_replacement(line: &str) -> bool {
    line.starts_with("old: ") || line.starts_with("new:")
}

pub fn crate_of(path: &Path) -> String {
    let inside = path
        .strip_prefix(root().join("crates"))
        .expect("of a crate");
    let first = inside.components().next().expect("a crate's folder");
    first.as_os_str().to_string_lossy().into_owned()
}

pub fn edits() -> Vec<PathBuf> {
    let crates = files(&root().join("crates"));
    crates
        .into_iter()
        .filter(|p| has_extension(p, "edit"))
        .collect()
}

/// What stands between backticks, but for blocks of code.
pub fn quoted(document: &str) -> Vec<&str> {
    let prose = document.split("```").step_by(2);
    prose
        .flat_map(|part| part.split('`').skip(1).step_by(2))
        .collect()
}

/// Every name of the tree: words of definitions and code, what a proof file declares, labels, files.
pub fn names_of_the_tree() -> BTreeSet<String> {
    let mut names = BTreeSet::new();
    let folders = ["crates", "host", "include", "examples", "docs", ".ci"];
    for path in folders.iter().flat_map(|f| files(&root().join(f))) {
        let inside = path
            .strip_prefix(root())
            .expect("of the tree")
            .to_path_buf();
        names.extend(words(&inside.to_string_lossy()).map(String::from));
        let content = text(&path);
        if has_extension(&path, "edit") {
            names.extend(labels(&path));
        } else if inside.components().any(|part| part.as_os_str() == "proofs") {
            let declared = content.lines().filter(|line| line.contains(" : "));
            names.extend(
                declared
                    .flat_map(|line| words(line).take(3))
                    .map(String::from),
            );
        } else if has_extension(&path, "rt") || has_extension(&path, "antt") {
            names.extend(words(&content).map(String::from));
        } else if has_extension(&path, "rs")
            || has_extension(&path, "c")
            || has_extension(&path, "h")
        {
            names.extend(words(&content).map(String::from));
        }
    }
    names
}

/// A function of a crate: its contract and its body.
pub struct Function {
    pub name: String,
    pub path: PathBuf,
    pub public: bool,
    pub requires: bool,
    pub lines: usize,
    pub loops: usize,
    pub body: String,
}

/// The loops that begin in a line of code, whatever stands before them in it; none in a comment.
fn loops(line: &str) -> usize {
    let code = line.split("//").next().unwrap_or_default();
    words(code)
        .filter(|word| ["while", "for", "loop"].contains(word))
        .count()
}

/// The functions of one source file. A contract ends where a line is a lone `{` or the first line ends with one.
pub fn functions(path: &Path) -> Vec<Function> {
    let content = text(path);
    let lines: Vec<&str> = content.lines().collect();
    let mut found = Vec::new();
    for (at, line) in lines.iter().enumerate() {
        let head = line.trim_start();
        let indent = line.len() - head.len();
        let signature = head
            .trim_start_matches("pub(crate) ")
            .trim_start_matches("pub ")
            .trim_start_matches("extern \"C\" ");
        let Some(rest) = signature.strip_prefix("fn ") else {
            continue;
        };
        let opens = |l: &&str| l.trim() == "{" || (*l == *line && l.ends_with('{'));
        let body = at + lines[at..].iter().position(|l| opens(&l)).expect("a body");
        let closing = format!("{}}}", " ".repeat(indent));
        let end = body
            + lines[body..]
                .iter()
                .position(|l| *l == closing)
                .expect("its end");
        found.push(Function {
            name: words(rest).next().expect("a name").to_string(),
            path: path.to_path_buf(),
            public: head.starts_with("pub ") && !head.contains("fn main("),
            requires: lines[at..body]
                .iter()
                .any(|l| l.trim().starts_with("requires")),
            lines: end - body - 1,
            loops: lines[body..end].iter().map(|l| loops(l)).sum(),
            body: lines[body..end].join("\n"),
        });
    }
    found
}

pub fn all_functions() -> Vec<Function> {
    let sources = files(&root().join("crates"));
    let code = sources.iter().filter(|path| has_extension(path, "rt"));
    let all: Vec<Function> = code.flat_map(|path| functions(path)).collect();
    assert!(all.len() > 200, "the sources were not read");
    all
}

pub fn all_labels() -> BTreeSet<String> {
    let all: BTreeSet<String> = edits().iter().flat_map(|edit| labels(edit)).collect();
    assert!(all.len() > 100, "the edits were not read");
    all
}
