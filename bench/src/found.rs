//! The worst boards that the hunter found, texts in `boards/` whose last line is the slow entry. Each is named after the kind and outcome of
//! that entry, with a number.
use crate::entry::{Entry, KINDS};

/// The names, each with its text.
macro_rules! texts {
    ($($name:literal),* $(,)?) => {
        &[$(($name, include_str!(concat!("../boards/", $name, ".txt")))),*]
    };
}

const TEXTS: &[(&str, &str)] = texts![
    "addition-accepted-1",
    "addition-accepted-2",
    "addition-refused-1",
    "addition-refused-2",
    "arc-accepted-1",
    "arc-accepted-2",
    "arc-refused-1",
    "arc-refused-2",
    "mark-accepted-1",
    "mark-accepted-2",
    "mark-refused-1",
    "mark-refused-2",
    "cut-accepted-1",
    "cut-accepted-2",
    "cut-refused-1",
    "cut-refused-2",
];

/// A board that was found: the entries that make it, and the last one.
pub struct Found {
    pub name: &'static str,
    /// What the name says of the last entry: "accepted" or "refused".
    pub outcome: &'static str,
    pub entries: Vec<Entry>,
    pub last: Entry,
}

impl Found {
    fn of(name: &'static str, text: &str) -> Found {
        let entry = |line: &str| match line.parse() {
            Ok(entry) => entry,
            Err(line) => panic!("{name} has a line that is no entry: {line}"),
        };
        let mut entries: Vec<Entry> = text.lines().map(entry).collect();
        let last = entries.pop().expect("there is a last entry");
        let words: Vec<&str> = name.split('-').collect();
        let [kind, outcome, _] = words[..] else {
            panic!("{name} isn't a kind, an outcome and a number");
        };
        assert_eq!(kind, KINDS[last.kind()], "{name} ends with {last}");
        Found {
            name,
            outcome,
            entries,
            last,
        }
    }
}

/// All of them.
pub fn all() -> impl Iterator<Item = Found> {
    TEXTS.iter().map(|&(name, text)| Found::of(name, text))
}
