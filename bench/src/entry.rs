//! Entries of the board, as the loads and families make them, and what takes them: every implementation under the same entries.
use bayboard::{Board, Mark, Refusal};
use std::fmt;
use std::str::FromStr;

/// The kinds of entries.
pub const KINDS: [&str; 4] = ["addition", "arc", "mark", "cut"];

#[derive(Clone, Copy, Debug, PartialEq, Eq)]
pub enum Entry {
    Addition {
        length: i32,
        earliest: i32,
        latest: i32,
        mark: Mark,
    },
    Arc {
        from: usize,
        to: usize,
    },
    Mark {
        job: usize,
        mark: Mark,
    },
    Cut {
        job: usize,
        earliest: i32,
        latest: i32,
    },
}

impl Entry {
    /// The place of its kind in `KINDS`.
    pub fn kind(self) -> usize {
        match self {
            Entry::Addition { .. } => 0,
            Entry::Arc { .. } => 1,
            Entry::Mark { .. } => 2,
            Entry::Cut { .. } => 3,
        }
    }

    /// The same entry with time turned round.
    pub fn mirrored(self) -> Entry {
        match self {
            Entry::Addition {
                length,
                earliest,
                latest,
                mark,
            } => Entry::Addition {
                length,
                earliest: -latest,
                latest: -earliest,
                mark,
            },
            Entry::Arc { from, to } => Entry::Arc { from: to, to: from },
            Entry::Mark { .. } => self,
            Entry::Cut {
                job,
                earliest,
                latest,
            } => Entry::Cut {
                job,
                earliest: -latest,
                latest: -earliest,
            },
        }
    }

    /// The same entry of the jobs under their numbers.
    pub fn renumbered(self, numbers: &[usize]) -> Entry {
        match self {
            Entry::Addition { .. } => self,
            Entry::Arc { from, to } => Entry::Arc {
                from: numbers[from],
                to: numbers[to],
            },
            Entry::Mark { job, mark } => Entry::Mark {
                job: numbers[job],
                mark,
            },
            Entry::Cut {
                job,
                earliest,
                latest,
            } => Entry::Cut {
                job: numbers[job],
                earliest,
                latest,
            },
        }
    }
}

/// As the text program reads it.
impl fmt::Display for Entry {
    fn fmt(&self, f: &mut fmt::Formatter<'_>) -> fmt::Result {
        match *self {
            Entry::Addition {
                length,
                earliest,
                latest,
                mark,
            } => write!(
                f,
                "(add (len {length}) (win {earliest} {latest}) (mark {}))",
                mark as u8
            ),
            Entry::Arc { from, to } => write!(f, "(arc {from} {to})"),
            Entry::Mark { job, mark } => write!(f, "(mark {job} {})", mark as u8),
            Entry::Cut {
                job,
                earliest,
                latest,
            } => write!(f, "(cut {job} (win {earliest} {latest}))"),
        }
    }
}

fn number<T: FromStr>(word: &str) -> Option<T> {
    word.parse().ok()
}

fn mark(word: &str) -> Option<Mark> {
    let marks = [Mark::Undecided, Mark::Valid, Mark::Invalid];
    marks.get(number::<usize>(word)?).copied()
}

/// An entry from the words of a line, wherever its brackets stand.
fn entry(line: &str) -> Option<Entry> {
    let words = line.split(['(', ')', ' ']).filter(|word| !word.is_empty());
    let words: Vec<&str> = words.collect();
    Some(match words[..] {
        ["add", "len", length, "win", earliest, latest, "mark", m] => Entry::Addition {
            length: number(length)?,
            earliest: number(earliest)?,
            latest: number(latest)?,
            mark: mark(m)?,
        },
        ["arc", from, to] => Entry::Arc {
            from: number(from)?,
            to: number(to)?,
        },
        ["mark", job, m] => Entry::Mark {
            job: number(job)?,
            mark: mark(m)?,
        },
        ["cut", job, "win", earliest, latest] => Entry::Cut {
            job: number(job)?,
            earliest: number(earliest)?,
            latest: number(latest)?,
        },
        _ => return None,
    })
}

/// From a line as it is displayed, and no other.
impl FromStr for Entry {
    /// The line.
    type Err = String;

    fn from_str(line: &str) -> Result<Entry, String> {
        let entry = entry(line).filter(|entry| entry.to_string() == line);
        entry.ok_or_else(|| line.to_string())
    }
}

/// An implementation of the board.
pub trait Enters: Clone {
    fn enter(&mut self, entry: Entry) -> Result<(), Refusal>;

    /// The board as the library keeps it, for comparisons.
    fn kept(&self) -> Board;
}
