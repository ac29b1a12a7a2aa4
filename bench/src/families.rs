//! Families of boards, each for any number of jobs, whose last entry moves much or is refused only after much has moved.
mod crowds;
mod raises;
mod sketch;
mod strikes;
mod waves;

use crate::entry::Entry;
use crate::loads::Draws;
use sketch::Sketch;
use std::fmt;

/// What becomes of the last entry. At once refused is one that the named jobs alone show to be impossible.
#[derive(Clone, Copy, Debug, PartialEq, Eq)]
pub enum Outcome {
    Accepted,
    RefusedLate,
    RefusedAtOnce,
}

pub const OUTCOMES: [Outcome; 3] = [
    Outcome::Accepted,
    Outcome::RefusedLate,
    Outcome::RefusedAtOnce,
];

impl fmt::Display for Outcome {
    fn fmt(&self, f: &mut fmt::Formatter<'_>) -> fmt::Result {
        f.pad(match self {
            Outcome::Accepted => "accepted",
            Outcome::RefusedLate => "refused late",
            Outcome::RefusedAtOnce => "refused at once",
        })
    }
}

/// A family has a name and sketches its board; not every outcome is there at every size.
pub struct Family {
    pub name: &'static str,
    sketch: fn(usize, Outcome) -> Option<Sketch>,
}

const fn family(name: &'static str, sketch: fn(usize, Outcome) -> Option<Sketch>) -> Family {
    Family { name, sketch }
}

pub const FAMILIES: [Family; 20] = [
    family("ladder of 2", |jobs, o| waves::ladder(jobs, 2, o)),
    family("ladder of 3", |jobs, o| waves::ladder(jobs, 3, o)),
    family("ladder of 5", |jobs, o| waves::ladder(jobs, 5, o)),
    family("chain", waves::chain),
    family("diamonds", waves::diamonds),
    family("layers", |jobs, o| waves::layers(jobs, false, o)),
    family("layers, both raised", |jobs, o| {
        waves::layers(jobs, true, o)
    }),
    family("joined chains", waves::joined),
    family("ladder beside a trap", waves::branches),
    family("long job added", waves::added),
    family("raises", raises::jobs_behind),
    family("raises, undecided behind", raises::undecided_behind),
    family("raises, ladder behind", raises::ladder_behind),
    family("alternating", crowds::alternating),
    family("packed", crowds::packed),
    family("undecided behind", strikes::behind),
    family("undecided behind a chain", strikes::behind_chain),
    family("clique", strikes::clique),
    family("star", strikes::star),
    family("hinge", strikes::hinge),
];

/// How the jobs are numbered: with the arcs, against them, or at random.
#[derive(Clone, Copy, PartialEq, Eq)]
enum Numbering {
    Along,
    Against,
    Random,
}

/// One board of a family: the entries that make it, and the last one.
pub struct Case {
    pub outcome: Outcome,
    /// The numbering, and whether time is turned round.
    pub manner: &'static str,
    pub entries: Vec<Entry>,
    pub last: Entry,
}

/// The ways to number a family's jobs, both ways in time.
const MANNERS: [(&str, Numbering, bool); 6] = [
    ("along", Numbering::Along, false),
    ("against", Numbering::Against, false),
    ("random", Numbering::Random, false),
    ("along, mirrored", Numbering::Along, true),
    ("against, mirrored", Numbering::Against, true),
    ("random, mirrored", Numbering::Random, true),
];

impl Family {
    /// The board with so many jobs or a few less, in every manner; none where the family doesn't have this outcome.
    pub fn cases(&self, jobs: usize, outcome: Outcome) -> Vec<Case> {
        let Some(sketch) = (self.sketch)(jobs, outcome) else {
            return Vec::new();
        };
        let case = |&(manner, numbering, mirrored): &(&'static str, Numbering, bool)| {
            let numbers = numbers(sketch.jobs(), numbering, mirrored);
            let (entries, last) = sketch.entries(&numbers, mirrored);
            Case {
                outcome,
                manner,
                entries,
                last,
            }
        };
        MANNERS.iter().map(case).collect()
    }
}

/// The number of each job of a sketch, whose jobs stand in the order of the arcs.
fn numbers(jobs: usize, numbering: Numbering, mirrored: bool) -> Vec<usize> {
    match numbering {
        Numbering::Random => Draws(42).shuffled(jobs),
        _ if (numbering == Numbering::Along) != mirrored => (0..jobs).collect(),
        _ => (0..jobs).rev().collect(),
    }
}
