//! One trial of a draft: the library's board and answer are compared with the baseline's, and the last entry is timed. Each figure is the
//! least of its runs, since other work on the machine only ever lengthens one.
use super::draft::Draft;
use crate::baseline;
use crate::entry::{Enters, Entry};
use crate::loaded::{Library, Loaded};
use crate::measure::{timed_long, Work};
use crate::works::Last;

/// What is hunted for: the longest time, or the greatest ratio to the baseline's.
#[derive(Clone, Copy, PartialEq, Eq)]
pub enum Goal {
    Time,
    Ratio,
}

impl Goal {
    /// The score of an entry, from its microseconds by the library and by the baseline.
    pub fn score(self, library: f64, baseline: f64) -> f64 {
        match self {
            Goal::Time => library,
            Goal::Ratio if library <= FLOOR => 0.0,
            Goal::Ratio => library / baseline,
        }
    }
}

/// An entry that takes no more microseconds than these has no ratio: the call itself is most of it.
const FLOOR: f64 = 0.3;

/// The runs that show whether an entry is worth more of them, and those that tell.
const RUNS: usize = 5;
const AGAIN: usize = 15;

/// The board before the last entry.
#[derive(Clone)]
pub struct Ground {
    pub board: baseline::Board,
    loaded: Loaded,
}

impl Ground {
    /// None where the draft can't be met.
    pub fn of(library: &'static Library, draft: &Draft) -> Option<Ground> {
        let board = baseline::Board::together(draft.entries())?;
        let loaded = Loaded::on(library, board.kept());
        Some(Ground { board, loaded })
    }
}

/// A last entry under the clock.
#[derive(Clone)]
pub struct Trial {
    pub accepted: bool,
    /// The board after it.
    pub after: baseline::Board,
    library: Last<Loaded>,
    baseline: Last<baseline::Board>,
    least: [f64; 2],
}

impl Trial {
    /// None where the library differs from the baseline.
    pub fn of(ground: &Ground, last: Entry) -> Option<Trial> {
        let (mut loaded, mut board) = (ground.loaded.clone(), ground.board.clone());
        let mut answers = [Ok(()); 2];
        let first = [
            timed_long(|| answers[0] = loaded.enter(last)),
            timed_long(|| answers[1] = board.enter(last)),
        ];
        if answers[0] != answers[1] || loaded.kept() != board.kept() {
            return None;
        }
        Some(Trial {
            accepted: answers[0].is_ok(),
            after: board,
            library: Last::known(ground.loaded.clone(), last, first[0]),
            baseline: Last::known(ground.board.clone(), last, first[1]),
            least: first,
        })
    }

    /// One more run of what the goal is about.
    pub fn run(&mut self, goal: Goal) {
        self.least[0] = self.least[0].min(self.library.run());
        if goal == Goal::Ratio {
            self.least[1] = self.least[1].min(self.baseline.run());
        }
    }

    pub fn score(&self, goal: Goal) -> f64 {
        goal.score(self.least[0], self.least[1])
    }

    /// A few runs, which end as soon as one shows that the score isn't above the one that is wanted. The first of all, which was
    /// also compared, is too unsure of short times for a ratio.
    pub fn reaches(&mut self, goal: Goal, wanted: f64) -> bool {
        if goal == Goal::Time && self.least[0] <= wanted {
            return false;
        }
        self.least = [f64::INFINITY; 2];
        (0..RUNS).all(|_| {
            self.run(goal);
            self.score(goal) > wanted
        })
    }

    /// The score by new runs.
    pub fn again(&mut self, goal: Goal) {
        self.least = [f64::INFINITY; 2];
        (0..AGAIN).for_each(|_| self.run(goal));
    }

    /// Is this one above the other? Both are run in turn, so that a slow time of the machine doesn't decide.
    pub fn beats(&mut self, other: &mut Trial, goal: Goal) -> bool {
        self.least = [f64::INFINITY; 2];
        other.least = [f64::INFINITY; 2];
        for _ in 0..AGAIN {
            self.run(goal);
            other.run(goal);
        }
        self.score(goal) > other.score(goal)
    }
}
