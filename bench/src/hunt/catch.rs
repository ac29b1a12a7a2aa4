//! What was caught: drafts with their trials, and the worst of each class, which is a kind of entry with its outcome.
use super::draft::Draft;
use super::trial::{Goal, Ground, Trial};
use crate::entry::KINDS;

/// The kinds of a last entry, each accepted or refused.
pub const CLASSES: usize = 2 * KINDS.len();

/// A draft that was tried.
#[derive(Clone)]
pub struct Catch {
    pub draft: Draft,
    pub ground: Ground,
    pub trial: Trial,
}

impl Catch {
    pub fn class(&self) -> usize {
        2 * self.draft.last.kind() + usize::from(self.trial.accepted)
    }

    /// The last entry's kind, and its outcome.
    pub fn name(&self) -> [&'static str; 2] {
        let outcome = ["refused", "accepted"][usize::from(self.trial.accepted)];
        [KINDS[self.draft.last.kind()], outcome]
    }
}

/// The worst of each class.
pub struct Worst {
    goal: Goal,
    classes: [Option<Catch>; CLASSES],
}

impl Worst {
    pub fn new(goal: Goal) -> Worst {
        Worst {
            goal,
            classes: [const { None }; CLASSES],
        }
    }

    /// The score of a class's worst, 0 where there is none.
    pub fn score(&self, class: usize) -> f64 {
        let catch = self.classes[class].as_ref();
        catch.map_or(0.0, |catch| catch.trial.score(self.goal))
    }

    /// Keeps a catch that is the worst of its class. Says whether it is the worst of all.
    pub fn keep(&mut self, next: &mut Catch) -> bool {
        let scores = (0..CLASSES).map(|class| self.score(class));
        let above_all = next.trial.score(self.goal) > scores.fold(0.0, f64::max);
        let class = next.class();
        if next.trial.score(self.goal) <= self.score(class) {
            return false;
        }
        let held = &mut self.classes[class];
        let is_worse = match held {
            Some(held) => next.trial.beats(&mut held.trial, self.goal),
            None => true,
        };
        if is_worse {
            *held = Some(next.clone());
        }
        is_worse && above_all
    }

    pub fn all(self) -> impl Iterator<Item = Catch> {
        self.classes.into_iter().flatten()
    }
}
