//! Climbing: a start is changed step by step, and what is slower is kept, or what is nearly as slow, so that it can go round a dead
//! end. Climbs without an improvement for long give way to new starts.
use super::catch::{Catch, Worst, CLASSES};
use super::chance::Chance;
use super::draft::Draft;
use super::trial::{Goal, Ground, Trial};
use super::{lasts, starts, steps};
use crate::loaded::Library;
use std::time::{Duration, Instant};

/// So much of the best score of a climb is enough to go on from.
const NEAR: f64 = 0.97;

/// What counts as an improvement, since noise may look like a little one.
const BETTER: f64 = 1.01;

/// The drafts of which the slowest is the start of a climb.
const STARTS: usize = 6;

pub struct Hunter {
    library: &'static Library,
    goal: Goal,
    chance: Chance,
    start: Instant,
    time: Duration,
    worst: Worst,
    /// Drafts with their scores: the families.
    families: Vec<(f64, Draft)>,
    /// The ends of the climbs.
    ends: Vec<(f64, Draft)>,
    trials: u64,
}

impl Hunter {
    pub fn new(library: &'static Library, goal: Goal, time: Duration, seed: u64) -> Hunter {
        Hunter {
            library,
            goal,
            chance: Chance(seed),
            start: Instant::now(),
            time,
            worst: Worst::new(goal),
            families: Vec::new(),
            ends: Vec::new(),
            trials: 0,
        }
    }

    /// Climbs until the time is up: every other climb keeps to one class. Gives the worst of each class.
    pub fn hunt(mut self) -> Worst {
        self.survey();
        let mut climbs = 0;
        while !self.is_over() {
            let class = (climbs % 2 == 1).then_some(climbs / 2 % CLASSES);
            if let Some(start) = self.best_start(class) {
                let end = self.climb(start, class);
                self.ends.push(end);
            }
            climbs += 1;
        }
        eprintln!("{climbs} climbs, {} trials", self.trials);
        self.worst
    }

    fn is_over(&self) -> bool {
        self.start.elapsed() >= self.time
    }

    /// Tries the families.
    fn survey(&mut self) {
        for draft in starts::families() {
            let Some(ground) = Ground::of(self.library, &draft) else {
                continue;
            };
            let mut next = self.tried(draft, ground);
            next.trial.reaches(self.goal, 0.0);
            self.keep(&mut next);
            self.families
                .push((next.trial.score(self.goal), next.draft));
            if self.is_over() {
                return;
            }
        }
    }

    /// A draft to start from or to join: a random one, or the higher one of two or more that have been tried.
    fn draft(&mut self) -> Draft {
        let (tried, count) = match self.chance.below(3) {
            0 => (&self.ends, 2),
            1 => (&self.families, 8),
            _ => return starts::random(&mut self.chance),
        };
        if tried.is_empty() {
            return starts::random(&mut self.chance);
        }
        let places = (0..count).map(|_| self.chance.below(tried.len()));
        let best = places.max_by(|&a, &b| tried[a].0.total_cmp(&tried[b].0));
        tried[best.unwrap_or(0)].1.clone()
    }

    /// The slowest of a few drafts, each with the slowest of many last entries.
    fn best_start(&mut self, class: Option<usize>) -> Option<Catch> {
        let mut best: Option<Catch> = None;
        for _ in 0..STARTS {
            let mut draft = self.draft();
            if self.chance.one_in(3) {
                draft = steps::joined(&draft, &self.draft(), &mut self.chance);
            }
            best = match class {
                Some(class) => self.near_slowest(draft, class, best),
                None => self.slowest_last(draft, class, best),
            };
            if self.is_over() {
                break;
            }
        }
        best
    }

    /// The slowest of a class after one step from the slowest of all: late refusals are found near slow entries that are accepted, and hardly
    /// ever from those that are refused at once.
    fn near_slowest(
        &mut self,
        draft: Draft,
        class: usize,
        mut best: Option<Catch>,
    ) -> Option<Catch> {
        const NEAR_BY: usize = 200;
        let Some(slowest) = self.slowest_last(draft.clone(), None, None) else {
            return best;
        };
        best = self.slowest_last(draft, Some(class), best);
        for _ in 0..NEAR_BY {
            let Some(mut next) = self.step(&slowest, Some(class)) else {
                continue;
            };
            let wanted = best.as_ref().map_or(0.0, |b| b.trial.score(self.goal));
            if next.class() == class && next.trial.reaches(self.goal, wanted) {
                best = Some(next);
            }
        }
        best
    }

    /// The draft with the slowest of many last entries, if it is slower than what there is.
    fn slowest_last(
        &mut self,
        draft: Draft,
        class: Option<usize>,
        mut best: Option<Catch>,
    ) -> Option<Catch> {
        let Some(ground) = Ground::of(self.library, &draft) else {
            return best;
        };
        let mut entries = lasts::about_all(&draft, &ground.board, &mut self.chance);
        entries.push(draft.last);
        for last in entries {
            let draft = Draft {
                last,
                ..draft.clone()
            };
            let mut next = self.tried(draft, ground.clone());
            let wanted = best.as_ref().map_or(0.0, |b| b.trial.score(self.goal));
            let fits = class.is_none_or(|class| class == next.class());
            if fits && next.trial.reaches(self.goal, wanted) {
                best = Some(next);
            }
        }
        best
    }

    /// One trial. A difference between the library and the baseline ends the hunt.
    fn tried(&mut self, draft: Draft, ground: Ground) -> Catch {
        self.trials += 1;
        let Some(trial) = Trial::of(&ground, draft.last) else {
            println!("The library differs from the baseline in the last entry of:\n\n{draft}");
            std::process::exit(1);
        };
        Catch {
            draft,
            ground,
            trial,
        }
    }

    /// Climbs from a start. Gives the slowest draft it came to, and its score.
    fn climb(&mut self, start: Catch, class: Option<usize>) -> (f64, Draft) {
        let mut best = start;
        let mut now = best.clone();
        let (mut idle, mut since) = (0, Instant::now());
        self.keep(&mut best);
        while idle < self.patience(&best) && since.elapsed() < self.time / 10 && !self.is_over() {
            idle += 1;
            if idle % 100 == 0 {
                best.trial.again(self.goal);
            }
            let Some(mut next) = self.step(&now, class) else {
                continue;
            };
            let score = best.trial.score(self.goal);
            let fits = class.is_none_or(|class| class == next.class());
            if !fits || !next.trial.reaches(self.goal, NEAR * score) {
                continue;
            }
            if next.trial.score(self.goal) > score && next.trial.beats(&mut best.trial, self.goal) {
                if next.trial.score(self.goal) > BETTER * best.trial.score(self.goal) {
                    (idle, since) = (0, Instant::now());
                }
                self.keep(&mut next);
                best = next.clone();
            }
            now = next;
        }
        (best.trial.score(self.goal), best.draft)
    }

    /// How many steps without an improvement end a climb: fewer where it is far from the worst of its class.
    fn patience(&self, best: &Catch) -> usize {
        if best.trial.score(self.goal) < self.worst.score(best.class()) / 2.0 {
            400
        } else {
            2000
        }
    }

    /// A draft near this one; none where it can't be met.
    fn step(&mut self, now: &Catch, class: Option<usize>) -> Option<Catch> {
        let draft = match self.chance.below(200) {
            0 => {
                let other = self.draft();
                steps::joined(&now.draft, &other, &mut self.chance)
            }
            1 => return self.slowest_last(now.draft.clone(), class, None),
            _ => {
                let boards = [&now.ground.board, &now.trial.after];
                steps::changed(&now.draft, boards, &mut self.chance)
            }
        };
        let ground = Ground::of(self.library, &draft)?;
        Some(self.tried(draft, ground))
    }

    fn keep(&mut self, next: &mut Catch) {
        if self.worst.keep(next) {
            let seconds = self.start.elapsed().as_secs_f64();
            eprintln!("{seconds:.1} s: {:.1}", next.trial.score(self.goal));
        }
    }
}
