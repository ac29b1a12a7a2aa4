//! A board that can be changed step by step: jobs, arcs, and the last entry, which is the one that is timed. Marks and cuts before
//! the last entry are part of the jobs, since a board doesn't tell how it was entered.
use crate::baseline::{Board, JOBS};
use crate::entry::{Enters, Entry};
use crate::families::Case;
use bayboard::Mark;
use std::fmt;

/// The times that an entry may have, on either side of 0.
pub const LIMIT: i32 = 500_000;

/// The longest job.
pub const LONGEST: i32 = 10_000;

/// A job that is added.
#[derive(Clone, Copy)]
pub struct Job {
    pub length: i32,
    pub earliest: i32,
    pub latest: i32,
    pub mark: Mark,
}

impl Job {
    /// The nearest job that no limit forbids.
    pub fn within_limits(self) -> Job {
        let earliest = self.earliest.clamp(-LIMIT, LIMIT);
        Job {
            length: self.length.clamp(1, LONGEST),
            earliest,
            latest: self.latest.clamp(earliest, LIMIT),
            mark: self.mark,
        }
    }

    pub fn entry(self) -> Entry {
        Entry::Addition {
            length: self.length,
            earliest: self.earliest,
            latest: self.latest,
            mark: self.mark,
        }
    }
}

#[derive(Clone)]
pub struct Draft {
    pub jobs: Vec<Job>,
    /// From the first to the second, none of them twice.
    pub arcs: Vec<[usize; 2]>,
    pub last: Entry,
}

impl Draft {
    /// The board of a family.
    pub fn of(case: &Case) -> Draft {
        let mut draft = Draft {
            jobs: Vec::new(),
            arcs: Vec::new(),
            last: case.last,
        };
        for &entry in &case.entries {
            draft.take(entry);
        }
        draft
    }

    fn take(&mut self, entry: Entry) {
        match entry {
            Entry::Addition {
                length,
                earliest,
                latest,
                mark,
            } => self.jobs.push(Job {
                length,
                earliest,
                latest,
                mark,
            }),
            Entry::Arc { from, to } => self.arc(from, to),
            Entry::Mark { job, mark } => self.jobs[job].mark = mark,
            Entry::Cut {
                job,
                earliest,
                latest,
            } => {
                let job = &mut self.jobs[job];
                job.earliest = job.earliest.max(earliest);
                job.latest = job.latest.min(latest);
            }
        }
    }

    /// Are there as many jobs as the board holds, with the one that the last entry may add?
    pub fn is_full(&self) -> bool {
        let added = matches!(self.last, Entry::Addition { .. });
        self.jobs.len() + usize::from(added) >= JOBS
    }

    pub fn arc(&mut self, from: usize, to: usize) {
        if from != to && !self.arcs.contains(&[from, to]) {
            self.arcs.push([from, to]);
        }
    }

    /// All entries but the last one.
    pub fn entries(&self) -> impl Iterator<Item = Entry> + '_ {
        let arcs = self.arcs.iter();
        let arcs = arcs.map(|&[from, to]| Entry::Arc { from, to });
        self.jobs.iter().map(|job| job.entry()).chain(arcs)
    }

    /// Job k gets the number `numbers[k]`.
    pub fn renumber(&mut self, numbers: &[usize]) {
        let jobs = self.jobs.clone();
        for (job, &number) in jobs.into_iter().zip(numbers) {
            self.jobs[number] = job;
        }
        for arc in &mut self.arcs {
            *arc = arc.map(|job| numbers[job]);
        }
        self.last = self.last.renumbered(numbers);
    }

    /// Takes out a job. A last entry about it is handed to another one.
    pub fn remove(&mut self, job: usize) {
        let end = self.jobs.len() - 1;
        let closed_up = |other: usize| match other {
            _ if other == job => end,
            _ if other > job => other - 1,
            _ => other,
        };
        self.renumber(&(0..=end).map(closed_up).collect::<Vec<_>>());
        self.jobs.pop();
        self.arcs.retain(|arc| !arc.contains(&end));
        self.last = match self.last {
            Entry::Arc { from, to } if from.max(to) == end => {
                let other = from.min(to);
                let next = (other + 1) % end;
                if from == end {
                    Entry::Arc {
                        from: next,
                        to: other,
                    }
                } else {
                    Entry::Arc {
                        from: other,
                        to: next,
                    }
                }
            }
            other => {
                let numbers: Vec<usize> = (0..=end).map(|job| job.min(end - 1)).collect();
                other.renumbered(&numbers)
            }
        };
    }

    /// Turns time round.
    pub fn mirror(&mut self) {
        for job in &mut self.jobs {
            (job.earliest, job.latest) = (-job.latest, -job.earliest);
        }
        for arc in &mut self.arcs {
            arc.reverse();
        }
        self.last = self.last.mirrored();
    }

    /// Leaves out what is refused when one entry after the other is made: a job isn't valid then, and an arc isn't there.
    pub fn settle(&mut self) {
        let mut board = Board::empty();
        for job in &mut self.jobs {
            if board.enter(job.entry()).is_err() {
                job.mark = Mark::Undecided;
                let _ = board.enter(job.entry());
            }
        }
        self.arcs
            .retain(|&[from, to]| board.enter(Entry::Arc { from, to }).is_ok());
    }
}

/// As the text program reads it.
impl fmt::Display for Draft {
    fn fmt(&self, f: &mut fmt::Formatter<'_>) -> fmt::Result {
        for entry in self.entries().chain([self.last]) {
            writeln!(f, "{entry}")?;
        }
        Ok(())
    }
}
