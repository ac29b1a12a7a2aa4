//! A board in the making: its jobs in the order of the arcs, what is entered of them, and one last entry. The numbering and
//! the direction in time are put on afterwards.
use super::Outcome;
use crate::entry::Entry;
use bayboard::Mark;

/// So late that nothing meets it.
pub const FAR: i32 = 400_000;

/// The latest time there is.
const LIMIT: i32 = 500_000;

/// The minutes of a job, where nothing depends on them.
pub const LENGTH: i32 = 10;

/// The jobs of a trap.
const TRAP: usize = 3;

pub struct Sketch {
    outcome: Outcome,
    jobs: Vec<Entry>,
    rest: Vec<Entry>,
    last: Option<Entry>,
}

impl Sketch {
    pub fn new(outcome: Outcome) -> Sketch {
        Sketch {
            outcome,
            jobs: Vec::new(),
            rest: Vec::new(),
            last: None,
        }
    }

    /// How many of the jobs are left beside a trap, which only a late refusal has.
    pub fn room(&self, jobs: usize) -> usize {
        if self.outcome == Outcome::RefusedLate {
            jobs.saturating_sub(TRAP)
        } else {
            jobs
        }
    }

    fn add(&mut self, length: i32, earliest: i32, latest: i32, mark: Mark) -> usize {
        self.jobs.push(Entry::Addition {
            length,
            earliest,
            latest,
            mark,
        });
        self.jobs.len() - 1
    }

    pub fn valid(&mut self, length: i32, earliest: i32, latest: i32) -> usize {
        self.add(length, earliest, latest, Mark::Valid)
    }

    pub fn undecided(&mut self, length: i32, earliest: i32, latest: i32) -> usize {
        self.add(length, earliest, latest, Mark::Undecided)
    }

    pub fn arc(&mut self, from: usize, to: usize) {
        self.rest.push(Entry::Arc { from, to });
    }

    /// Every one of the first jobs before every one of the others.
    pub fn arcs(&mut self, first: &[usize], others: &[usize]) {
        for &from in first {
            for &to in others {
                self.arc(from, to);
            }
        }
    }

    pub fn exclude(&mut self, a: usize, b: usize) {
        self.arc(a, b);
        self.arc(b, a);
    }

    pub fn mark(&mut self, job: usize) {
        let mark = Mark::Valid;
        self.rest.push(Entry::Mark { job, mark });
    }

    /// Valid jobs, so many to a level, each level before the next one. Gives the levels.
    pub fn levels(
        &mut self,
        count: usize,
        width: usize,
        length: i32,
        latest: i32,
    ) -> Vec<Vec<usize>> {
        let jobs: Vec<usize> = (0..count).map(|_| self.valid(length, 0, latest)).collect();
        let levels: Vec<Vec<usize>> = jobs.chunks(width).map(<[usize]>::to_vec).collect();
        for pair in levels.windows(2) {
            self.arcs(&pair[0], &pair[1]);
        }
        levels
    }

    /// Where the outcome is a late refusal, two jobs behind these ones, and a fixed job that they can come before until the last
    /// entry makes them start at `start` or later. After the fixed job there is room for one of them and not for two: each by
    /// itself still fits, so that R5 can't tell the jobs before them, and the contradiction shows only where both have moved.
    pub fn trap(&mut self, behind: &[usize], start: i32) {
        if self.outcome != Outcome::RefusedLate {
            return;
        }
        let fixed = start + LENGTH - 1;
        let end = fixed + 5 * LENGTH;
        let caught = [0; 2].map(|_| self.valid(LENGTH, 0, end + 2 * LENGTH - 1));
        self.arcs(behind, &caught);
        self.valid(end - fixed, fixed, end);
    }

    /// The last entry raises a job's E; where it is to be refused at once, past the job's own window.
    pub fn last_raise(&mut self, job: usize, earliest: i32) {
        let past = self.outcome == Outcome::RefusedAtOnce;
        self.last = Some(Entry::Cut {
            job,
            earliest: if past { FAR + 1 } else { earliest },
            latest: LIMIT,
        });
    }

    pub fn last_mark(&mut self, job: usize) {
        let mark = Mark::Valid;
        self.last = Some(Entry::Mark { job, mark });
    }

    pub fn last_arc(&mut self, from: usize, to: usize) {
        self.last = Some(Entry::Arc { from, to });
    }

    pub fn last_addition(&mut self, length: i32, earliest: i32, latest: i32) {
        self.last = Some(Entry::Addition {
            length,
            earliest,
            latest,
            mark: Mark::Valid,
        });
    }

    /// The number of jobs.
    pub fn jobs(&self) -> usize {
        self.jobs.len()
    }

    /// All entries but the last, and the last, with the job in place k of the sketch under the number `numbers[k]`; with time
    /// turned round where they are mirrored.
    pub fn entries(&self, numbers: &[usize], mirrored: bool) -> (Vec<Entry>, Entry) {
        let made = |entry: &Entry| {
            let turned = if mirrored { entry.mirrored() } else { *entry };
            turned.renumbered(numbers)
        };
        let mut places: Vec<usize> = (0..self.jobs.len()).collect();
        places.sort_by_key(|&place| numbers[place]);
        let jobs = places.iter().map(|&place| &self.jobs[place]);
        let last = self.last.as_ref().expect("a sketch ends with an entry");
        (jobs.chain(&self.rest).map(made).collect(), made(last))
    }
}
