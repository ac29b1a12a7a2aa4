//! The rules as the paper has them, one after the other over all jobs or pairs until nothing changes: a second witness beside the
//! baseline, written from the paper alone and plainly, with arcs as words.
use crate::entry::{Enters, Entry};
use crate::words::{bit, Members};
use bayboard::{Board, Mark, Refusal};

#[derive(Clone)]
pub struct Plain {
    board: Board,
    /// What the rules have inferred from the last entry, until they were done or met a contradiction.
    inferences: usize,
}

struct Contradiction;

const VALID: u8 = Mark::Valid as u8;
const INVALID: u8 = Mark::Invalid as u8;

/// The greatest of the least start + the sum of lengths, over all sets of jobs with a start and a length. Of the sets with one least
/// start, that of all jobs that start then or later has the greatest sum. Without jobs, long ago.
fn greatest_end(jobs: &[(i32, i32)]) -> i32 {
    let sum_from = |least: i32| -> i32 {
        let later = jobs.iter().filter(|&&(start, _)| start >= least);
        later.map(|&(_, length)| length).sum()
    };
    let ends = jobs.iter().map(|&(start, _)| start + sum_from(start));
    ends.max().unwrap_or(-1_000_000)
}

impl Plain {
    pub fn empty() -> Plain {
        Plain {
            board: Board::empty(),
            inferences: 0,
        }
    }

    pub fn inferences(&self) -> usize {
        self.inferences
    }

    fn set_of(&self, holds: impl Fn(u8) -> bool) -> u64 {
        let marks = &self.board.marks[..self.board.jobs];
        let bits = marks.iter().enumerate();
        bits.map(|(job, &mark)| u64::from(holds(mark)) << job).sum()
    }

    fn live(&self) -> u64 {
        self.set_of(|mark| mark != INVALID)
    }

    fn valid(&self) -> u64 {
        self.set_of(|mark| mark == VALID)
    }

    /// "An invalid job holds length 0, E 0, D 0 and no arcs"
    fn strike(&mut self, job: usize) -> Result<(), Contradiction> {
        let board = &mut self.board;
        if board.marks[job] == VALID {
            return Err(Contradiction);
        }
        board.marks[job] = INVALID;
        board.lengths[job] = 0;
        board.earliest[job] = 0;
        board.latest[job] = 0;
        board.after[job] = 0;
        board.before[job] = 0;
        for other in 0..board.jobs {
            board.after[other] &= !bit(job);
            board.before[other] &= !bit(job);
        }
        self.inferences += 1;
        Ok(())
    }

    /// Arcs from a job to all of a set.
    fn link(&mut self, from: usize, to: u64) {
        self.board.after[from] |= to;
        for other in Members(to) {
            self.board.before[other] |= bit(from);
        }
        self.inferences += to.count_ones() as usize;
    }

    /// Rule after rule until none infers anything. Those that may end it come first.
    fn close(&mut self) -> Result<(), Contradiction> {
        loop {
            let before = self.inferences;
            self.fit()?;
            self.exclude()?;
            self.order();
            self.join();
            self.raise();
            self.lower();
            if self.inferences == before {
                return Ok(());
            }
        }
    }

    /// R1: arcs A to B and B to C, B valid, give A to C.
    fn join(&mut self) {
        for b in Members(self.valid()) {
            for a in Members(self.board.before[b]) {
                let missing = self.board.after[b] & !self.board.after[a] & !bit(a);
                self.link(a, missing);
            }
        }
    }

    /// R2: arcs both ways at a valid job make the other one invalid.
    fn exclude(&mut self) -> Result<(), Contradiction> {
        for a in Members(self.valid()) {
            for b in Members(self.board.after[a] & self.board.before[a]) {
                self.strike(b)?;
            }
        }
        Ok(())
    }

    /// R3: if E of A + length of A + length of B > D of B, there is an arc B to A.
    fn order(&mut self) {
        let live = self.live();
        for a in Members(live) {
            for b in Members(live & !bit(a) & !self.board.before[a]) {
                let end = self.board.earliest[a] + self.board.lengths[a];
                if end + self.board.lengths[b] > self.board.latest[b] {
                    self.link(b, bit(a));
                }
            }
        }
    }

    /// R4: E of B is at least the least E in S + the sum of lengths in S, for each set S of valid jobs before B.
    fn raise(&mut self) {
        let valid = self.valid();
        for b in Members(self.live()) {
            let board = &self.board;
            let before = Members(board.before[b] & valid);
            let jobs = before.map(|job| (board.earliest[job], board.lengths[job]));
            let bound = greatest_end(&jobs.collect::<Vec<_>>());
            if bound > self.board.earliest[b] {
                self.board.earliest[b] = bound;
                self.inferences += 1;
            }
        }
    }

    /// R5: D of A is at most the greatest D in S - the sum of lengths in S, which is R4 with time turned round.
    fn lower(&mut self) {
        let valid = self.valid();
        for a in Members(self.live()) {
            let board = &self.board;
            let after = Members(board.after[a] & valid);
            let jobs = after.map(|job| (-board.latest[job], board.lengths[job]));
            let bound = greatest_end(&jobs.collect::<Vec<_>>());
            if -bound < self.board.latest[a] {
                self.board.latest[a] = -bound;
                self.inferences += 1;
            }
        }
    }

    /// R6: a job that doesn't fit its window becomes invalid.
    fn fit(&mut self) -> Result<(), Contradiction> {
        for job in Members(self.live()) {
            if self.board.earliest[job] + self.board.lengths[job] > self.board.latest[job] {
                self.strike(job)?;
            }
        }
        Ok(())
    }

    /// Puts the entry on the board. Arcs and cuts of an invalid job have no effect.
    fn show(&mut self, entry: Entry) -> Result<(), Contradiction> {
        let live = self.live();
        let board = &mut self.board;
        match entry {
            Entry::Addition {
                length,
                earliest,
                latest,
                mark,
            } => {
                board.lengths[board.jobs] = length;
                board.earliest[board.jobs] = earliest;
                board.latest[board.jobs] = latest;
                board.marks[board.jobs] = mark as u8;
                board.jobs += 1;
            }
            Entry::Arc { from, to } if live >> from & live >> to & 1 == 1 => {
                self.link(from, bit(to))
            }
            Entry::Cut {
                job,
                earliest,
                latest,
            } if live >> job & 1 == 1 => {
                board.earliest[job] = board.earliest[job].max(earliest);
                board.latest[job] = board.latest[job].min(latest);
            }
            Entry::Arc { .. } | Entry::Cut { .. } => {}
            Entry::Mark { job, mark } => return self.mark(job, mark as u8),
        }
        Ok(())
    }

    /// "Marking an invalid job valid, or a valid one invalid, is a contradiction too"
    fn mark(&mut self, job: usize, mark: u8) -> Result<(), Contradiction> {
        if mark == INVALID {
            return self.strike(job);
        }
        if self.board.marks[job] == INVALID {
            return Err(Contradiction);
        }
        self.board.marks[job] = VALID;
        Ok(())
    }
}

impl Enters for Plain {
    /// An entry whose lengths, times and marks are all right; a job may be missing, where its addition was refused.
    fn enter(&mut self, entry: Entry) -> Result<(), Refusal> {
        let named = match entry {
            Entry::Addition { .. } => 0,
            Entry::Arc { from, to } => from.max(to) + 1,
            Entry::Mark { job, .. } | Entry::Cut { job, .. } => job + 1,
        };
        if named > self.board.jobs {
            return Err(Refusal::Job);
        }
        let saved = self.board;
        let shown = self.show(entry);
        self.inferences = 0;
        if shown.and_then(|()| self.close()).is_err() {
            self.board = saved;
            let books = &mut self.board.books;
            books.tally = (books.tally + 1).min(1_000_000);
            return Err(Refusal::Impossible);
        }
        Ok(())
    }

    fn kept(&self) -> Board {
        self.board
    }
}
