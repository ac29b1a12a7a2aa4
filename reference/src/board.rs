//! The board of one dock: its jobs, their windows and marks, the arcs, the tally
//! (the paper's sections "Entries and schedules" and "Looking at the board"),
//! with the checks of its section "Refusals by the gate".

use crate::closure::{close, Contradiction};

pub const MOST_JOBS: usize = 64;
pub const MOST_LENGTH: i64 = 10_000;
pub const TIME_LIMIT: i64 = 500_000;
pub const MOST_TALLY: i64 = 1_000_000;

/// A refusal carries its number of the paper's table and nothing else.
#[derive(Clone, Copy, Debug, PartialEq, Eq)]
pub struct Refusal(pub u8);

pub const FULL: Refusal = Refusal(1);
pub const JOB: Refusal = Refusal(2);
pub const SAME: Refusal = Refusal(3);
pub const LENGTH: Refusal = Refusal(4);
pub const TIME: Refusal = Refusal(5);
pub const WINDOW: Refusal = Refusal(6);
pub const MARK: Refusal = Refusal(7);
pub const IMPOSSIBLE: Refusal = Refusal(8);
pub const BUDGET: Refusal = Refusal(9);
pub const FORM: Refusal = Refusal(10);
pub const LOAD: Refusal = Refusal(11);

#[derive(Clone, Copy, Debug, PartialEq, Eq)]
pub enum Mark {
    Undecided,
    Valid,
    Invalid,
}

impl Mark {
    pub fn number(self) -> i64 {
        match self {
            Mark::Undecided => 0,
            Mark::Valid => 1,
            Mark::Invalid => 2,
        }
    }
}

#[derive(Clone, Debug, PartialEq, Eq)]
pub struct Job {
    pub length: i64,
    pub earliest_start: i64,
    pub latest_end: i64,
    pub mark: Mark,
}

impl Job {
    pub fn live(&self) -> bool {
        self.mark != Mark::Invalid
    }

    pub fn valid(&self) -> bool {
        self.mark == Mark::Valid
    }
}

/// What "row" shows of a job.
#[derive(Debug, PartialEq, Eq)]
pub struct Row {
    pub mark: i64,
    pub earliest_start: i64,
    pub latest_end: i64,
    pub before: u64,
    pub after: u64,
}

#[derive(Clone, Debug, PartialEq, Eq)]
pub struct Board {
    pub jobs: Vec<Job>,
    /// `arcs[a][b]` says that there is an arc from a to b.
    pub arcs: Vec<Vec<bool>>,
    pub tally: i64,
}

impl Board {
    pub fn empty() -> Board {
        Board {
            jobs: Vec::new(),
            arcs: Vec::new(),
            tally: 0,
        }
    }

    /// Addition. Its checks are 1, 4, 5, 6, 7 and 8, in this order.
    pub fn add(&mut self, length: i64, start: i64, end: i64, mark: i64) -> Result<usize, Refusal> {
        if self.jobs.len() >= MOST_JOBS {
            return Err(FULL);
        }
        if !(1..=MOST_LENGTH).contains(&length) {
            return Err(LENGTH);
        }
        check_window(start, end)?;
        let mark = match mark {
            0 => Mark::Undecided,
            1 => Mark::Valid,
            _ => return Err(MARK),
        };
        let number = self.jobs.len();
        self.enter(|draft| {
            draft.append(Job {
                length,
                earliest_start: start,
                latest_end: end,
                mark,
            });
            Ok(())
        })?;
        Ok(number)
    }

    /// Arc from a to b. Its checks are 2, 3 and 8.
    pub fn arc(&mut self, a: i64, b: i64) -> Result<(), Refusal> {
        let (a, b) = self.two_jobs(a, b)?;
        self.enter(|draft| {
            // An arc of an invalid job is accepted without effect.
            if draft.jobs[a].live() && draft.jobs[b].live() {
                draft.arcs[a][b] = true;
            }
            Ok(())
        })
    }

    /// Mark of a job. Its checks are 2, 7 and 8.
    pub fn mark(&mut self, job: i64, mark: i64) -> Result<(), Refusal> {
        let job = self.job_number(job)?;
        let wanted = match mark {
            1 => Mark::Valid,
            2 => Mark::Invalid,
            _ => return Err(MARK),
        };
        self.enter(|draft| match (draft.jobs[job].mark, wanted) {
            (Mark::Undecided, Mark::Valid) => {
                draft.jobs[job].mark = Mark::Valid;
                Ok(())
            }
            (Mark::Undecided, _) => {
                draft.make_invalid(job);
                Ok(())
            }
            // To repeat a mark is accepted, to turn it round is a contradiction.
            (shown, wanted) if shown == wanted => Ok(()),
            _ => Err(Contradiction),
        })
    }

    /// Cut of a job with a window. Its checks are 2, 5, 6 and 8.
    pub fn cut(&mut self, job: i64, start: i64, end: i64) -> Result<(), Refusal> {
        let job = self.job_number(job)?;
        check_window(start, end)?;
        self.enter(|draft| {
            let job = &mut draft.jobs[job];
            // A cut of an invalid job is accepted without effect.
            if job.live() {
                job.earliest_start = job.earliest_start.max(start);
                job.latest_end = job.latest_end.min(end);
            }
            Ok(())
        })
    }

    /// Row of a job. Its only check is 2.
    pub fn row(&self, job: i64) -> Result<Row, Refusal> {
        let number = self.job_number(job)?;
        let job = &self.jobs[number];
        let others = 0..self.jobs.len();
        Ok(Row {
            mark: job.mark.number(),
            earliest_start: job.earliest_start,
            latest_end: job.latest_end,
            before: set_word(others.clone().filter(|&k| self.arcs[k][number])),
            after: set_word(others.filter(|&k| self.arcs[number][k])),
        })
    }

    /// Pair of two jobs and the gap between them. Its checks are 2 and 3.
    pub fn pair(&self, a: i64, b: i64) -> Result<(i64, i64), Refusal> {
        let (a, b) = self.two_jobs(a, b)?;
        if !self.jobs[a].live() || !self.jobs[b].live() {
            return Ok((0, 0));
        }
        let pair = match (self.arcs[a][b], self.arcs[b][a]) {
            (false, false) => 0,
            (true, false) => 1,
            (false, true) => 2,
            (true, true) => 3,
        };
        let gap = self.jobs[b].earliest_start - self.jobs[a].latest_end;
        Ok((pair, gap))
    }

    /// An invalid job holds length 0, E 0, D 0 and no arcs.
    pub fn make_invalid(&mut self, job: usize) {
        self.jobs[job] = Job {
            length: 0,
            earliest_start: 0,
            latest_end: 0,
            mark: Mark::Invalid,
        };
        for other in 0..self.jobs.len() {
            self.arcs[job][other] = false;
            self.arcs[other][job] = false;
        }
    }

    /// The entry and its closure are made on a draft, so that a refused entry
    /// leaves nothing behind but the tally.
    fn enter(
        &mut self,
        entry: impl FnOnce(&mut Board) -> Result<(), Contradiction>,
    ) -> Result<(), Refusal> {
        let mut draft = self.clone();
        match entry(&mut draft).and_then(|()| close(&mut draft)) {
            Ok(()) => {
                *self = draft;
                Ok(())
            }
            Err(Contradiction) => {
                self.tally = (self.tally + 1).min(MOST_TALLY);
                Err(IMPOSSIBLE)
            }
        }
    }

    fn append(&mut self, job: Job) {
        self.jobs.push(job);
        for row in &mut self.arcs {
            row.push(false);
        }
        self.arcs.push(vec![false; self.jobs.len()]);
    }

    fn job_number(&self, job: i64) -> Result<usize, Refusal> {
        match usize::try_from(job) {
            Ok(number) if number < self.jobs.len() => Ok(number),
            _ => Err(JOB),
        }
    }

    /// Both numbers are looked up before they are compared: 2 comes before 3.
    fn two_jobs(&self, a: i64, b: i64) -> Result<(usize, usize), Refusal> {
        let a = self.job_number(a)?;
        let b = self.job_number(b)?;
        if a == b {
            return Err(SAME);
        }
        Ok((a, b))
    }
}

/// Both times are held against the limits before they are compared: 5 comes before 6.
fn check_window(start: i64, end: i64) -> Result<(), Refusal> {
    let times = -TIME_LIMIT..=TIME_LIMIT;
    if !times.contains(&start) || !times.contains(&end) {
        return Err(TIME);
    }
    if start > end {
        return Err(WINDOW);
    }
    Ok(())
}

/// The set as one word: job k counts two to the power of k.
fn set_word(jobs: impl Iterator<Item = usize>) -> u64 {
    jobs.map(|k| 2u64.pow(k as u32)).sum()
}

#[cfg(test)]
mod tests {
    use super::*;

    fn two_free_jobs() -> Board {
        let mut board = Board::empty();
        board.add(5, 0, 100, 0).unwrap();
        board.add(5, 0, 100, 0).unwrap();
        board
    }

    #[test]
    fn length_limits_m1_m2() {
        let mut board = Board::empty();
        assert_eq!(board.add(0, 0, 100, 1), Err(LENGTH));
        assert_eq!(board.add(10_001, 0, 100_000, 1), Err(LENGTH));
        assert_eq!(board.add(10_000, 0, 10_000, 1), Ok(0));
        assert_eq!(board.add(1, 20_000, 20_001, 1), Ok(1));
    }

    #[test]
    fn checks_of_an_addition_go_in_order() {
        let mut board = Board::empty();
        assert_eq!(board.add(0, -500_001, 0, 2), Err(LENGTH));
        assert_eq!(board.add(1, 500_001, 0, 2), Err(TIME));
        assert_eq!(board.add(1, 1, 0, 2), Err(WINDOW));
        assert_eq!(board.add(1, 0, 0, 2), Err(MARK));
        assert_eq!(board.add(1, 0, 0, 1), Err(IMPOSSIBLE));
        assert_eq!(board.tally, 1);
        for _ in 0..64 {
            board.add(1, 0, 10, 0).unwrap();
        }
        assert_eq!(board.add(0, 500_001, 0, 2), Err(FULL));
        assert_eq!(board.tally, 1);
    }

    #[test]
    fn job_numbers_come_before_the_rest() {
        let mut board = two_free_jobs();
        assert_eq!(board.arc(2, 2), Err(JOB));
        assert_eq!(board.arc(-1, 0), Err(JOB));
        assert_eq!(board.arc(1, 1), Err(SAME));
        assert_eq!(board.mark(2, 3), Err(JOB));
        assert_eq!(board.mark(1, 0), Err(MARK));
        assert_eq!(board.cut(2, 500_001, 0), Err(JOB));
        assert_eq!(board.pair(0, 2), Err(JOB));
        assert_eq!(board.pair(0, 0), Err(SAME));
        assert_eq!(board.row(2), Err(JOB));
    }

    #[test]
    fn both_ways_m12() {
        let mut board = two_free_jobs();
        board.arc(0, 1).unwrap();
        board.arc(1, 0).unwrap();
        assert_eq!(board.pair(0, 1), Ok((3, -100)));
        board.mark(1, 1).unwrap();
        assert_eq!(board.row(0).unwrap().mark, 2);
        assert_eq!(board.pair(0, 1), Ok((0, 0)));
    }

    #[test]
    fn an_invalid_job_takes_arcs_and_cuts_without_effect() {
        let mut board = two_free_jobs();
        board.mark(0, 2).unwrap();
        let before = board.clone();
        board.arc(0, 1).unwrap();
        board.cut(0, 10, 20).unwrap();
        board.mark(0, 2).unwrap();
        assert_eq!(board, before);
        assert_eq!(board.cut(0, 500_001, 20), Err(TIME));
        assert_eq!(board.cut(0, 21, 20), Err(WINDOW));
        assert_eq!(board.mark(0, 1), Err(IMPOSSIBLE));
    }

    #[test]
    fn a_refusal_leaves_the_board_and_counts() {
        let mut board = Board::empty();
        board.add(30, 0, 100, 1).unwrap();
        board.add(30, 0, 100, 1).unwrap();
        board.arc(0, 1).unwrap();
        let before = board.clone();
        assert_eq!(board.cut(0, 50, 100), Err(IMPOSSIBLE));
        assert_eq!((&board.jobs, &board.arcs), (&before.jobs, &before.arcs));
        assert_eq!(board.tally, 1);
        board.tally = MOST_TALLY;
        assert_eq!(board.arc(1, 0), Err(IMPOSSIBLE));
        assert_eq!(board.tally, MOST_TALLY);
    }

    #[test]
    fn the_word_of_a_set_reaches_bit_63() {
        assert_eq!(set_word([0, 63].into_iter()), 9_223_372_036_854_775_809);
        assert_eq!(set_word(0..64), u64::MAX);
    }
}
