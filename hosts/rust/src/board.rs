//! The board as plain data: each call on it includes check 0.
use crate::answers::{self, number};
use crate::version::assert_library;
use crate::{ffi, Mark, Pair, Plan, Refusal, Row};

/// A board, laid out as the library has it. Place k below `jobs` is job k; a place without a job holds 0 in everything. Bit k
/// of `after[i]` is the arc from i to k, and bit i of `before[k]` is the same arc. Whoever writes it by hand gets
/// [`Refusal::Board`] from every call unless the board passes check 0.
///
/// A board by hand starts from [`Board::empty`] or [`Board::from_bytes`], since boards may get further fields.
#[repr(C)]
#[non_exhaustive]
#[derive(Clone, Copy, Debug, PartialEq, Eq, Hash)]
pub struct Board {
    pub jobs: usize,
    pub lengths: [i32; Board::JOBS],
    pub earliest: [i32; Board::JOBS],
    pub latest: [i32; Board::JOBS],
    pub marks: [u8; Board::JOBS],
    pub after: [u64; Board::JOBS],
    pub before: [u64; Board::JOBS],
    pub books: Books,
}

/// What a board keeps beside its jobs and their arcs: nothing that follows from an entry alters it.
#[repr(C)]
#[non_exhaustive]
#[derive(Clone, Copy, Debug, PartialEq, Eq, Hash)]
pub struct Books {
    /// Of entries refused as impossible, up to [`Board::TALLY`].
    pub tally: u32,
}

/// The limits.
impl Board {
    /// "A board holds at most 64 jobs"
    pub const JOBS: usize = 64;

    /// The least length of a job, in minutes.
    pub const SHORTEST: i32 = 1;

    /// The greatest length of a job, in minutes.
    pub const LONGEST: i32 = 10_000;

    /// The first time that E and D may be.
    pub const FIRST_MINUTE: i32 = -500_000;

    /// The last time that E and D may be.
    pub const LAST_MINUTE: i32 = 500_000;

    /// Where the tally stops.
    pub const TALLY: u32 = 1_000_000;

    /// The greatest budget of a plan; the least is 0.
    pub const BUDGET: u32 = 1_000_000;
}

/// The calls that the paper names: four entries, and three that look and alter nothing. Times are minutes, and jobs go by the
/// numbers that their additions gave. Each may be refused as [`Refusal::Board`] too.
impl Board {
    /// A board without jobs whose tally starts at 0.
    ///
    /// # Panics
    /// Where the library isn't one for this package: [`library_matches`](crate::library_matches).
    #[must_use]
    pub fn empty() -> Board {
        assert_library();
        ffi::bayboard_empty()
    }

    /// Does the board pass check 0: is it within its limits, and closed over what it shows?
    #[must_use]
    pub fn passes(&self) -> bool {
        ffi::bayboard_passes(self)
    }

    /// Adds a job of `length` minutes in the window from `earliest` to `latest`; gives the job's number.
    ///
    /// # Errors
    /// `Full`, `Length`, `Time`, `Window`, `Mark` for [`Mark::Invalid`], `Impossible`.
    pub fn addition(
        &mut self,
        length: i32,
        earliest: i32,
        latest: i32,
        mark: Mark,
    ) -> Result<usize, Refusal> {
        answers::added(ffi::bayboard_addition(
            self,
            length,
            earliest,
            latest,
            mark as i32,
        ))
    }

    /// `from` ends no later than `to` starts, if both take place.
    ///
    /// # Errors
    /// `Job`, `Same`, `Impossible`.
    pub fn arc(&mut self, from: usize, to: usize) -> Result<(), Refusal> {
        answers::accepted(ffi::bayboard_arc(self, number(from), number(to)))
    }

    /// Marks a job valid or invalid.
    ///
    /// # Errors
    /// `Job`, `Mark` for [`Mark::Undecided`], `Impossible`.
    pub fn mark(&mut self, job: usize, mark: Mark) -> Result<(), Refusal> {
        answers::accepted(ffi::bayboard_mark(self, number(job), mark as i32))
    }

    /// Narrows a job's window: the later E and the earlier D hold.
    ///
    /// # Errors
    /// `Job`, `Time`, `Window`, `Impossible`.
    pub fn cut(&mut self, job: usize, earliest: i32, latest: i32) -> Result<(), Refusal> {
        answers::accepted(ffi::bayboard_cut(self, number(job), earliest, latest))
    }

    /// A job's mark, E, D, and the sets before and after it.
    ///
    /// # Errors
    /// `Job`.
    pub fn row(&self, job: usize) -> Result<Row, Refusal> {
        answers::row(ffi::bayboard_row(self, number(job)))
    }

    /// The arcs between two jobs and their gap.
    ///
    /// # Errors
    /// `Job`, `Same`.
    pub fn pair(&self, a: usize, b: usize) -> Result<Pair, Refusal> {
        answers::pair(ffi::bayboard_pair(self, number(a), number(b)))
    }

    /// Plans all valid jobs with at most `budget` tries.
    ///
    /// # Errors
    /// `Budget`.
    pub fn plan(&self, budget: u32) -> Result<Plan, Refusal> {
        answers::plan(ffi::bayboard_plan(self, number(budget)))
    }
}

impl Default for Board {
    fn default() -> Board {
        Board::empty()
    }
}
