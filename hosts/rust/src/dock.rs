//! A board that passes check 0, kept so that it goes on passing: the calls on it are the library's unchecked ones.
use crate::answers::{self, number};
use crate::{ffi, Board, Mark, Pair, Plan, Refusal, Row};

/// A board that passes check 0. A dock is new, or made of a board by `Dock::try_from`, which refuses one that doesn't pass as
/// [`Refusal::Board`].
#[derive(Clone, Debug, PartialEq, Eq, Hash)]
pub struct Dock {
    // It passes check 0. It starts as the empty board (theorem `empty_board_passes`) or as one that `bayboard_passes` accepted; only the
    // calls below write it, and what a call leaves of a board that passes, refused or not, passes too (theorem `left_passes`):
    // crates/call_exports/specs/LeftPasses.antt.
    board: Board,
}

impl Dock {
    /// A dock with the empty board.
    ///
    /// # Panics
    /// As [`Board::empty`].
    #[must_use]
    pub fn new() -> Dock {
        Dock {
            board: Board::empty(),
        }
    }

    /// The board, to be read or copied.
    #[must_use]
    pub fn board(&self) -> &Board {
        &self.board
    }
}

/// The calls, with the answers that [`Board`] has, but for [`Refusal::Board`], which none of them gives.
// SAFETY, in each call: the dock's board passes check 0, which is all that the library asks of it.
impl Dock {
    /// Adds a job of `length` minutes in the window from `earliest` to `latest`; gives the job's number.
    ///
    /// # Errors
    /// As [`Board::addition`].
    pub fn addition(
        &mut self,
        length: i32,
        earliest: i32,
        latest: i32,
        mark: Mark,
    ) -> Result<usize, Refusal> {
        answers::added(unsafe {
            ffi::bayboard_unchecked_addition(&mut self.board, length, earliest, latest, mark as i32)
        })
    }

    /// `from` ends no later than `to` starts, if both take place.
    ///
    /// # Errors
    /// As [`Board::arc`].
    pub fn arc(&mut self, from: usize, to: usize) -> Result<(), Refusal> {
        answers::accepted(unsafe {
            ffi::bayboard_unchecked_arc(&mut self.board, number(from), number(to))
        })
    }

    /// Marks a job valid or invalid.
    ///
    /// # Errors
    /// As [`Board::mark`].
    pub fn mark(&mut self, job: usize, mark: Mark) -> Result<(), Refusal> {
        answers::accepted(unsafe {
            ffi::bayboard_unchecked_mark(&mut self.board, number(job), mark as i32)
        })
    }

    /// Narrows a job's window: the later E and the earlier D hold.
    ///
    /// # Errors
    /// As [`Board::cut`].
    pub fn cut(&mut self, job: usize, earliest: i32, latest: i32) -> Result<(), Refusal> {
        answers::accepted(unsafe {
            ffi::bayboard_unchecked_cut(&mut self.board, number(job), earliest, latest)
        })
    }

    /// A job's mark, E, D, and the sets before and after it.
    ///
    /// # Errors
    /// As [`Board::row`].
    pub fn row(&self, job: usize) -> Result<Row, Refusal> {
        answers::row(unsafe { ffi::bayboard_unchecked_row(&self.board, number(job)) })
    }

    /// The arcs between two jobs and their gap.
    ///
    /// # Errors
    /// As [`Board::pair`].
    pub fn pair(&self, a: usize, b: usize) -> Result<Pair, Refusal> {
        answers::pair(unsafe { ffi::bayboard_unchecked_pair(&self.board, number(a), number(b)) })
    }

    /// Plans all valid jobs with at most `budget` tries.
    ///
    /// # Errors
    /// As [`Board::plan`].
    pub fn plan(&self, budget: u32) -> Result<Plan, Refusal> {
        answers::plan(unsafe { ffi::bayboard_unchecked_plan(&self.board, number(budget)) })
    }
}

impl Default for Dock {
    fn default() -> Dock {
        Dock::new()
    }
}

/// By check 0.
impl TryFrom<Board> for Dock {
    type Error = Refusal;

    fn try_from(board: Board) -> Result<Dock, Refusal> {
        if board.passes() {
            Ok(Dock { board })
        } else {
            Err(Refusal::Board)
        }
    }
}

impl From<Dock> for Board {
    fn from(dock: Dock) -> Board {
        dock.board
    }
}
