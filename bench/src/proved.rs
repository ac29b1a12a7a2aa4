//! The proved library under the same entries, with check 0 in every call and without.
use crate::entry::{Enters, Entry};
use bayboard::{Board, Calls, Dock, Refusal};

/// One entry through the library's calls.
#[inline(always)]
fn enter(calls: &mut impl Calls, entry: Entry) -> Result<(), Refusal> {
    match entry {
        Entry::Addition {
            length,
            earliest,
            latest,
            mark,
        } => calls.addition(length, earliest, latest, mark).map(|_| ()),
        Entry::Arc { from, to } => calls.arc(from, to),
        Entry::Mark { job, mark } => calls.mark(job, mark),
        Entry::Cut {
            job,
            earliest,
            latest,
        } => calls.cut(job, earliest, latest),
    }
}

/// On a checked board.
impl Enters for Dock {
    #[inline(always)]
    fn enter(&mut self, entry: Entry) -> Result<(), Refusal> {
        enter(self, entry)
    }

    fn kept(&self) -> Board {
        *self.board()
    }
}

/// With check 0 in every call.
impl Enters for Board {
    #[inline(always)]
    fn enter(&mut self, entry: Entry) -> Result<(), Refusal> {
        enter(self, entry)
    }

    fn kept(&self) -> Board {
        *self
    }
}
