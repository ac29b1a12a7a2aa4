//! Comparing: the same entries everywhere, and after each the answers and the boards must agree.
use crate::baseline;
use crate::entry::{Enters, Entry};
use crate::families::{Case, Outcome};
use crate::found::Found;
use crate::plain::Plain;
use crate::planner::{self, Plan};
use bayboard::{Board, Dock, Refusal};

/// The tries that are compared on each board.
const BUDGET: u32 = 1000;

/// The board in every implementation.
#[derive(Clone)]
pub struct Boards {
    pub baseline: baseline::Board,
    pub plain: Plain,
    pub dock: Dock,
    pub checking: Board,
}

impl Boards {
    pub fn empty() -> Boards {
        Boards {
            baseline: baseline::Board::empty(),
            plain: Plain::empty(),
            dock: Dock::new(),
            checking: Board::empty(),
        }
    }

    /// One entry everywhere.
    pub fn enter(&mut self, entry: Entry) -> Result<(), Refusal> {
        let answer = self.dock.enter(entry);
        let others = [
            self.baseline.enter(entry),
            self.plain.enter(entry),
            self.checking.enter(entry),
        ];
        assert_eq!(others, [answer; 3], "{entry:?}");
        let board = self.dock.board();
        assert!(
            self.baseline.kept() == *board,
            "the baseline after {entry:?}"
        );
        assert!(
            self.plain.kept() == *board,
            "the plain board after {entry:?}"
        );
        assert!(
            self.checking == *board,
            "the board with check 0 after {entry:?}"
        );
        answer
    }

    /// A plan of the board, by every planner.
    pub fn plan(&self, budget: u32) -> Plan {
        let plan = planner::plan(&self.baseline, budget);
        let others = [self.dock.plan(budget), self.checking.plan(budget)];
        assert_eq!(
            others.map(|p| p.map(Plan::from)),
            [Ok(plan); 2],
            "the plans"
        );
        plan
    }
}

/// All entries of a load, and plans of what they come to.
pub fn compare(entries: &[Entry]) {
    let mut boards = Boards::empty();
    for &entry in entries {
        let _ = boards.enter(entry);
    }
    boards.plan(BUDGET);
}

/// All entries before a last one, which must be accepted, a plan of them, and then the last one. Gives the boards before and after it, and its answer.
fn prepared(entries: &[Entry], last: Entry) -> ([Boards; 2], Result<(), Refusal>) {
    let mut boards = Boards::empty();
    for &entry in entries {
        boards.enter(entry).expect("only the last entry is refused");
    }
    boards.plan(BUDGET);
    let before = boards.clone();
    let answer = boards.enter(last);
    ([before, boards], answer)
}

/// All entries of a case; the last one must have the outcome that the family promises. Gives the boards before the last entry.
pub fn prepare(case: &Case) -> Boards {
    let ([before, after], answer) = prepared(&case.entries, case.last);
    let inferences = after.plain.inferences();
    let met = match case.outcome {
        Outcome::Accepted => answer.is_ok(),
        Outcome::RefusedLate => answer.is_err() && inferences >= before.plain.kept().jobs / 2,
        Outcome::RefusedAtOnce => answer.is_err() && inferences == 0,
    };
    assert!(
        met,
        "{}: {answer:?} after {inferences} inferences",
        case.outcome
    );
    before
}

/// The same of a board that was found; its last entry must be accepted or refused as the name says.
pub fn prepare_found(found: &Found) -> Boards {
    let ([before, _], answer) = prepared(&found.entries, found.last);
    let outcome = if answer.is_ok() {
        "accepted"
    } else {
        "refused"
    };
    assert_eq!(outcome, found.outcome, "{}", found.name);
    before
}
