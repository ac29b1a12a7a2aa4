//! The planner's tries on the baseline's board, by recursion: a placing goes on from the longer list, and a return takes it back.
use crate::baseline::{Board, JOBS};
use crate::words::{bit, Members};

#[derive(Clone, Copy, Debug, PartialEq, Eq)]
enum Ending {
    Found,
    None,
    Spent,
}

struct Planner<'a> {
    board: &'a Board,
    starts: [i32; JOBS],
    /// The tries that are left of the budget.
    left: u32,
}

impl Planner<'_> {
    /// "it tries valid unplaced jobs in ascending number", where the job placed before ends at `end`.
    fn go_on(&mut self, unplaced: u64, end: i32) -> Ending {
        if unplaced == 0 {
            return Ending::Found;
        }
        for job in Members(unplaced) {
            if self.left == 0 {
                return Ending::Spent;
            }
            self.left -= 1;
            let start = self.board.earliest[job].max(end);
            let end = start + self.board.length[job];
            if self.board.before[job] & unplaced != 0 || end > self.board.latest[job] {
                continue;
            }
            self.starts[job] = start;
            let ending = self.go_on(unplaced & !bit(job), end);
            if !matches!(ending, Ending::None) {
                return ending;
            }
        }
        Ending::None
    }
}

/// A plan, with no placed jobs and no starts unless it is found.
#[derive(Clone, Copy, Debug, PartialEq, Eq)]
pub struct Plan {
    ending: Ending,
    pub tries: u32,
    placed: u64,
    starts: [i32; JOBS],
}

impl Plan {
    fn unplaced(ending: Ending, tries: u32) -> Plan {
        Plan {
            ending,
            tries,
            placed: 0,
            starts: [0; JOBS],
        }
    }
}

/// The library's plan; where it is spent, the tries are the budget.
impl From<bayboard::Plan> for Plan {
    fn from(plan: bayboard::Plan) -> Plan {
        match plan {
            bayboard::Plan::Found {
                tries,
                placed,
                starts,
                ..
            } => Plan {
                ending: Ending::Found,
                tries,
                placed,
                starts,
            },
            bayboard::Plan::None { tries } => Plan::unplaced(Ending::None, tries),
            bayboard::Plan::Spent { budget } => Plan::unplaced(Ending::Spent, budget),
        }
    }
}

/// The plan of all valid jobs with at most `budget` tries.
pub fn plan(board: &Board, budget: u32) -> Plan {
    let mut planner = Planner {
        board,
        starts: [0; JOBS],
        left: budget,
    };
    let ending = planner.go_on(board.valid, i32::MIN);
    let tries = budget - planner.left;
    match ending {
        Ending::Found => Plan {
            ending,
            tries,
            placed: board.valid,
            starts: planner.starts,
        },
        Ending::None | Ending::Spent => Plan::unplaced(ending, tries),
    }
}
