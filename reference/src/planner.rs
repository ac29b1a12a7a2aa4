//! The planner: a plain search with taking back (the paper's section "Planner").

use crate::board::{Board, Refusal, BUDGET};

pub const MOST_BUDGET: i64 = 1_000_000;

#[derive(Debug, PartialEq, Eq)]
pub enum Ending {
    /// The placed jobs with their starts, in ascending job number.
    Found(Vec<(usize, i64)>),
    None,
    Spent,
}

#[derive(Debug, PartialEq, Eq)]
pub struct Plan {
    /// The paper's T, or the budget where it is spent.
    pub tries: i64,
    pub ending: Ending,
}

/// The search with its budget. Its only check is 9.
pub fn plan(board: &Board, budget: i64) -> Result<Plan, Refusal> {
    if !(0..=MOST_BUDGET).contains(&budget) {
        return Err(BUDGET);
    }
    let valid = board.jobs.iter().filter(|job| job.valid()).count();
    let mut placed: Vec<(usize, i64)> = Vec::new();
    let mut next = 0;
    let mut tries = 0;
    let ending = loop {
        if placed.len() == valid {
            placed.sort();
            break Ending::Found(placed);
        }
        match next_unplaced(board, &placed, next) {
            // One more try would be needed than the budget allows.
            Some(_) if tries == budget => break Ending::Spent,
            Some(job) => {
                tries += 1;
                match fitting_start(board, &placed, job) {
                    Some(start) => {
                        placed.push((job, start));
                        next = 0;
                    }
                    None => next = job + 1,
                }
            }
            // All have been tried on this list: take back the last placing and
            // go on with the number after it.
            None => match placed.pop() {
                Some((job, _)) => next = job + 1,
                None => break Ending::None,
            },
        }
    };
    Ok(Plan { tries, ending })
}

/// The lowest valid job not placed yet whose number is `from` or more.
fn next_unplaced(board: &Board, placed: &[(usize, i64)], from: usize) -> Option<usize> {
    (from..board.jobs.len()).find(|&job| board.jobs[job].valid() && !is_placed(placed, job))
}

/// The start of a job after those placed, if the try places it.
fn fitting_start(board: &Board, placed: &[(usize, i64)], job: usize) -> Option<i64> {
    let predecessors_placed = (0..board.jobs.len())
        .filter(|&other| board.jobs[other].valid() && board.arcs[other][job])
        .all(|other| is_placed(placed, other));
    let tried = &board.jobs[job];
    let start = match placed.last() {
        Some(&(last, start)) => tried.earliest_start.max(start + board.jobs[last].length),
        None => tried.earliest_start,
    };
    let fits = start + tried.length <= tried.latest_end;
    (predecessors_placed && fits).then_some(start)
}

fn is_placed(placed: &[(usize, i64)], job: usize) -> bool {
    placed.iter().any(|&(other, _)| other == job)
}

#[cfg(test)]
mod tests {
    use super::*;

    fn tries_and_ending(board: &Board, budget: i64) -> (i64, Ending) {
        let plan = plan(board, budget).unwrap();
        (plan.tries, plan.ending)
    }

    #[test]
    fn without_valid_jobs_it_finds_at_once() {
        let mut board = Board::empty();
        assert_eq!(tries_and_ending(&board, 0), (0, Ending::Found(vec![])));
        board.add(5, 0, 100, 0).unwrap();
        assert_eq!(tries_and_ending(&board, 9), (0, Ending::Found(vec![])));
    }

    #[test]
    fn the_budget_has_limits() {
        let board = Board::empty();
        assert_eq!(plan(&board, -1), Err(BUDGET));
        assert_eq!(plan(&board, 1_000_001), Err(BUDGET));
        assert!(plan(&board, 1_000_000).is_ok());
    }

    /// Job 0 may come last only, so the search tries it first each time.
    #[test]
    fn tries_are_counted_with_those_that_fail() {
        let mut board = Board::empty();
        board.add(10, 0, 100, 1).unwrap();
        board.add(10, 0, 100, 1).unwrap();
        board.arc(1, 0).unwrap();
        // Tried: 0 (fails), 1, 0.
        let found = Ending::Found(vec![(0, 10), (1, 0)]);
        assert_eq!(tries_and_ending(&board, 3), (3, found));
        assert_eq!(tries_and_ending(&board, 2), (2, Ending::Spent));
        assert_eq!(tries_and_ending(&board, 0), (0, Ending::Spent));
    }

    /// Three jobs in a window for two: no pair shows it, only the search does.
    #[test]
    fn none_after_all_orders() {
        let mut board = Board::empty();
        for _ in 0..3 {
            board.add(10, 0, 29, 1).unwrap();
        }
        // Each of three first jobs: 1 try, then two second jobs with 1 try
        // each, then the third that fails: 3 * (1 + 2 * (1 + 1)).
        assert_eq!(tries_and_ending(&board, 15), (15, Ending::None));
        assert_eq!(tries_and_ending(&board, 14), (14, Ending::Spent));
    }

    #[test]
    fn a_placing_is_taken_back() {
        let mut board = Board::empty();
        board.add(10, 5, 100, 1).unwrap();
        board.add(10, 0, 26, 1).unwrap();
        board.add(10, 0, 27, 1).unwrap();
        let plan = plan(&board, 1000).unwrap();
        assert_eq!(plan.ending, Ending::Found(vec![(0, 20), (1, 0), (2, 10)]));
        assert!(plan.tries > 3);
    }
}
