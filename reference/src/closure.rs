//! The closure: the rules R1 to R6 applied until nothing changes any more
//! (the paper's section "Closure"). The fixed point is the paper's "least closed board".

use crate::board::Board;

/// The paper's "contradiction": no closed board exists.
#[derive(Clone, Copy, Debug, PartialEq, Eq)]
pub struct Contradiction;

/// Propagation to the fixed point. On a contradiction the board is left half
/// way; the caller throws it away.
pub fn close(board: &mut Board) -> Result<(), Contradiction> {
    loop {
        let mut changed = transitive_arcs(board);
        changed |= exclusions(board)?;
        changed |= arcs_by_windows(board);
        changed |= raise_starts(board);
        changed |= lower_ends(board);
        changed |= narrow_windows(board)?;
        if !changed {
            return Ok(());
        }
    }
}

/// R1: arcs a to b and b to c, b valid, a and c live and different, give a to c.
/// Arcs join live jobs only, so a and c need no test of their own.
fn transitive_arcs(board: &mut Board) -> bool {
    let jobs = board.jobs.len();
    let mut changed = false;
    for b in 0..jobs {
        if !board.jobs[b].valid() {
            continue;
        }
        for a in 0..jobs {
            if !board.arcs[a][b] {
                continue;
            }
            for c in 0..jobs {
                if a != c && board.arcs[b][c] && !board.arcs[a][c] {
                    board.arcs[a][c] = true;
                    changed = true;
                }
            }
        }
    }
    changed
}

/// R2: arcs both ways exclude one of the two jobs.
fn exclusions(board: &mut Board) -> Result<bool, Contradiction> {
    let jobs = board.jobs.len();
    let mut changed = false;
    for a in 0..jobs {
        for b in 0..jobs {
            if !(board.arcs[a][b] && board.arcs[b][a] && board.jobs[a].valid()) {
                continue;
            }
            if board.jobs[b].valid() {
                return Err(Contradiction);
            }
            board.make_invalid(b);
            changed = true;
        }
    }
    Ok(changed)
}

/// R3: if b cannot follow a inside their windows, there is an arc b to a.
/// Every ordered pair is tested, also where an arc is known already.
fn arcs_by_windows(board: &mut Board) -> bool {
    let jobs = board.jobs.len();
    let mut changed = false;
    for a in 0..jobs {
        for b in 0..jobs {
            let (first, second) = (&board.jobs[a], &board.jobs[b]);
            if a == b || !first.live() || !second.live() || board.arcs[b][a] {
                continue;
            }
            if first.earliest_start + first.length + second.length > second.latest_end {
                board.arcs[b][a] = true;
                changed = true;
            }
        }
    }
    changed
}

/// R4: the energy bound of the valid predecessors raises the earliest start.
fn raise_starts(board: &mut Board) -> bool {
    let mut changed = false;
    for b in 0..board.jobs.len() {
        if !board.jobs[b].live() {
            continue;
        }
        if let Some(bound) = start_bound(board, b) {
            if bound > board.jobs[b].earliest_start {
                board.jobs[b].earliest_start = bound;
                changed = true;
            }
        }
    }
    changed
}

/// The greatest of R4's bounds for b. It is enough to look at one set for each
/// threshold e among the E's of the valid predecessors: all those with E >= e.
/// A set S with least E e is a part of it, and the larger set has the same
/// least E and no smaller sum of lengths, so its bound is no smaller.
fn start_bound(board: &Board, b: usize) -> Option<i64> {
    let predecessors: Vec<_> = (0..board.jobs.len())
        .filter(|&a| board.arcs[a][b] && board.jobs[a].valid())
        .map(|a| &board.jobs[a])
        .collect();
    let bound_from = |threshold: i64| -> i64 {
        let set = predecessors
            .iter()
            .filter(|job| job.earliest_start >= threshold);
        threshold + set.map(|job| job.length).sum::<i64>()
    };
    predecessors
        .iter()
        .map(|job| bound_from(job.earliest_start))
        .max()
}

/// R5: the energy bound of the valid successors lowers the latest end.
fn lower_ends(board: &mut Board) -> bool {
    let mut changed = false;
    for a in 0..board.jobs.len() {
        if !board.jobs[a].live() {
            continue;
        }
        if let Some(bound) = end_bound(board, a) {
            if bound < board.jobs[a].latest_end {
                board.jobs[a].latest_end = bound;
                changed = true;
            }
        }
    }
    changed
}

/// The least of R5's bounds for a: R4 in the mirror. For each threshold d among
/// the D's of the valid successors, the set of all those with D <= d is enough.
fn end_bound(board: &Board, a: usize) -> Option<i64> {
    let successors: Vec<_> = (0..board.jobs.len())
        .filter(|&b| board.arcs[a][b] && board.jobs[b].valid())
        .map(|b| &board.jobs[b])
        .collect();
    let bound_from = |threshold: i64| -> i64 {
        let set = successors.iter().filter(|job| job.latest_end <= threshold);
        threshold - set.map(|job| job.length).sum::<i64>()
    };
    successors
        .iter()
        .map(|job| bound_from(job.latest_end))
        .min()
}

/// R6: a job that does not fit between its E and D cannot take place.
fn narrow_windows(board: &mut Board) -> Result<bool, Contradiction> {
    let mut changed = false;
    for number in 0..board.jobs.len() {
        let job = &board.jobs[number];
        if !job.live() || job.earliest_start + job.length <= job.latest_end {
            continue;
        }
        if job.valid() {
            return Err(Contradiction);
        }
        board.make_invalid(number);
        changed = true;
    }
    Ok(changed)
}

#[cfg(test)]
mod tests {
    use crate::board::{Board, IMPOSSIBLE};
    use crate::random::Random;

    /// Length, E, D and mark of each job.
    fn board_of(jobs: &[[i64; 4]]) -> Board {
        let mut board = Board::empty();
        for &[length, start, end, mark] in jobs {
            board.add(length, start, end, mark).unwrap();
        }
        board
    }

    #[test]
    fn windows_m3_m4() {
        let mut board = board_of(&[[10_000, 0, 9_999, 0]]);
        let row = board.row(0).unwrap();
        assert_eq!((row.mark, row.earliest_start, row.latest_end), (2, 0, 0));
        assert_eq!(board.jobs[0].length, 0);
        assert_eq!(board.add(10_000, 0, 9_999, 1), Err(IMPOSSIBLE));
        assert_eq!(board.tally, 1);
    }

    #[test]
    fn energy_m5_m6_m7() {
        for (first, second, bound) in [
            ([10, 0, 100, 1], [20, 0, 100, 1], 30),
            ([5, 0, 100, 1], [10, 50, 100, 1], 60),
            ([5, 0, 100, 1], [10, 50, 100, 0], 5),
        ] {
            let mut board = board_of(&[first, second, [5, 0, 100, 1]]);
            board.arc(0, 2).unwrap();
            board.arc(1, 2).unwrap();
            assert_eq!(board.row(2).unwrap().earliest_start, bound);
        }
    }

    #[test]
    fn energy_in_the_mirror() {
        for (first, second, bound) in [
            ([10, 0, 100, 1], [20, 0, 100, 1], 70),
            ([5, 0, 100, 1], [10, 0, 50, 1], 40),
            ([5, 0, 100, 1], [10, 0, 50, 0], 95),
        ] {
            let mut board = board_of(&[first, second, [5, 0, 100, 1]]);
            board.arc(2, 0).unwrap();
            board.arc(2, 1).unwrap();
            assert_eq!(board.row(2).unwrap().latest_end, bound);
        }
    }

    #[test]
    fn arcs_by_windows_m8_m9() {
        let board = board_of(&[[40, 0, 100, 1], [20, 10, 60, 1]]);
        assert_eq!(board.pair(0, 1), Ok((0, -90)));
        let board = board_of(&[[40, 0, 100, 1], [20, 10, 59, 1]]);
        assert_eq!(board.pair(1, 0), Ok((1, -29)));
    }

    #[test]
    fn transitive_arcs_m10_m11() {
        let mut board = board_of(&[[5, 0, 100, 1], [5, 0, 100, 0], [5, 0, 100, 1]]);
        board.arc(0, 1).unwrap();
        board.arc(1, 2).unwrap();
        assert_eq!(board.pair(0, 2).unwrap().0, 0);
        board.mark(1, 1).unwrap();
        assert_eq!(board.pair(0, 2).unwrap().0, 1);
    }

    /// One entry of a random small board: its sort and its numbers.
    fn random_entries(random: &mut Random, jobs: i64) -> Vec<(i64, i64, i64, i64)> {
        (0..12)
            .map(|_| {
                let job = random.between(0, jobs - 1);
                let other = (job + random.between(1, jobs - 1)) % jobs;
                let start = random.between(0, 6);
                let end = start + random.between(3, 20);
                match random.between(0, 5) {
                    0 => (0, job, 1, 0),
                    1 => (1, job, start, end),
                    _ => (2, job, other, 0),
                }
            })
            .collect()
    }

    /// True if every entry was accepted.
    fn enter_all(board: &mut Board, entries: &[(i64, i64, i64, i64)]) -> bool {
        entries.iter().all(|&(sort, job, x, y)| {
            let answer = match sort {
                0 => board.mark(job, x),
                1 => board.cut(job, x, y),
                _ => board.arc(job, x),
            };
            answer.is_ok()
        })
    }

    /// The least closed board belongs to the entries, not to their order.
    #[test]
    fn the_order_of_entries_does_not_matter() {
        let mut random = Random::new(7, 0);
        let mut accepted = 0;
        for _ in 0..2_000 {
            let jobs: Vec<[i64; 4]> = (0..5)
                .map(|_| [random.between(1, 4), 0, random.between(8, 30), 0])
                .collect();
            let mut entries = random_entries(&mut random, 5);
            let mut forward = board_of(&jobs);
            let forward_fits = enter_all(&mut forward, &entries);
            entries.reverse();
            let mut backward = board_of(&jobs);
            let backward_fits = enter_all(&mut backward, &entries);
            assert_eq!(forward_fits, backward_fits);
            if forward_fits {
                assert_eq!(forward, backward);
                accepted += 1;
            }
        }
        assert!(accepted > 200, "only {accepted} boards were accepted");
    }
}
