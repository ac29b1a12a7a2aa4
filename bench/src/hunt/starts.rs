//! Boards to start from: random ones of several styles, and those of the families in every manner.
use super::chance::Chance;
use super::draft::{Draft, Job, LIMIT};
use crate::baseline::Board;
use crate::entry::Entry;
use crate::families::{FAMILIES, OUTCOMES};
use crate::SIZES;
use bayboard::Mark;

/// The boards of all families, in every outcome, size and manner.
pub fn families() -> impl Iterator<Item = Draft> {
    let sizes = FAMILIES
        .iter()
        .flat_map(|family| SIZES.map(|jobs| (family, jobs)));
    let cases = sizes.flat_map(|(family, jobs)| {
        OUTCOMES
            .into_iter()
            .flat_map(move |outcome| family.cases(jobs, outcome))
    });
    cases.map(|case| Draft::of(&case))
}

/// A random board, its style random too.
pub fn random(chance: &mut Chance) -> Draft {
    // Half of the boards are as large as they can be, with one more job to add.
    let count = if chance.one_in(2) {
        63
    } else {
        8 + chance.below(56)
    };
    let mut draft = Draft {
        jobs: jobs(count, chance),
        arcs: Vec::new(),
        last: Entry::Mark {
            job: 0,
            mark: Mark::Valid,
        },
    };
    arcs(&mut draft, chance);
    draft.settle();
    let board = Board::together(draft.entries()).unwrap_or_else(Board::empty);
    if board.jobs == draft.jobs.len() {
        draft.last = super::lasts::random(&draft, &board, chance);
    }
    draft
}

/// Jobs in wide or tight windows of a short or long day, all or most of them valid, or half of them undecided.
fn jobs(count: usize, chance: &mut Chance) -> Vec<Job> {
    let longest = chance.minutes(200);
    let day = longest * count as i32 * chance.between(1, 4);
    let width = chance.of(&[LIMIT, day, day / 4, longest, longest / 4]);
    let undecided = chance.of(&[0, 1, 4, 8]);
    let job = |_| {
        let shortest = longest / chance.of(&[1, 2, 200]);
        let length = chance.between(shortest.max(1), longest);
        let earliest = if width < day {
            chance.between(0, day)
        } else {
            0
        };
        let is_undecided = (chance.below(16) as i32) < undecided;
        Job {
            length,
            earliest,
            latest: earliest + length + chance.between(width / 2, width),
            mark: if is_undecided {
                Mark::Undecided
            } else {
                Mark::Valid
            },
        }
        .within_limits()
    };
    (0..count).map(job).collect()
}

/// Arcs along a random order, few or many, near or far; in levels; both ways; or anywhere.
fn arcs(draft: &mut Draft, chance: &mut Chance) {
    let count = draft.jobs.len();
    let order = chance.shuffled(count);
    let (style, reach) = (chance.below(6), 1 + chance.below(6));
    let arcs = chance.of(&[count / 2, count, 2 * count, 4 * count]);
    match style {
        0 => {}
        1 => {
            for place in reach..count {
                let level = place / reach * reach;
                for before in level - reach..level {
                    draft.arc(order[before], order[place]);
                }
            }
        }
        _ => {
            for _ in 0..arcs {
                let first = chance.below(count);
                let far = if style == 2 { count } else { reach };
                let second = (first + 1 + chance.below(far)) % count;
                let (first, second) = (first.min(second), first.max(second));
                draft.arc(order[first], order[second]);
                if style == 3 || style == 4 && chance.one_in(8) {
                    draft.arc(order[second], order[first]);
                }
            }
        }
    }
}
