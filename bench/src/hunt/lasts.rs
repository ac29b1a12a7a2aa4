//! Last entries of a board: a random one, one a little different from another, and a few for each job.
use super::chance::Chance;
use super::draft::{Draft, Job, LIMIT};
use crate::baseline::Board;
use crate::entry::Entry;
use bayboard::Mark;

/// Any entry of a draft that comes to this board.
pub fn random(draft: &Draft, board: &Board, chance: &mut Chance) -> Entry {
    let job = chance.below(draft.jobs.len());
    match chance.below(6) {
        0 if draft.jobs.len() < 64 => addition(draft, board, job, chance),
        1 => arc(board, job, chance),
        2 => mark(job, chance),
        _ => cut(board, job, chance),
    }
}

/// A few entries about each job.
pub fn about_all(draft: &Draft, board: &Board, chance: &mut Chance) -> Vec<Entry> {
    let mut entries = Vec::new();
    for job in 0..draft.jobs.len() {
        entries.extend([0; 3].map(|_| cut(board, job, chance)));
        entries.extend([0; 2].map(|_| arc(board, job, chance)));
        entries.extend([Mark::Valid, Mark::Invalid].map(|mark| Entry::Mark { job, mark }));
        if draft.jobs.len() < 64 {
            entries.push(addition(draft, board, job, chance));
        }
    }
    entries
}

/// An entry that differs in one thing.
pub fn nudged(draft: &Draft, chance: &mut Chance) -> Entry {
    let other = chance.below(draft.jobs.len());
    match draft.last {
        Entry::Addition {
            length,
            earliest,
            latest,
            mark,
        } => nudged_addition(length, earliest, latest, mark, chance),
        Entry::Arc { from, to } => match chance.below(3) {
            0 if other != to => Entry::Arc { from: other, to },
            1 if other != from => Entry::Arc { from, to: other },
            _ => Entry::Arc { from: to, to: from },
        },
        Entry::Mark { mark, .. } => Entry::Mark { job: other, mark },
        Entry::Cut {
            job,
            earliest,
            latest,
        } => nudged_cut(job, earliest, latest, other, chance),
    }
}

fn nudged_addition(
    length: i32,
    earliest: i32,
    latest: i32,
    mark: Mark,
    chance: &mut Chance,
) -> Entry {
    let mut job = Job {
        length,
        earliest,
        latest,
        mark,
    };
    match chance.below(5) {
        0 => job.length += chance.shift(length),
        1 => job.earliest += chance.shift(5000),
        2 => job.latest += chance.shift(5000),
        3 => {
            let shift = chance.shift(5000);
            job.earliest += shift;
            job.latest += shift;
        }
        _ => job.mark = chance.of(&[Mark::Valid, Mark::Undecided]),
    }
    job.within_limits().entry()
}

fn nudged_cut(job: usize, earliest: i32, latest: i32, other: usize, chance: &mut Chance) -> Entry {
    let (job, earliest, latest) = match chance.below(4) {
        0 => (other, earliest, latest),
        1 => (job, earliest + chance.shift(5000), latest),
        2 => (job, earliest, latest + chance.shift(5000)),
        _ => (job, -latest, -earliest),
    };
    window_cut(job, earliest, latest)
}

fn window_cut(job: usize, earliest: i32, latest: i32) -> Entry {
    let earliest = earliest.clamp(-LIMIT, LIMIT);
    Entry::Cut {
        job,
        earliest,
        latest: latest.clamp(earliest, LIMIT),
    }
}

/// Raises E or lowers D within the window, or just past what the job needs.
fn cut(board: &Board, job: usize, chance: &mut Chance) -> Entry {
    let (earliest, latest) = (board.earliest[job], board.latest[job]);
    let room = (latest - earliest - board.length[job]).max(0);
    let by = match chance.below(4) {
        0 => room + 1,
        1 => room,
        2 => chance.between(0, room),
        _ => chance.minutes(room),
    };
    match chance.below(5) {
        0 | 1 => window_cut(job, earliest + by, LIMIT),
        2 | 3 => window_cut(job, -LIMIT, latest - by),
        _ => window_cut(job, earliest + by / 2, latest - (by - by / 2)),
    }
}

/// To or from a job to which there is no arc yet, if there is any.
fn arc(board: &Board, job: usize, chance: &mut Chance) -> Entry {
    let known = board.after[job] | board.before[job];
    let others = chance.shuffled(board.jobs);
    let free = others
        .iter()
        .find(|&&other| other != job && known >> other & 1 == 0);
    let other = free.copied().unwrap_or((job + 1) % board.jobs);
    let (from, to) = chance.of(&[(job, other), (other, job)]);
    Entry::Arc { from, to }
}

fn mark(job: usize, chance: &mut Chance) -> Entry {
    let mark = chance.of(&[Mark::Valid, Mark::Valid, Mark::Invalid]);
    Entry::Mark { job, mark }
}

/// A job like another one, or one that is as long as its window.
fn addition(draft: &Draft, board: &Board, job: usize, chance: &mut Chance) -> Entry {
    let like = draft.jobs[job];
    let earliest = board.earliest[job] + chance.of(&[0, 0, 1, -1]) * chance.minutes(100);
    let added = match chance.below(3) {
        0 => like,
        1 => Job {
            earliest,
            latest: earliest + like.length,
            mark: Mark::Valid,
            ..like
        },
        _ => {
            let length = chance.minutes(5000);
            Job {
                length,
                earliest,
                latest: earliest + length + chance.minutes(100) - 1,
                mark: Mark::Valid,
            }
        }
    };
    added.within_limits().entry()
}
