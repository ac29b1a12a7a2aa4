//! Small changes of a draft: of its jobs, its arcs, its last entry and its numbering.
use super::chance::Chance;
use super::draft::{Draft, Job};
use super::lasts;
use crate::baseline::Board;
use bayboard::Mark;

/// What a step may look at: the boards before and after the last entry, as they were before the first change.
type Boards<'a> = [&'a Board; 2];

type Step = fn(&mut Draft, Boards, &mut Chance);

/// Those that are named twice are taken twice as often.
const STEPS: [Step; 26] = [
    length,
    window,
    window,
    window,
    touch,
    touch,
    trap,
    trap,
    like_another,
    many,
    mark,
    add,
    twin,
    remove,
    draw,
    draw,
    fan,
    erase,
    erase,
    turn,
    nudge,
    nudge,
    other_last,
    swap,
    swap,
    whole,
];

/// The draft after one or a few steps.
pub fn changed(draft: &Draft, boards: Boards, chance: &mut Chance) -> Draft {
    let mut changed = draft.clone();
    loop {
        chance.of(&STEPS)(&mut changed, boards, chance);
        if chance.one_in(2) {
            return changed;
        }
    }
}

/// Both boards beside each other, as far as there is room, and perhaps arcs from one to the other.
pub fn joined(draft: &Draft, other: &Draft, chance: &mut Chance) -> Draft {
    let mut joined = draft.clone();
    let least = chance.below(draft.jobs.len());
    while joined.jobs.len() > least.max(8) {
        joined.remove(chance.below(joined.jobs.len()));
    }
    let first = joined.jobs.len();
    let shift = chance.of(&[0, 1]) * chance.shift(1000);
    for job in &other.jobs {
        if joined.is_full() {
            break;
        }
        let shifted = Job {
            earliest: job.earliest + shift,
            latest: job.latest + shift,
            ..*job
        };
        joined.jobs.push(shifted.within_limits());
    }
    let count = joined.jobs.len();
    for arc in &other.arcs {
        let [from, to] = arc.map(|job| first + job);
        if from.max(to) < count {
            joined.arcs.push([from, to]);
        }
    }
    for _ in 0..chance.below(9) {
        joined.arc(
            chance.below(first),
            count - 1 - chance.below(count - first + 1),
        );
    }
    joined.settle();
    joined
}

fn any(draft: &Draft, chance: &mut Chance) -> usize {
    chance.below(draft.jobs.len())
}

fn length(draft: &mut Draft, _: Boards, chance: &mut Chance) {
    let place = any(draft, chance);
    let job = &mut draft.jobs[place];
    job.length = match chance.below(4) {
        0 => job.length / 2,
        1 => job.length * 2,
        2 => chance.minutes(5000),
        _ => job.length + chance.shift(job.length),
    };
    *job = job.within_limits();
}

fn window(draft: &mut Draft, _: Boards, chance: &mut Chance) {
    let place = any(draft, chance);
    moved(&mut draft.jobs[place], chance);
}

/// Another window, near or far.
fn moved(job: &mut Job, chance: &mut Chance) {
    let by = chance.shift(20_000);
    match chance.below(5) {
        0 => job.earliest += by,
        1 => job.latest += by,
        2 => job.latest = job.earliest + job.length + chance.minutes(1000) - 1,
        3 => job.earliest = job.latest - job.length - chance.minutes(1000) + 1,
        _ => {
            job.earliest += by;
            job.latest += by;
        }
    }
    *job = job.within_limits();
}

/// Moves a window to where R3 just draws an arc between two jobs, or just doesn't.
fn touch(draft: &mut Draft, boards: Boards, chance: &mut Chance) {
    let (a, b) = (any(draft, chance), any(draft, chance));
    let lengths = draft.jobs[a].length + draft.jobs[b].length;
    let room = chance.between(-1, 0);
    let board = chance.of(&boards);
    if chance.one_in(2) {
        draft.jobs[b].latest = board.earliest[a] + lengths + room;
        draft.jobs[b] = draft.jobs[b].within_limits();
    } else {
        draft.jobs[a].earliest = board.latest[b] - lengths - room;
        draft.jobs[a] = draft.jobs[a].within_limits();
    }
}

/// Moves the end of a window to where the last entry just leaves room for the job, or just doesn't.
fn trap(draft: &mut Draft, [before, after]: Boards, chance: &mut Chance) {
    let place = any(draft, chance);
    let job = &mut draft.jobs[place];
    let room = chance.of(&[-1, -1, 0, job.length - 1]);
    if after.earliest[place] > before.earliest[place] {
        job.latest = after.earliest[place] + job.length + room;
    } else if after.latest[place] < before.latest[place] {
        job.earliest = after.latest[place] - job.length - room;
    }
    *job = job.within_limits();
}

/// Takes the length, the window or the mark of another job, or a window a little apart from its.
fn like_another(draft: &mut Draft, _: Boards, chance: &mut Chance) {
    let (place, other) = (any(draft, chance), any(draft, chance));
    let (job, like) = (draft.jobs[place], draft.jobs[other]);
    let by = chance.shift(100);
    draft.jobs[place] = match chance.below(4) {
        0 => like,
        1 => Job {
            length: like.length,
            ..job
        },
        2 => Job {
            length: job.length,
            ..like
        },
        _ => Job {
            earliest: like.earliest + by,
            latest: like.latest + by,
            ..job
        },
    }
    .within_limits();
}

/// The same change for all of some jobs that stand beside each other in number.
fn many(draft: &mut Draft, _: Boards, chance: &mut Chance) {
    let (first, last) = (any(draft, chance), any(draft, chance));
    let (by, what) = (chance.shift(1000), chance.below(6));
    let length = chance.minutes(1000);
    for job in &mut draft.jobs[first.min(last)..=first.max(last)] {
        match what {
            0 => job.earliest += by,
            1 => job.latest += by,
            2 => job.length = length,
            3 => job.mark = Mark::Valid,
            4 => job.mark = Mark::Undecided,
            _ => {
                job.earliest += by;
                job.latest += by;
            }
        }
        *job = job.within_limits();
    }
}

fn mark(draft: &mut Draft, _: Boards, chance: &mut Chance) {
    let place = any(draft, chance);
    draft.jobs[place].mark = match draft.jobs[place].mark {
        Mark::Valid => Mark::Undecided,
        _ => Mark::Valid,
    };
}

/// A job much like another one, without arcs.
fn add(draft: &mut Draft, _: Boards, chance: &mut Chance) {
    if draft.is_full() {
        return;
    }
    let mut job = draft.jobs[any(draft, chance)];
    moved(&mut job, chance);
    draft.jobs.push(job);
    place_last(draft, chance);
}

/// A job like another one, with the same arcs, or after it or before it.
fn twin(draft: &mut Draft, _: Boards, chance: &mut Chance) {
    if draft.is_full() {
        let out = any(draft, chance);
        draft.remove(out);
    }
    let like = any(draft, chance);
    let new = draft.jobs.len();
    draft.jobs.push(draft.jobs[like]);
    for [from, to] in draft.arcs.clone() {
        if from == like {
            draft.arcs.push([new, to]);
        } else if to == like {
            draft.arcs.push([from, new]);
        }
    }
    match chance.below(3) {
        0 => draft.arcs.push([like, new]),
        1 => draft.arcs.push([new, like]),
        _ => {}
    }
    place_last(draft, chance);
}

/// The last job gets any number.
fn place_last(draft: &mut Draft, chance: &mut Chance) {
    let end = draft.jobs.len() - 1;
    exchange(draft, end, any(draft, chance));
}

fn remove(draft: &mut Draft, _: Boards, chance: &mut Chance) {
    if draft.jobs.len() > 3 {
        let job = any(draft, chance);
        draft.remove(job);
    }
}

fn draw(draft: &mut Draft, _: Boards, chance: &mut Chance) {
    let (from, to) = (any(draft, chance), any(draft, chance));
    draft.arc(from, to);
}

/// Arcs between one job and a few.
fn fan(draft: &mut Draft, _: Boards, chance: &mut Chance) {
    let (job, out) = (any(draft, chance), chance.one_in(2));
    for _ in 0..chance.minutes(32) {
        let other = any(draft, chance);
        let (from, to) = if out { (job, other) } else { (other, job) };
        draft.arc(from, to);
    }
}

fn erase(draft: &mut Draft, _: Boards, chance: &mut Chance) {
    for _ in 0..chance.of(&[1, 1, 1, 8]) {
        if !draft.arcs.is_empty() {
            draft.arcs.swap_remove(chance.below(draft.arcs.len()));
        }
    }
}

/// An arc the other way, or to another job.
fn turn(draft: &mut Draft, _: Boards, chance: &mut Chance) {
    if draft.arcs.is_empty() {
        return;
    }
    let [from, to] = draft.arcs.swap_remove(chance.below(draft.arcs.len()));
    let other = any(draft, chance);
    let (from, to) = chance.of(&[(to, from), (other, to), (from, other)]);
    draft.arc(from, to);
}

fn nudge(draft: &mut Draft, _: Boards, chance: &mut Chance) {
    draft.last = lasts::nudged(draft, chance);
}

fn other_last(draft: &mut Draft, boards: Boards, chance: &mut Chance) {
    if draft.jobs.len() == boards[0].jobs {
        draft.last = lasts::random(draft, boards[0], chance);
    }
}

/// Two jobs exchange their numbers.
fn swap(draft: &mut Draft, _: Boards, chance: &mut Chance) {
    let (a, b) = (any(draft, chance), any(draft, chance));
    exchange(draft, a, b);
}

fn exchange(draft: &mut Draft, a: usize, b: usize) {
    let mut numbers: Vec<usize> = (0..draft.jobs.len()).collect();
    numbers.swap(a, b);
    draft.renumber(&numbers);
}

/// All jobs: time turned round, or numbered the other way, or by their E.
fn whole(draft: &mut Draft, boards: Boards, chance: &mut Chance) {
    let count = draft.jobs.len();
    match chance.below(3) {
        0 => draft.mirror(),
        1 => draft.renumber(&(0..count).rev().collect::<Vec<_>>()),
        _ => {
            let mut order: Vec<usize> = (0..count).collect();
            order.sort_by_key(|&job| boards[0].earliest[job]);
            let mut numbers = vec![0; count];
            for (number, &job) in order.iter().enumerate() {
                numbers[job] = number;
            }
            draft.renumber(&numbers);
        }
    }
}
