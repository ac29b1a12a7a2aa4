//! Families in which a raise goes from level to level through valid jobs.
use super::sketch::{Sketch, FAR, LENGTH};
use super::Outcome;

/// The minutes of so many jobs.
fn minutes(jobs: usize) -> i32 {
    LENGTH * jobs as i32
}

/// Levels of `width` jobs. The cut raises a job of the first level, so that all levels behind it move.
pub fn ladder(jobs: usize, width: usize, outcome: Outcome) -> Option<Sketch> {
    let mut sketch = Sketch::new(outcome);
    let count = sketch.room(jobs) / width * width;
    if count < 2 * width {
        return None;
    }
    let levels = sketch.levels(count, width, LENGTH, FAR);
    let raised = minutes(2 * count);
    sketch.trap(levels.last()?, raised + minutes(1 + count - width));
    sketch.last_raise(levels[0][0], raised);
    Some(sketch)
}

/// One job after the other in a window with some room. The cut raises the first one.
pub fn chain(jobs: usize, outcome: Outcome) -> Option<Sketch> {
    let mut sketch = Sketch::new(outcome);
    let count = sketch.room(jobs);
    let levels = sketch.levels(count, 1, LENGTH, minutes(count) + 500);
    sketch.trap(levels.last()?, 300 + minutes(count));
    sketch.last_raise(0, 300);
    Some(sketch)
}

/// One job, two abreast, one job, two abreast, and so on. The cut raises the first one.
pub fn diamonds(jobs: usize, outcome: Outcome) -> Option<Sketch> {
    let mut sketch = Sketch::new(outcome);
    let count = sketch.room(jobs);
    let mut row = Vec::new();
    let mut abreast = 1;
    while sketch.jobs() < count {
        let next: Vec<usize> = (0..abreast.min(count - sketch.jobs()))
            .map(|_| sketch.valid(LENGTH, 0, minutes(count) + 500))
            .collect();
        sketch.arcs(&row, &next);
        row = next;
        abreast = 3 - abreast;
    }
    sketch.trap(&row, 300 + minutes(count));
    sketch.last_raise(0, 300);
    Some(sketch)
}

/// Each job of a first layer before each of a second. No two E in the first are alike, and no two D in the second, so that every sum is a
/// new one. The cut raises a job in the middle of the first layer above all others of it: with the second layer behind it, or so
/// little that the sums come out as they were, and nothing else moves.
pub fn layers(jobs: usize, far: bool, outcome: Outcome) -> Option<Sketch> {
    let mut sketch = Sketch::new(outcome);
    if outcome == Outcome::RefusedLate && !far {
        return None;
    }
    let count = sketch.room(jobs);
    let half = count / 2;
    let earliest = |place: usize| 3 * (half - place) as i32;
    let raised = earliest(0) + if far { minutes(half) } else { 1 };
    let end = raised + minutes(1 + count - half);
    let latest = if far { end } else { FAR };
    let first: Vec<usize> = (0..half)
        .map(|place| sketch.valid(LENGTH, earliest(place), FAR))
        .collect();
    let second: Vec<usize> = (half..count)
        .map(|place| sketch.valid(LENGTH, 0, latest - (place - half) as i32))
        .collect();
    sketch.arcs(&first, &second);
    sketch.trap(&second, end);
    sketch.last_raise(first[half / 2], raised);
    Some(sketch)
}

/// Two chains, joined by the last arc, so that each job of the first one comes before each of the second. At once refused: one
/// chain, and the arc from its last job to its first.
pub fn joined(jobs: usize, outcome: Outcome) -> Option<Sketch> {
    let mut sketch = Sketch::new(outcome);
    let count = sketch.room(jobs);
    let chain: Vec<usize> = (0..count).map(|_| sketch.valid(LENGTH, 0, FAR)).collect();
    let (first, second) = chain.split_at(count / 2);
    for part in [first, second] {
        for pair in part.windows(2) {
            sketch.arc(pair[0], pair[1]);
        }
    }
    let (end, start) = (first[first.len() - 1], second[0]);
    if outcome == Outcome::RefusedAtOnce {
        sketch.arc(end, start);
        sketch.last_arc(chain[count - 1], chain[0]);
    } else {
        sketch.trap(&second[second.len() - 1..], minutes(count));
        sketch.last_arc(end, start);
    }
    Some(sketch)
}

/// A ladder of two behind the job that the cut raises. Late refused: a trap beside the ladder, so that the contradiction is near and
/// what can be moved first is much.
pub fn branches(jobs: usize, outcome: Outcome) -> Option<Sketch> {
    let mut sketch = Sketch::new(outcome);
    let count = (sketch.room(jobs) - 1) / 2 * 2;
    let first = sketch.valid(LENGTH, 0, FAR);
    let levels = sketch.levels(count, 2, LENGTH, FAR);
    sketch.arcs(&[first], &levels[0]);
    let raised = minutes(2 * count);
    sketch.trap(&[first], raised + LENGTH);
    sketch.last_raise(first, raised);
    Some(sketch)
}

/// A chain, and then a long job in a window that just holds it, too early to come after the third job of the chain, which therefore
/// moves behind it with all that follow. At once refused: the window is a minute too short.
pub fn added(jobs: usize, outcome: Outcome) -> Option<Sketch> {
    let mut sketch = Sketch::new(outcome);
    let count = sketch.room(jobs) - 1;
    let levels = sketch.levels(count, 1, LENGTH, FAR);
    let (length, start) = (minutes(20), minutes(3) - 1);
    let end = start + length;
    sketch.trap(levels.last()?, end + minutes(count - 2));
    let short = i32::from(outcome == Outcome::RefusedAtOnce);
    sketch.last_addition(length, start, end - short);
    Some(sketch)
}
