//! Families in which undecided jobs fall out, or one of them becomes valid.
use super::sketch::{Sketch, FAR, LENGTH};
use super::Outcome;

/// Undecided jobs behind a valid one, none of which fits once it is raised.
pub fn behind(jobs: usize, outcome: Outcome) -> Option<Sketch> {
    let mut sketch = Sketch::new(outcome);
    let count = sketch.room(jobs);
    let first = sketch.valid(LENGTH, 0, FAR);
    for place in 1..count as i32 {
        let job = sketch.undecided(LENGTH, 0, 60 + place);
        sketch.arc(first, job);
    }
    sketch.trap(&[first], 5000 + LENGTH);
    sketch.last_raise(first, 5000);
    Some(sketch)
}

/// A chain, each job with an undecided one behind it. The cut raises the chain, and every undecided job falls out.
pub fn behind_chain(jobs: usize, outcome: Outcome) -> Option<Sketch> {
    let mut sketch = Sketch::new(outcome);
    let count = sketch.room(jobs) / 2;
    let end = LENGTH * count as i32;
    let chain = sketch.levels(count, 1, LENGTH, end + 500).concat();
    for (place, &job) in chain.iter().enumerate() {
        let behind = sketch.undecided(LENGTH, 0, LENGTH * (place as i32 + 2) + 5);
        sketch.arc(job, behind);
    }
    sketch.trap(&chain[count - 1..], 300 + end);
    sketch.last_raise(chain[0], 300);
    Some(sketch)
}

/// Marks a job valid, with a trap behind it for a late refusal. At once refused: another was marked before, so that the job has
/// fallen out.
fn marked(sketch: &mut Sketch, job: usize, other: usize, outcome: Outcome) {
    sketch.trap(&[job], 100 + LENGTH);
    if outcome == Outcome::RefusedAtOnce {
        sketch.mark(other);
    }
    sketch.last_mark(job);
}

/// Undecided jobs that all exclude each other; one is marked valid, so that all others fall out.
pub fn clique(jobs: usize, outcome: Outcome) -> Option<Sketch> {
    let mut sketch = Sketch::new(outcome);
    let count = sketch.room(jobs);
    let clique: Vec<usize> = (0..count)
        .map(|_| sketch.undecided(LENGTH, 100, FAR))
        .collect();
    for a in 0..count {
        for b in a + 1..count {
            sketch.exclude(clique[a], clique[b]);
        }
    }
    marked(&mut sketch, clique[0], clique[1], outcome);
    Some(sketch)
}

/// One undecided job that excludes all others, which have no arcs between them; it is marked valid.
pub fn star(jobs: usize, outcome: Outcome) -> Option<Sketch> {
    let mut sketch = Sketch::new(outcome);
    let count = sketch.room(jobs);
    let star: Vec<usize> = (0..count)
        .map(|_| sketch.undecided(LENGTH, 100, FAR))
        .collect();
    for &other in &star[1..] {
        sketch.exclude(star[0], other);
    }
    marked(&mut sketch, star[0], star[1], outcome);
    Some(sketch)
}

/// An undecided job between all of a first half and all of a second is marked valid: a quarter of all arcs at once. At once
/// refused: it has fallen out already.
pub fn hinge(jobs: usize, outcome: Outcome) -> Option<Sketch> {
    let mut sketch = Sketch::new(outcome);
    let count = sketch.room(jobs);
    let half = (count - 1) / 2;
    let minutes = LENGTH * count as i32;
    let latest = match outcome {
        Outcome::RefusedAtOnce => minutes - LENGTH / 2,
        _ => 4 * minutes,
    };
    let first: Vec<usize> = (0..half)
        .map(|place| sketch.valid(LENGTH, place as i32 % 3, 4 * minutes))
        .collect();
    let hinge = sketch.undecided(LENGTH, 0, 4 * minutes);
    let second: Vec<usize> = (half + 1..count)
        .map(|_| sketch.valid(LENGTH, 0, latest))
        .collect();
    sketch.arcs(&first, &[hinge]);
    sketch.arcs(&[hinge], &second);
    sketch.trap(&second, minutes);
    sketch.last_mark(hinge);
    Some(sketch)
}
