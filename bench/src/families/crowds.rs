//! Families of valid jobs that have no arcs until their windows draw them.
use super::sketch::{Sketch, FAR, LENGTH};
use super::Outcome;

/// One window that just holds all jobs. The cut puts one of them behind all others. Late refused: the window is a minute too short, which
/// shows only with the last of the arcs.
pub fn packed(jobs: usize, outcome: Outcome) -> Option<Sketch> {
    let mut sketch = Sketch::new(outcome);
    let lengths: Vec<i32> = (0..jobs as i32).map(|place| LENGTH + place).collect();
    let total: i32 = lengths.iter().sum();
    let window = match outcome {
        Outcome::RefusedLate => total - 1,
        _ => total,
    };
    for length in lengths {
        sketch.valid(length, 0, window);
    }
    sketch.last_raise(0, window - 2 * LENGTH);
    Some(sketch)
}

/// Raises and lowerings in turn, each of which draws the arc that makes the next one. Two long jobs A, and jobs B that could come
/// after both. Once an A starts too late for B number k to come after it, that B comes before it (R3) and has to end by its latest start
/// (R5). This is too early to come after the other A, so B comes before that one too (R3) and raises it (R4), whereupon it starts too
/// late for B number k + 1. Each B is also put before those that came before it, one by one, and lowered each time.
///
/// E of the B's falls with k by their length, so that number k leaves the sums of those before it as they were. Which of the A's it
/// raises is decided by the jobs P before one A each: number k counts only in sets that start as early as B number k. Late refused:
/// the last B starts so late that it raises both A's, and neither has room before the other.
pub fn alternating(jobs: usize, outcome: Outcome) -> Option<Sketch> {
    const LONG: i32 = 1000;
    let mut sketch = Sketch::new(outcome);
    let steps = (jobs as i32 - 2) / 2;
    // The room between the latest start of an A and its earliest end: more than all raises and all jobs P, less than one B.
    let room = 4 * steps + 4;
    let length = room + 1;
    let earliest = |step: i32| {
        let late = outcome == Outcome::RefusedLate && step == steps;
        1 - step * length + if late { room - steps + 1 } else { 0 }
    };
    for step in (1..=steps).rev() {
        sketch.valid(length, earliest(step), step + LONG - 1 + length);
    }
    let counting: Vec<usize> = (1..=steps)
        .map(|step| sketch.valid(step.min(2), earliest(step), FAR))
        .collect();
    let long = [0; 2].map(|_| sketch.valid(LONG, 0, room + 2 * LONG));
    for (place, &job) in counting.iter().enumerate() {
        sketch.arc(job, long[place % 2]);
    }
    sketch.last_raise(long[1], 1);
    Some(sketch)
}
