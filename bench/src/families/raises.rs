//! Families in which R3 raises a long job step by step: each step draws the arc that makes the next one.
use super::sketch::{Sketch, FAR};
use super::Outcome;

const GAP: i32 = 40;
const STEP: i32 = 100;
const LONG: i32 = 5000;

/// A long job behind a first one, and the jobs that raise it.
struct Raised {
    sketch: Sketch,
    job: usize,
    /// The jobs that are left for what stands behind it.
    left: usize,
    /// When it ends after the last raise.
    end: i32,
}

/// Half of the jobs raise the long job: the first of them has to come before it once it starts at 100 + GAP or later, and number k
/// once it starts at 100 + (k - 1) STEP or later (R3). A cut to 100 + GAP thus raises it to 100 + STEP, and so on. What stands behind
/// it needs at most GAP minutes in all, so that it doesn't meet these bounds first. The long job's D is `room` after its last end.
fn raised(jobs: usize, outcome: Outcome, room: i32) -> Raised {
    let mut sketch = Sketch::new(outcome);
    let steps = (jobs - 2) / 2;
    let end = 100 + STEP * steps as i32 + LONG;
    let first = sketch.valid(100, 0, FAR);
    for step in 0..steps as i32 {
        sketch.valid(STEP, 0, 100 + GAP.max(step * STEP) + LONG + STEP - 1);
    }
    let job = sketch.valid(LONG, 0, end + room);
    sketch.arc(first, job);
    sketch.last_raise(job, 100 + GAP);
    Raised {
        sketch,
        job,
        left: jobs - 2 - steps,
        end,
    }
}

/// Valid jobs behind the long one rise with it at each step. Late refused: the last of them has no room after the last raise.
pub fn jobs_behind(jobs: usize, outcome: Outcome) -> Option<Sketch> {
    let mut r = raised(jobs, outcome, FAR - 10_000);
    for place in 0..r.left {
        let last = outcome == Outcome::RefusedLate && place + 1 == r.left;
        let behind = r.sketch.valid(1, 0, if last { r.end } else { FAR });
        r.sketch.arc(r.job, behind);
    }
    Some(r.sketch)
}

/// Undecided jobs behind the long one, of which each raise shuts out one. Late refused: the long job itself has no room after the
/// last raise.
pub fn undecided_behind(jobs: usize, outcome: Outcome) -> Option<Sketch> {
    let late = outcome == Outcome::RefusedLate;
    let mut r = raised(jobs, outcome, if late { -1 } else { FAR - 10_000 });
    for place in 1..=r.left as i32 {
        let behind = r.sketch.undecided(1, 0, 100 + LONG + place * STEP);
        r.sketch.arc(r.job, behind);
    }
    Some(r.sketch)
}

/// A ladder of two jobs a level behind the long one. Late refused: its last level has no room after the last raise.
pub fn ladder_behind(jobs: usize, outcome: Outcome) -> Option<Sketch> {
    let mut r = raised(jobs, outcome, FAR - 10_000);
    let count = r.left / 2 * 2;
    let latest = match outcome {
        Outcome::RefusedLate => r.end + count as i32 - 2,
        _ => FAR,
    };
    let levels = r.sketch.levels(count, 2, 1, latest);
    r.sketch.arcs(&[r.job], &levels[0]);
    Some(r.sketch)
}
