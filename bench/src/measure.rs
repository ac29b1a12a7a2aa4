//! Measuring: the same work by each implementation in turn, many times over, and the medians.
use crate::clock::processor_time;
use std::time::{Duration, Instant};

/// What is measured.
pub trait Work {
    /// Does the work once, and gives the microseconds of what counts of it.
    fn run(&mut self) -> f64;
}

/// The microseconds that something short takes.
pub fn timed(work: impl FnOnce()) -> f64 {
    let start = Instant::now();
    work();
    start.elapsed().as_secs_f64() * 1e6
}

/// The same of something long: where other work has broken it off, the processor has less than the clock. To ask the processor
/// takes a quarter of a microsecond, and what comes next is slower.
pub fn timed_long(work: impl FnOnce()) -> f64 {
    let used = processor_time();
    let time = timed(work);
    time.min(processor_time() - used)
}

impl<F: FnMut()> Work for F {
    fn run(&mut self) -> f64 {
        timed_long(self)
    }
}

/// The middle one, and the quarters below and above it.
#[derive(Clone, Copy)]
pub struct Median {
    pub low: f64,
    pub middle: f64,
    pub high: f64,
}

impl Median {
    fn of(mut values: Vec<f64>) -> Median {
        values.sort_by(f64::total_cmp);
        let at = |part: usize| values[(values.len() - 1) * part / 4];
        Median {
            low: at(1),
            middle: at(2),
            high: at(3),
        }
    }
}

/// Microseconds of one of the works, and the ratio to the first one's time in the same turn.
pub struct Measured {
    pub time: Median,
    pub ratio: Median,
}

/// How many turns: as many as fit in the time, but within these bounds.
#[derive(Clone, Copy)]
pub struct Turns {
    pub least: usize,
    pub most: usize,
    pub time: Duration,
}

impl Turns {
    pub fn exactly(count: usize) -> Turns {
        Turns {
            least: count,
            most: count,
            time: Duration::ZERO,
        }
    }

    fn enough(&self, done: usize, since: Instant) -> bool {
        done >= self.most || done >= self.least && since.elapsed() >= self.time
    }
}

/// Each turn does every work once, every other turn in the opposite order, so that none always comes after the same one. A turn
/// before the first warms up and doesn't count.
pub fn measure(turns: Turns, works: &mut [&mut dyn Work]) -> Vec<Measured> {
    let mut times = vec![Vec::new(); works.len()];
    for work in works.iter_mut() {
        work.run();
    }
    let start = Instant::now();
    let mut done = 0;
    while !turns.enough(done, start) {
        for place in 0..works.len() {
            let number = if done % 2 == 0 {
                place
            } else {
                works.len() - 1 - place
            };
            times[number].push(works[number].run());
        }
        done += 1;
    }
    let measured = |column: &Vec<f64>| Measured {
        time: Median::of(column.clone()),
        ratio: Median::of(column.iter().zip(&times[0]).map(|(a, b)| a / b).collect()),
    };
    times.iter().map(measured).collect()
}
