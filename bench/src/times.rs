//! Microseconds of a last entry: by a library on a checked board, by the baseline and by the plain fixed point.
use crate::baseline;
use crate::entry::{Enters, Entry};
use crate::measure::{measure, Turns};
use crate::plain::Plain;
use crate::works::Last;
use std::fmt;

/// Up to so many microseconds the library may always take.
const FREE: f64 = 0.3;

/// Only rows of so many jobs or more are marked as slow; on smaller boards most of the time is the call itself.
const LARGE: usize = 32;

pub struct Times {
    pub library: f64,
    pub baseline: f64,
    pub plain: f64,
}

impl Times {
    /// The last entry on the boards before it, in turn.
    pub fn of<B: Enters>(
        turns: Turns,
        library: B,
        baseline: baseline::Board,
        plain: Plain,
        last: Entry,
    ) -> Times {
        let m = measure(
            turns,
            &mut [
                &mut Last::new(library, last),
                &mut Last::new(baseline, last),
                &mut Last::new(plain, last),
            ],
        );
        Times {
            library: m[0].time.middle,
            baseline: m[1].time.middle,
            plain: m[2].time.middle,
        }
    }

    /// The library's time over that of the faster of the other two, or over what is free where that is more.
    pub fn share(&self) -> f64 {
        self.library / self.baseline.min(self.plain).max(FREE)
    }

    pub fn is_slow(&self, jobs: usize) -> bool {
        jobs >= LARGE && self.share() > 1.0
    }
}

/// The cells of a row: library, baseline, ratio, plain, ratio.
impl fmt::Display for Times {
    fn fmt(&self, f: &mut fmt::Formatter<'_>) -> fmt::Result {
        write!(
            f,
            "{:.2} | {:.2} | {:.2} | {:.2} | {:.2}",
            self.library,
            self.baseline,
            self.library / self.baseline,
            self.plain,
            self.library / self.plain,
        )
    }
}
