//! What is timed of an implementation, each for one entry: a whole load, or the last entry alone on fresh copies of the board
//! before it. The boards are locals, so that two libraries that share this code have theirs at the same addresses.
use crate::entry::{Enters, Entry};
use crate::measure::{timed, timed_long, Work};
use std::hint::black_box;

/// A load from its first entry to its last.
pub struct Whole<'a, B> {
    pub empty: B,
    pub entries: &'a [Entry],
}

impl<B: Enters> Work for Whole<'_, B> {
    fn run(&mut self) -> f64 {
        let mut board = self.empty.clone();
        let time = timed_long(|| {
            for &entry in self.entries {
                let _ = black_box(board.enter(entry));
            }
        });
        black_box(&board);
        time / self.entries.len() as f64
    }
}

/// One entry is too short for the clock, and more copies than these wouldn't stay in the nearest cache.
const COPIES: usize = 8;

/// An entry that takes so many microseconds is timed by itself: a longer run would more often be broken off by other work.
const LONG: f64 = 20.0;

const PROBES: usize = 5;

/// The last entry alone, on copies of the board before it.
#[derive(Clone)]
pub struct Last<B> {
    before: B,
    entry: Entry,
    copies: usize,
}

impl<B: Enters> Last<B> {
    pub fn new(before: B, entry: Entry) -> Last<B> {
        let mut last = Last {
            before,
            entry,
            copies: COPIES,
        };
        // The shortest of a few runs, since any of them may have been broken off.
        let runs = (0..PROBES).map(|_| last.run());
        if runs.fold(f64::INFINITY, f64::min) > LONG {
            last.copies = 1;
        }
        last
    }

    /// The same where it's known how many microseconds one run has taken.
    pub fn known(before: B, entry: Entry, time: f64) -> Last<B> {
        Last {
            before,
            entry,
            copies: if time > LONG { 1 } else { COPIES },
        }
    }
}

impl<B: Enters> Work for Last<B> {
    fn run(&mut self) -> f64 {
        let mut copies: [B; COPIES] = std::array::from_fn(|_| self.before.clone());
        let used = black_box(&mut copies[..self.copies]);
        let enter = || {
            for copy in used {
                let _ = black_box(copy.enter(black_box(self.entry)));
            }
        };
        let time = if self.copies == 1 {
            timed_long(enter)
        } else {
            timed(enter)
        };
        black_box(&copies);
        time / self.copies as f64
    }
}
