//! The loads: entries that everyone can make again.
use crate::entry::Entry;
use bayboard::Mark;

/// A load has a name and makes its entries for any number of jobs.
pub struct Load {
    pub name: &'static str,
    pub entries: fn(usize) -> Vec<Entry>,
}

pub const LOADS: [Load; 6] = [
    Load {
        name: "depot",
        entries: |jobs| drawn(jobs, 1),
    },
    Load {
        name: "depot, windows 12 times as wide",
        entries: |jobs| drawn(jobs, 12),
    },
    Load {
        name: "chain in shuffled order",
        entries: chain,
    },
    Load {
        name: "chain, then cuts",
        entries: cuts,
    },
    Load {
        name: "optional jobs, neighbours exclude each other",
        entries: |jobs| optional(jobs, 2),
    },
    Load {
        name: "optional jobs, all exclude each other",
        entries: |jobs| optional(jobs, jobs),
    },
];

/// The generator that depots share: X = (1103515245 X + 12345) mod 2^31, and a draw is X / 65536.
pub struct Draws(pub u64);

impl Draws {
    fn below(&mut self, count: usize) -> usize {
        self.0 = (1_103_515_245 * self.0 + 12_345) % 2_147_483_648;
        (self.0 / 65_536) as usize % count
    }

    fn minutes(&mut self, count: usize) -> i32 {
        self.below(count) as i32
    }

    /// The numbers below `count` in a random order.
    pub fn shuffled(&mut self, count: usize) -> Vec<usize> {
        let mut numbers: Vec<usize> = (0..count).collect();
        for last in (1..count).rev() {
            numbers.swap(last, self.below(last + 1));
        }
        numbers
    }
}

/// The depots' load from seed 42: at 64 jobs it has 200 arcs, at fewer jobs fewer. The windows are `wider` times as wide.
fn drawn(jobs: usize, wider: i32) -> Vec<Entry> {
    let mut draws = Draws(42);
    let mut entries = Vec::new();
    for _ in 0..jobs {
        let length = 1 + draws.minutes(30);
        let earliest = draws.minutes(200);
        let width = length + draws.minutes(100);
        let mark = [Mark::Undecided, Mark::Valid][draws.below(2)];
        entries.push(Entry::Addition {
            length,
            earliest,
            latest: earliest + wider * width,
            mark,
        });
    }
    for _ in 0..200 * jobs / 64 {
        let from = draws.below(jobs);
        let to = draws.below(jobs);
        if from != to {
            entries.push(Entry::Arc { from, to });
        }
    }
    entries
}

/// Jobs that may take place at any time of a long day.
fn free(draws: &mut Draws, jobs: usize, mark: Mark) -> Vec<Entry> {
    (0..jobs)
        .map(|_| Entry::Addition {
            length: 1 + draws.minutes(30),
            earliest: 0,
            latest: 4000,
            mark,
        })
        .collect()
}

/// A chain of valid jobs: its jobs in a random order, and its arcs entered in another.
fn chain(jobs: usize) -> Vec<Entry> {
    let mut draws = Draws(42);
    let mut entries = free(&mut draws, jobs, Mark::Valid);
    let order = draws.shuffled(jobs);
    for place in draws.shuffled(jobs - 1) {
        entries.push(Entry::Arc {
            from: order[place],
            to: order[place + 1],
        });
    }
    entries
}

/// The chain, and then as many cuts as it has jobs, each of a random job, which move what comes after or before it.
fn cuts(jobs: usize) -> Vec<Entry> {
    let mut draws = Draws(7);
    let mut entries = chain(jobs);
    for step in 1..=jobs as i32 {
        let job = draws.below(jobs);
        entries.push(Entry::Cut {
            job,
            earliest: 10 * step,
            latest: 4000 - 5 * step,
        });
    }
    entries
}

/// Optional jobs, arcs both ways between those whose numbers differ by less than `reach`, and then all marked one by one.
fn optional(jobs: usize, reach: usize) -> Vec<Entry> {
    let mut draws = Draws(42);
    let mut entries = free(&mut draws, jobs, Mark::Undecided);
    for a in 0..jobs {
        for b in a + 1..jobs.min(a + reach) {
            entries.push(Entry::Arc { from: a, to: b });
            entries.push(Entry::Arc { from: b, to: a });
        }
    }
    for job in draws.shuffled(jobs) {
        entries.push(Entry::Mark {
            job,
            mark: Mark::Valid,
        });
    }
    entries
}

/// Valid jobs that need all the time there is and lose some of it, so that no order fits and the planner tries on.
pub fn tight(jobs: usize) -> Vec<Entry> {
    let mut draws = Draws(42);
    let lengths: Vec<i32> = (0..jobs).map(|_| 10 + draws.minutes(30)).collect();
    let day: i32 = lengths.iter().sum();
    lengths
        .iter()
        .map(|&length| Entry::Addition {
            length,
            earliest: 1 + draws.minutes(20),
            latest: day - draws.minutes(20),
            mark: Mark::Valid,
        })
        .collect()
}
