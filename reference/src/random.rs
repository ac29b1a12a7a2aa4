//! Random texts for the comparison: boards of several styles, written line by
//! line. The writer plays each line on a board of its own, so that it can name
//! real jobs and aim at the edges of their windows.

use crate::board::Board;
use crate::damage::{damage, pad_to_the_load};
use crate::planner::{plan, Ending};
use crate::text::answer_line;

/// A small linear congruential generator; the same seed gives the same texts.
pub struct Random {
    state: u64,
}

impl Random {
    pub fn new(seed: u64, stream: u64) -> Random {
        let mut random = Random {
            state: seed.wrapping_mul(0x9e37_79b9_7f4a_7c15) ^ stream,
        };
        // The first numbers of neighbouring streams are alike: leave them out.
        for _ in 0..8 {
            random.next();
        }
        random
    }

    fn next(&mut self) -> u64 {
        self.state = self
            .state
            .wrapping_mul(6_364_136_223_846_793_005)
            .wrapping_add(1_442_695_040_888_963_407);
        self.state >> 33
    }

    /// A number from least to most, both included.
    pub fn between(&mut self, least: i64, most: i64) -> i64 {
        let count = (most - least + 1) as u64;
        least + (self.next() % count) as i64
    }

    pub fn chance(&mut self, percent: i64) -> bool {
        self.between(1, 100) <= percent
    }

    pub fn pick<T: Copy>(&mut self, from: &[T]) -> T {
        from[self.between(0, from.len() as i64 - 1) as usize]
    }
}

#[derive(Clone, Copy)]
enum ArcHabit {
    Any,
    Forward,
    Chain,
    BothWays,
}

/// What the texts of one style have in common; ranges include both ends.
#[derive(Clone, Copy)]
struct Style {
    lengths: (i64, i64),
    starts: (i64, i64),
    spans: (i64, i64),
    valid_percent: i64,
    /// How often a number is taken from the edges of its limits.
    odd_percent: i64,
    additions: i64,
    steps: i64,
    additions_first: bool,
    arcs: ArcHabit,
}

/// One random text: mostly whole, now and then damaged or very long.
pub fn random_text(random: &mut Random) -> Vec<u8> {
    let style = random_style(random);
    let mut text = Writer::new(random, style).write();
    if random.chance(20) {
        for _ in 0..random.between(1, 4) {
            damage(random, &mut text);
        }
    }
    if random.between(1, 200) == 1 {
        pad_to_the_load(random, &mut text);
    }
    text
}

fn random_style(random: &mut Random) -> Style {
    let additions = random_size(random);
    let whole = additions * 10;
    // Lengths, starts and spans.
    let (lengths, starts, spans) = random.pick(&[
        // Tiny: sums meet the edges of windows all the time.
        ((1, 4), (0, 8), (2, 16)),
        ((1, 4), (-8, 4), (2, 16)),
        // Tight: windows hardly longer than the jobs.
        ((10, 60), (0, 300), (30, 250)),
        // Packed: all jobs together just about fill their window.
        ((1, 20), (0, 5), (whole, whole + 20)),
        ((8, 12), (0, 2), (whole * 9 / 10, whole)),
        // Loose: room for all jobs.
        ((1, 60), (-2_000, 2_000), (1_000, 6_000)),
        ((5, 5), (0, 0), (2_000, 2_000)),
        // Wide: near both limits and across the whole range.
        ((1, 10_000), (-500_000, 500_000), (0, 1_000_000)),
        ((9_990, 10_000), (-500_000, -499_990), (9_990, 200_000)),
        ((9_990, 10_000), (300_000, 495_000), (9_990, 200_000)),
    ]);
    Style {
        lengths,
        starts,
        spans,
        valid_percent: random.pick(&[0, 20, 50, 80, 100, 100]),
        odd_percent: random.pick(&[0, 0, 1, 8]),
        additions,
        steps: random.between(0, 20 + 2 * additions),
        additions_first: random.chance(50),
        arcs: random.pick(&[
            ArcHabit::Any,
            ArcHabit::Forward,
            ArcHabit::Chain,
            ArcHabit::BothWays,
        ]),
    }
}

/// Mostly small boards, now and then one of 64 jobs and an addition too many.
fn random_size(random: &mut Random) -> i64 {
    match random.between(1, 100) {
        1..=60 => random.between(1, 8),
        61..=85 => random.between(9, 24),
        86..=95 => random.between(25, 63),
        _ => random.between(64, 70),
    }
}

struct Writer<'a> {
    random: &'a mut Random,
    style: Style,
    board: Board,
    text: Vec<u8>,
    links: i64,
}

impl Writer<'_> {
    fn new(random: &mut Random, style: Style) -> Writer<'_> {
        Writer {
            random,
            style,
            board: Board::empty(),
            text: Vec::new(),
            links: 0,
        }
    }

    fn write(mut self) -> Vec<u8> {
        let mut additions = self.style.additions;
        let mut steps = self.style.steps;
        while additions + steps > 0 {
            let turn = self.random.between(1, additions + steps) <= additions;
            if additions > 0 && (self.style.additions_first || turn) {
                additions -= 1;
                self.addition();
            } else {
                steps -= 1;
                self.step();
            }
        }
        self.look_at_all();
        self.text
    }

    fn line(&mut self, line: String) {
        answer_line(&mut self.board, line.as_bytes());
        self.text.extend_from_slice(line.as_bytes());
        self.text.push(b'\n');
    }

    fn addition(&mut self) {
        let (least, most) = self.style.lengths;
        let usual = self.random.between(least, most);
        let length = self.or_odd(usual, &[-1, 0, 1, 10_000, 10_001, 9_999_999]);
        let (start, end) = self.window();
        let usual = i64::from(self.random.chance(self.style.valid_percent));
        let mark = self.or_odd(usual, &[-1, 0, 1, 2, 3]);
        self.line(format!(
            "(add (len {length}) (win {start} {end}) (mark {mark}))"
        ));
    }

    fn step(&mut self) {
        match self.random.between(1, 100) {
            1..=45 => self.arc(),
            46..=55 => self.mark(),
            56..=72 => self.cut(),
            73..=82 => {
                let job = self.job();
                self.line(format!("(row {job})"));
            }
            83..=90 => {
                let (a, b) = (self.job(), self.job());
                self.line(format!("(two {a} {b})"));
            }
            91..=97 => self.plan(),
            _ => self.line("(tally)".to_string()),
        }
    }

    fn arc(&mut self) {
        let (a, b) = (self.job(), self.job());
        match self.style.arcs {
            ArcHabit::Any => self.line(format!("(arc {a} {b})")),
            ArcHabit::Forward => self.line(format!("(arc {} {})", a.min(b), a.max(b))),
            ArcHabit::BothWays => {
                self.line(format!("(arc {a} {b})"));
                self.line(format!("(arc {b} {a})"));
            }
            ArcHabit::Chain => {
                let last = (self.board.jobs.len() as i64 - 1).max(1);
                let link = self.links % last;
                self.links += 1;
                self.line(format!("(arc {link} {})", link + 1));
            }
        }
    }

    fn mark(&mut self) {
        let job = self.job();
        let usual = self.random.pick(&[1, 1, 2]);
        let mark = self.or_odd(usual, &[-1, 0, 1, 2, 3]);
        self.line(format!("(mark {job} {mark})"));
    }

    /// A cut: of any window, or close to the window that the job shows.
    fn cut(&mut self) {
        let number = self.job();
        let (mut start, mut end) = self.window();
        let shown = usize::try_from(number).ok();
        if let Some(job) = shown.and_then(|shown| self.board.jobs.get(shown)) {
            match self.random.between(0, 3) {
                0 => {
                    start = job.earliest_start + self.random.between(-2, 3);
                    end = job.latest_end + self.random.between(-3, 2);
                }
                1 => {
                    start = job.earliest_start;
                    end = start + job.length + self.random.between(-1, 3);
                }
                2 => {
                    end = job.latest_end;
                    start = end - job.length - self.random.between(-1, 3);
                }
                _ => {}
            }
        }
        self.line(format!("(cut {number} (win {start} {end}))"));
    }

    /// A plan: with any small budget, with just enough, or with one too few.
    fn plan(&mut self) {
        let tries = match plan(&self.board, 20_000) {
            Ok(plan) if plan.ending != Ending::Spent => Some(plan.tries),
            _ => None,
        };
        let any = self.random.between(0, 2_000);
        let few = self.random.between(0, 5);
        let usual = match (tries, self.random.between(0, 5)) {
            (Some(tries), 0 | 1) => tries,
            (Some(tries), 2) => (tries - 1).max(0),
            // The search is known to be short, so the budget may be large.
            (Some(_), 3) => 1_000_000,
            (_, 4) => few,
            _ => any,
        };
        let budget = self.or_odd(usual, &[-1, 0, 1_000_001, -9_999_999, 9_999_999]);
        self.line(format!("(plan {budget})"));
    }

    fn look_at_all(&mut self) {
        let jobs = self.board.jobs.len() as i64;
        for job in 0..jobs {
            self.line(format!("(row {job})"));
        }
        for _ in 0..self.random.between(0, 2 * jobs) {
            let (a, b) = (self.job(), self.job());
            self.line(format!("(two {a} {b})"));
        }
        self.plan();
        self.plan();
        self.line("(tally)".to_string());
    }

    fn job(&mut self) -> i64 {
        let jobs = self.board.jobs.len() as i64;
        let usual = self.random.between(0, (jobs - 1).max(0));
        self.or_odd(usual, &[-1, jobs, jobs + 1, 63, 64, 65, 9_999_999, -64])
    }

    fn window(&mut self) -> (i64, i64) {
        let (least, most) = self.style.starts;
        let start = self.random.between(least, most);
        let (least, most) = self.style.spans;
        let end = (start + self.random.between(least, most)).min(500_000);
        let edges = [-500_001, -500_000, -499_999, 499_999, 500_000, 500_001];
        let (start, end) = (self.or_odd(start, &edges), self.or_odd(end, &edges));
        let turned = self.or_odd(0, &[0, 1]) == 1;
        if turned {
            (end, start)
        } else {
            (start, end)
        }
    }

    fn or_odd(&mut self, usual: i64, odd: &[i64]) -> i64 {
        if self.random.chance(self.style.odd_percent) {
            self.random.pick(odd)
        } else {
            usual
        }
    }
}

#[cfg(test)]
mod tests {
    use super::*;

    #[test]
    fn the_same_seed_gives_the_same_text() {
        for stream in 0..50 {
            let first = random_text(&mut Random::new(3, stream));
            let second = random_text(&mut Random::new(3, stream));
            assert_eq!(first, second);
        }
        let first = random_text(&mut Random::new(3, 0));
        assert_ne!(first, random_text(&mut Random::new(4, 0)));
        assert_ne!(first, random_text(&mut Random::new(3, 1)));
    }

    #[test]
    fn between_takes_in_both_ends() {
        let mut random = Random::new(1, 0);
        let mut seen = [false; 5];
        for _ in 0..200 {
            seen[(random.between(-2, 2) + 2) as usize] = true;
        }
        assert_eq!(seen, [true; 5]);
    }
}
