//! The hunter: looks for the board whose last entry takes a library longest, and for the one where it takes longest beside the baseline,
//! by random boards, the families, and climbing from them. The worst boards are printed as texts.
mod catch;
mod chance;
mod climb;
mod draft;
mod lasts;
mod starts;
mod steps;
mod trial;

use crate::baseline;
use crate::entry::Enters;
use crate::loaded::{Library, Loaded};
use crate::measure::Turns;
use crate::plain::Plain;
use crate::times::Times;
use catch::Catch;
use climb::Hunter;
use std::time::Duration;
use trial::Goal;

const TURNS: Turns = Turns {
    least: 21,
    most: 1001,
    time: Duration::from_millis(200),
};

/// A catch measured as the families are.
struct Row {
    catch: Catch,
    /// What the plain fixed point infers from the last entry.
    inferences: usize,
    times: Times,
}

impl Row {
    /// Enters the text from its first line on, everywhere: the boards and answers must agree.
    fn of(library: &'static Library, catch: Catch) -> Row {
        let mut loaded = Loaded::empty(library);
        let (mut board, mut plain) = (baseline::Board::empty(), Plain::empty());
        for entry in catch.draft.entries() {
            let answers = [loaded.enter(entry), board.enter(entry), plain.enter(entry)];
            assert_eq!(answers, [Ok(()); 3], "{entry} of\n{}", catch.draft);
        }
        let boards = [loaded.kept(), board.kept(), plain.kept()];
        assert!(boards == [catch.ground.board.kept(); 3], "{}", catch.draft);
        let last = catch.draft.last;
        let mut entered = plain.clone();
        let _ = entered.enter(last);
        Row {
            catch,
            inferences: entered.inferences(),
            times: Times::of(TURNS, loaded, board, plain, last),
        }
    }

    fn print(&self) {
        let [kind, outcome] = self.catch.name();
        println!(
            "| {kind} | {outcome} | {} | {} | {} |",
            self.catch.draft.jobs.len(),
            self.catch.draft.arcs.len(),
            self.times,
        );
    }

    /// Which one it is, what its last entry comes to, and the text.
    fn print_text(&self, which: &str) {
        let (before, after) = (&self.catch.ground.board, &self.catch.trial.after);
        let arcs = |board: &baseline::Board| board.after.map(u64::count_ones).iter().sum::<u32>();
        let moved = |job: &usize| {
            before.earliest[*job] != after.earliest[*job]
                || before.latest[*job] != after.latest[*job]
        };
        println!(
            "\n{which}: {} of the jobs valid, {} invalid. The last entry moves {} windows, makes {} jobs invalid, and alters the number of arcs \
             from {} to {}; the plain fixed point infers {}.\n",
            before.valid.count_ones(),
            before.invalid.count_ones(),
            (0..before.jobs).filter(moved).count(),
            (after.invalid & !before.invalid).count_ones(),
            arcs(before),
            arcs(after),
            self.inferences,
        );
        print!("{}", self.catch.draft);
    }
}

/// The first row's text, and that of the first one that is refused: a text can repeat it, while an accepted entry is shown already when it comes again.
fn print_texts(rows: &[Row]) {
    if let Some(first) = rows.first() {
        first.print_text("The first of them");
    }
    let refused = rows.iter().position(|row| !row.catch.trial.accepted);
    if let Some(place @ 1..) = refused {
        rows[place].print_text("The first that is refused, so that a text can repeat it");
    }
}

fn print_goal(library: &'static Library, goal: Goal, time: Duration, seed: u64) {
    let worst = Hunter::new(library, goal, time, seed).hunt();
    let rows = worst.all().map(|catch| Row::of(library, catch));
    let mut rows: Vec<Row> = rows.collect();
    let score = |row: &Row| goal.score(row.times.library, row.times.baseline);
    rows.sort_by(|a, b| score(b).total_cmp(&score(a)));
    println!("| last entry | outcome | jobs | arcs | library | baseline | ratio | plain | ratio |");
    println!("|---|---|---|---|---|---|---|---|---|");
    rows.iter().for_each(Row::print);
    print_texts(&rows);
}

/// Hunts in a shared object, half of the time for each goal.
pub fn print(path: &str, seconds: u64, seed: u64) {
    let library = Library::load(path);
    let time = Duration::from_secs(seconds) / 2;
    println!("The slowest entry, in microseconds:\n");
    print_goal(library, Goal::Time, time, seed);
    println!("\nThe entry with the greatest ratio to the baseline:\n");
    print_goal(library, Goal::Ratio, time, seed);
}
