//! The tables of the last entries, of the families and of the boards that the hunter found: microseconds by the library on a checked board,
//! by the baseline and by the plain fixed point, and which rows take longer than they should.
use crate::compare::{prepare, prepare_found, Boards};
use crate::entry::Entry;
use crate::families::{Case, FAMILIES, OUTCOMES};
use crate::found;
use crate::measure::Turns;
use crate::times::Times;
use crate::SIZES;
use std::time::Duration;

const TURNS: Turns = Turns {
    least: 9,
    most: 401,
    time: Duration::from_millis(40),
};

fn measured(before: Boards, last: Entry) -> Times {
    Times::of(TURNS, before.dock, before.baseline, before.plain, last)
}

/// Prints a row, with its first cells as given. Says whether it is slow.
fn print_row(cells: &str, times: &Times, jobs: usize) -> bool {
    let is_slow = times.is_slow(jobs);
    let mark = if is_slow { "**slow**" } else { "" };
    println!("| {cells} | {times} | {mark} |");
    is_slow
}

fn print_families() {
    println!("Microseconds of the last entry, in the manner in which the library takes longest beside the faster of the other two:\n");
    println!("| family | outcome | jobs | manner | library | baseline | ratio | plain | ratio | |");
    println!("|---|---|---|---|---|---|---|---|---|---|");
    let mut slow = 0;
    for family in &FAMILIES {
        for outcome in OUTCOMES {
            for jobs in SIZES {
                let cases = family.cases(jobs, outcome);
                let times = |case: &Case| (case.manner, measured(prepare(case), case.last));
                let rows = cases.iter().map(times);
                let worst = rows.max_by(|(_, a), (_, b)| a.share().total_cmp(&b.share()));
                if let Some((manner, times)) = worst {
                    let cells = format!("{} | {outcome} | {jobs} | {manner}", family.name);
                    slow += usize::from(print_row(&cells, &times, jobs));
                }
            }
        }
    }
    println!("\nThe boards agree after each entry in every manner. Slow rows: {slow}.");
}

fn print_found() {
    println!("Microseconds of the last entry of the boards that the hunter found:\n");
    println!("| board | outcome | jobs | library | baseline | ratio | plain | ratio | |");
    println!("|---|---|---|---|---|---|---|---|---|");
    let mut slow = 0;
    for found in found::all() {
        let before = prepare_found(&found);
        let jobs = before.baseline.jobs;
        let cells = format!("{} | {} | {jobs}", found.name, found.outcome);
        let times = measured(before, found.last);
        slow += usize::from(print_row(&cells, &times, jobs));
    }
    println!("\nThe boards agree after each entry. Slow rows: {slow}.");
}

pub fn print() {
    print_families();
    println!();
    print_found();
}
