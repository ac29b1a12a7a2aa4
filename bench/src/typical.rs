//! The tables of the loads: microseconds for each entry at 64 jobs and the ratio to the baseline, the planner's tries, and how the
//! cost grows with the jobs.
use crate::compare::{compare, Boards};
use crate::entry::Entry;
use crate::loads::{tight, LOADS};
use crate::measure::{measure, Measured, Median, Turns};
use crate::planner::plan;
use crate::works::Whole;
use crate::{baseline, SIZES};
use bayboard::{Board, Dock};
use std::hint::black_box;

const TURNS: usize = 101;
const BUDGET: u32 = 1_000_000;

/// A load by the baseline, by the calls on a checked board, and by the calls with check 0.
fn measured(entries: &[Entry], turns: usize) -> Vec<Measured> {
    measure(
        Turns::exactly(turns),
        &mut [
            &mut Whole {
                empty: baseline::Board::empty(),
                entries,
            },
            &mut Whole {
                empty: Dock::new(),
                entries,
            },
            &mut Whole {
                empty: Board::empty(),
                entries,
            },
        ],
    )
}

fn ratio(r: Median) -> String {
    format!("**{:.2}** ({:.2} to {:.2})", r.middle, r.low, r.high)
}

fn print_loads() {
    println!("| load, 64 jobs | entries | baseline | on a checked board | ratio | with check 0 | ratio |");
    println!("|---|---|---|---|---|---|---|");
    for load in &LOADS {
        let entries = (load.entries)(64);
        let turns = if entries.len() > 1000 {
            TURNS / 5
        } else {
            TURNS
        };
        let m = measured(&entries, turns);
        let each = |number: usize| m[number].time.middle;
        println!(
            "| {} | {} | {:.2} | {:.2} | {} | {:.2} | {} |",
            load.name,
            entries.len(),
            each(0),
            each(1),
            ratio(m[1].ratio),
            each(2),
            ratio(m[2].ratio),
        );
    }
}

fn print_planner() {
    let mut boards = Boards::empty();
    for entry in tight(12) {
        boards.enter(entry).expect("the jobs fit one by one");
    }
    let tries = boards.plan(BUDGET).tries;
    let m = measure(
        Turns::exactly(TURNS / 5),
        &mut [
            &mut || {
                black_box(plan(black_box(&boards.baseline), BUDGET));
            },
            &mut || {
                let _ = black_box(black_box(&boards.dock).plan(BUDGET));
            },
            &mut || {
                let _ = black_box(black_box(&boards.checking).plan(BUDGET));
            },
        ],
    );
    let rate = |number: usize| f64::from(tries) / m[number].time.middle;
    println!("| planner, 12 tight jobs | tries | baseline | on a checked board | ratio | with check 0 | ratio |");
    println!("|---|---|---|---|---|---|---|");
    println!(
        "| million tries a second | {} | {:.0} | {:.0} | {} | {:.0} | {} |",
        tries,
        rate(0),
        rate(1),
        ratio(m[1].ratio),
        rate(2),
        ratio(m[2].ratio),
    );
}

fn print_growth() {
    println!("| load | 8 jobs | 16 jobs | 32 jobs | 64 jobs |");
    println!("|---|---|---|---|---|");
    for load in &LOADS {
        let cell = |&jobs: &usize| {
            let m = measured(&(load.entries)(jobs), TURNS / 5);
            let each = |number: usize| m[number].time.middle;
            format!("{:.2} / {:.2} / {:.2}", each(0), each(1), each(2))
        };
        let cells: Vec<String> = SIZES.iter().map(cell).collect();
        println!("| {} | {} |", load.name, cells.join(" | "));
    }
}

pub fn print() {
    for load in &LOADS {
        for jobs in SIZES {
            compare(&(load.entries)(jobs));
        }
    }
    println!("The boards agree after each entry of each load at 8, 16, 32 and 64 jobs.\n");
    println!("Microseconds for each entry, and the ratio to the baseline with its quartiles:\n");
    print_loads();
    println!();
    print_planner();
    println!("\nMicroseconds for each entry: baseline / on a checked board / with check 0\n");
    print_growth();
}
