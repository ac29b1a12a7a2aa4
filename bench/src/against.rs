//! Two libraries in one run, the calls on a checked board: microseconds before and after, and the ratio.
use crate::compare::{compare, prepare, prepare_found};
use crate::entry::{Enters, Entry};
use crate::families::{Case, FAMILIES, OUTCOMES};
use crate::found;
use crate::loaded::{Library, Loaded};
use crate::loads::LOADS;
use crate::measure::{measure, Measured, Turns};
use crate::works::{Last, Whole};
use crate::SIZES;
use std::time::Duration;

/// The one before and the one after.
type Pair = [&'static Library; 2];

const LOADED: Turns = Turns {
    least: 21,
    most: 2001,
    time: Duration::from_millis(400),
};

const LAST: Turns = Turns {
    least: 9,
    most: 1001,
    time: Duration::from_millis(40),
};

/// The entries by both libraries: their answers and boards must agree with those of a dock. Gives their boards.
fn entered(libraries: Pair, entries: &[Entry]) -> [Loaded; 2] {
    let mut dock = bayboard::Dock::new();
    let mut boards = libraries.map(Loaded::empty);
    for &entry in entries {
        let answer = dock.enter(entry);
        for board in &mut boards {
            assert_eq!(board.enter(entry), answer, "{entry:?}");
            assert!(board.kept() == dock.kept(), "the board after {entry:?}");
        }
    }
    boards
}

fn print_row(name: &str, measured: &[Measured]) {
    let ratio = measured[1].ratio;
    println!(
        "| {name} | {:.3} | {:.3} | **{:.2}** ({:.2} to {:.2}) |",
        measured[0].time.middle, measured[1].time.middle, ratio.middle, ratio.low, ratio.high
    );
}

fn print_loads(libraries: Pair) {
    println!("| load | jobs | before | after | ratio |");
    println!("|---|---|---|---|---|");
    for load in &LOADS {
        for jobs in SIZES {
            let entries = (load.entries)(jobs);
            compare(&entries);
            entered(libraries, &entries);
            let [mut before, mut after] = libraries.map(|library| Whole {
                empty: Loaded::empty(library),
                entries: &entries,
            });
            let measured = measure(LOADED, &mut [&mut before, &mut after]);
            let name = format!("{} | {jobs}", load.name);
            print_row(&name, &measured);
        }
    }
}

/// The last entry alone.
fn last(libraries: Pair, entries: &[Entry], last: Entry) -> Vec<Measured> {
    let all = [entries, &[last]].concat();
    entered(libraries, &all);
    let [mut before, mut after] = entered(libraries, entries).map(|board| Last::new(board, last));
    measure(LAST, &mut [&mut before, &mut after])
}

/// The same of a case.
fn last_of_case(libraries: Pair, case: &Case) -> Vec<Measured> {
    prepare(case);
    last(libraries, &case.entries, case.last)
}

fn print_families(libraries: Pair) {
    println!("| family | outcome | jobs | manner | before | after | ratio |");
    println!("|---|---|---|---|---|---|---|");
    for family in &FAMILIES {
        for outcome in OUTCOMES {
            for jobs in SIZES {
                let cases = family.cases(jobs, outcome);
                let rows = cases
                    .iter()
                    .map(|case| (case.manner, last_of_case(libraries, case)));
                let worst =
                    rows.max_by(|(_, a), (_, b)| a[1].ratio.middle.total_cmp(&b[1].ratio.middle));
                if let Some((manner, measured)) = worst {
                    let name = format!("{} | {outcome} | {jobs} | {manner}", family.name);
                    print_row(&name, &measured);
                }
            }
        }
    }
}

fn print_found(libraries: Pair) {
    println!("| board | outcome | jobs | before | after | ratio |");
    println!("|---|---|---|---|---|---|");
    for found in found::all() {
        let jobs = prepare_found(&found).baseline.jobs;
        let measured = last(libraries, &found.entries, found.last);
        let name = format!("{} | {} | {jobs}", found.name, found.outcome);
        print_row(&name, &measured);
    }
}

/// The tables of two shared objects.
pub fn print(before: &str, after: &str) {
    let libraries = [before, after].map(Library::load);
    println!("Microseconds for each entry of a load, and the ratio with its quartiles:\n");
    print_loads(libraries);
    println!("\nMicroseconds of the last entry, in the manner in which the second library does worst beside the first:\n");
    print_families(libraries);
    println!("\nMicroseconds of the last entry of the boards that the hunter found:\n");
    print_found(libraries);
}
