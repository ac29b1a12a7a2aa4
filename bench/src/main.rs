//! The proved library against two independent boards, and against another library, each in one run.
//!
//! Without a word: the loads and the planner, against the baseline. `families`: the last entries of the families and of the boards that were found.
//! `against BEFORE AFTER`: two libraries as shared objects, over the loads, the families and the boards that were found. `hunt LIBRARY SECONDS SEED`:
//! the slowest entries that random changes find.
//! Boards and answers are compared before anything is timed.
mod against;
mod baseline;
mod clock;
mod compare;
mod entry;
mod families;
mod found;
mod hunt;
mod last_entries;
mod loaded;
mod loads;
mod measure;
mod plain;
mod planner;
mod proved;
mod times;
mod typical;
mod words;
mod works;

/// The sizes of all tables.
const SIZES: [usize; 4] = [8, 16, 32, 64];

fn main() {
    let words: Vec<String> = std::env::args().skip(1).collect();
    let words: Vec<&str> = words.iter().map(String::as_str).collect();
    match words[..] {
        [] => typical::print(),
        ["families"] => last_entries::print(),
        ["against", before, after] => against::print(before, after),
        ["hunt", library, seconds, seed] => match (seconds.parse(), seed.parse()) {
            (Ok(seconds), Ok(seed)) => hunt::print(library, seconds, seed),
            _ => fail(),
        },
        _ => fail(),
    }
}

fn fail() -> ! {
    eprintln!("bench [families | against BEFORE AFTER | hunt LIBRARY SECONDS SEED]");
    std::process::exit(2);
}
