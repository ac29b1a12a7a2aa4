//! A reference for the program `bayboard`: the same paper, read a second time
//! and written as plainly as can be. It answers texts, writes the stored
//! output of the cases, and compares itself with the program.

#![forbid(unsafe_code)]

mod board;
mod closure;
mod compare;
mod damage;
mod planner;
mod random;
mod text;

use std::io::{self, Read, Write};
use std::path::Path;
use std::process::ExitCode;

const USAGE: &str = "use: answer | cases FILE.. | compare N [SEED]";

fn main() -> ExitCode {
    let words: Vec<String> = std::env::args().skip(1).collect();
    let words: Vec<&str> = words.iter().map(String::as_str).collect();
    let done = match words[..] {
        ["answer"] => answer_input().map(|()| true),
        ["cases", ref files @ ..] => write_cases(files, &mut io::stdout()).map(|()| true),
        ["compare", count] => compare_texts(count, "1"),
        ["compare", count, seed] => compare_texts(count, seed),
        _ => Err(io::Error::other(USAGE)),
    };
    match done {
        Ok(true) => ExitCode::SUCCESS,
        Ok(false) => ExitCode::from(1),
        Err(error) => {
            eprintln!("{error}");
            ExitCode::from(2)
        }
    }
}

fn answer_input() -> io::Result<()> {
    let mut input = Vec::new();
    io::stdin().read_to_end(&mut input)?;
    io::stdout().write_all(&text::answer(&input))
}

/// For each file a line with its base name, then the answers to its text.
fn write_cases(files: &[&str], output: &mut impl Write) -> io::Result<()> {
    for file in files {
        let input = std::fs::read(file)?;
        let name = Path::new(file).file_name().unwrap_or_default();
        writeln!(output, "{}", name.to_string_lossy())?;
        output.write_all(&text::answer(&input))?;
    }
    Ok(())
}

fn compare_texts(count: &str, seed: &str) -> io::Result<bool> {
    match (count.parse(), seed.parse()) {
        (Ok(count), Ok(seed)) => Ok(compare::compare(count, seed)),
        _ => Err(io::Error::other(USAGE)),
    }
}

#[cfg(test)]
mod tests {
    use super::*;

    #[test]
    fn each_case_gets_its_name_and_its_answers() {
        let folder = std::env::temp_dir().join(format!("reference-{}", std::process::id()));
        std::fs::create_dir_all(&folder).unwrap();
        let one = folder.join("one");
        let two = folder.join("two");
        std::fs::write(&one, "(tally)\n").unwrap();
        std::fs::write(&two, "").unwrap();
        let mut output = Vec::new();
        let files = [one.to_str().unwrap(), two.to_str().unwrap()];
        write_cases(&files, &mut output).unwrap();
        assert_eq!(output, b"one\n(tally 0)\ntwo\n");
        std::fs::remove_dir_all(&folder).unwrap();
    }
}
