//! The comparison: random texts go to the program `bayboard` and to this
//! reference, and both answers have to agree byte for byte (the paper's "further
//! cases go through bayboard").

use std::io::{self, Write};
use std::path::{Path, PathBuf};
use std::process::{ChildStdin, Command, Stdio};
use std::thread;
use std::time::Duration;

use crate::random::{random_text, Random};
use crate::text::{answer, read_form, FORMS, MOST_BYTES};

const PROGRAM: &str = concat!(env!("CARGO_MANIFEST_DIR"), "/../target/bin/bayboard");
const THREADS: u64 = 2;

/// What the texts held, so that one sees that everything was met.
#[derive(Clone, Debug, Default, PartialEq, Eq)]
struct Counts {
    texts: u64,
    differ: u64,
    lines: u64,
    forms: [u64; 8],
    refusals: [u64; 12],
    found: u64,
    none: u64,
    spent: u64,
    /// Pairs shown as 0, 1, 2 and 3.
    pairs: [u64; 4],
    invalid_rows: u64,
    full_boards: u64,
}

/// Compares `count` texts; true if none differs.
pub fn compare(count: u64, seed: u64) -> bool {
    let workers: Vec<_> = (0..THREADS)
        .map(|first| thread::spawn(move || compare_share(first, count, seed)))
        .collect();
    let mut all = Counts::default();
    for worker in workers {
        let counts = worker
            .join()
            .expect("a thread of the comparison broke off")
            .unwrap_or_else(|error| {
                eprintln!("{PROGRAM}: {error}");
                std::process::exit(2);
            });
        all.take_in(&counts);
    }
    print!("{}", all.report());
    all.differ == 0
}

/// Every second text (as there are two threads), up to the first that differs.
fn compare_share(first: u64, count: u64, seed: u64) -> io::Result<Counts> {
    let mut counts = Counts::default();
    for number in (first..count).step_by(THREADS as usize) {
        let mut random = Random::new(seed, number);
        let text = random_text(&mut random);
        let pieces = if random.chance(50) {
            random.between(2, 8) as usize
        } else {
            1
        };
        let wanted = answer(&text);
        let given = run_program(Path::new(PROGRAM), &text, pieces)?;
        counts.count_text(&text, &wanted);
        if given != wanted {
            counts.differ += 1;
            let file = write_differing(&text, seed, number)?;
            println!("{}", describe(&file, &text, &wanted, &given));
            break;
        }
    }
    Ok(counts)
}

/// Runs the program with the text as its standard input. Writing goes on in a
/// thread of its own: the program may answer before it has read all.
fn run_program(program: &Path, text: &[u8], pieces: usize) -> io::Result<Vec<u8>> {
    let mut child = Command::new(program)
        .stdin(Stdio::piped())
        .stdout(Stdio::piped())
        .spawn()?;
    let input = child.stdin.take().expect("the input is a pipe");
    thread::scope(|scope| {
        scope.spawn(move || write_pieces(input, text, pieces));
        child.wait_with_output().map(|output| output.stdout)
    })
}

/// A failed write is no fault: a program may stop reading a text that is too long.
fn write_pieces(mut input: ChildStdin, text: &[u8], pieces: usize) {
    let size = (text.len() / pieces).max(1);
    for piece in text.chunks(size) {
        if input.write_all(piece).and_then(|()| input.flush()).is_err() {
            return;
        }
        if pieces > 1 {
            // Gives the program the time to meet a piece on its own.
            thread::sleep(Duration::from_micros(100));
        }
    }
}

fn write_differing(text: &[u8], seed: u64, number: u64) -> io::Result<PathBuf> {
    let file = std::env::temp_dir().join(format!("differs-{seed}-{number}.txt"));
    std::fs::write(&file, text)?;
    Ok(file)
}

/// The file, and the first line whose answers differ.
fn describe(file: &Path, text: &[u8], wanted: &[u8], given: &[u8]) -> String {
    let wanted = lines_of(wanted);
    let given = lines_of(given);
    let place = (0..wanted.len().max(given.len()))
        .find(|&k| wanted.get(k) != given.get(k))
        .unwrap_or(0);
    let shown = |lines: &[&[u8]]| match lines.get(place) {
        Some(line) => line.escape_ascii().to_string(),
        None => "(no line)".to_string(),
    };
    format!(
        "{} differs at line {}\n  text      {}\n  reference {}\n  program   {}",
        file.display(),
        place + 1,
        shown(&lines_of(text)),
        shown(&wanted),
        shown(&given)
    )
}

/// The lines with their line feeds, so that a lost last line feed shows.
fn lines_of(text: &[u8]) -> Vec<&[u8]> {
    text.split_inclusive(|&byte| byte == b'\n').collect()
}

impl Counts {
    fn count_text(&mut self, text: &[u8], answers: &[u8]) {
        self.texts += 1;
        let answers = lines_of(answers);
        self.lines += answers.len() as u64;
        for line in &answers {
            self.count_answer(line);
        }
        if answers.contains(&&b"(ok 63)\n"[..]) {
            self.full_boards += 1;
        }
        if text.len() > MOST_BYTES {
            return;
        }
        for line in lines_of(text) {
            let form = line.strip_suffix(b"\n").and_then(read_form);
            if let Some((form, _)) = form {
                let place = FORMS.iter().position(|&(other, _)| other == form);
                self.forms[place.expect("every form is in the list")] += 1;
            }
        }
    }

    fn count_answer(&mut self, line: &[u8]) {
        let line = String::from_utf8_lossy(line);
        let number = line
            .strip_prefix("(no ")
            .and_then(|l| l.strip_suffix(")\n"));
        if let Some(number) = number {
            let number: usize = number.parse().expect("a refusal is a number");
            self.refusals[number] += 1;
        }
        if line.starts_with("(plan ") {
            self.found += u64::from(line.contains("(found"));
            self.none += u64::from(line.contains("(none)"));
            self.spent += u64::from(line.contains("(spent)"));
        }
        if let Some(pair) = line.strip_prefix("(two ") {
            let pair = usize::from(pair.as_bytes()[0] - b'0');
            self.pairs[pair] += 1;
        }
        // "(row", the job, the mark: the third word of the answer.
        if line.starts_with("(row ") && line.split(' ').nth(2) == Some("2") {
            self.invalid_rows += 1;
        }
    }

    fn take_in(&mut self, other: &Counts) {
        self.texts += other.texts;
        self.differ += other.differ;
        self.lines += other.lines;
        add_each(&mut self.forms, &other.forms);
        add_each(&mut self.refusals, &other.refusals);
        add_each(&mut self.pairs, &other.pairs);
        self.invalid_rows += other.invalid_rows;
        self.found += other.found;
        self.none += other.none;
        self.spent += other.spent;
        self.full_boards += other.full_boards;
    }

    fn report(&self) -> String {
        let forms: String = FORMS
            .iter()
            .zip(self.forms)
            .map(|((form, _), count)| format!(", {form:?} {count}").to_lowercase())
            .collect();
        format!(
            "{} lines{forms}; {} boards reached 64 jobs\n\
             refusals{}; plans found {}, none {}, spent {}; pairs{}; {} rows of invalid jobs\n\
             {} texts compared, {} differ\n",
            self.lines,
            self.full_boards,
            numbered(&self.refusals),
            self.found,
            self.none,
            self.spent,
            numbered(&self.pairs),
            self.invalid_rows,
            self.texts,
            self.differ
        )
    }
}

fn add_each(sums: &mut [u64], counts: &[u64]) {
    for (sum, count) in sums.iter_mut().zip(counts) {
        *sum += count;
    }
}

fn numbered(counts: &[u64]) -> String {
    (0..)
        .zip(counts)
        .map(|(number, count): (u64, _)| format!(" {number}:{count}"))
        .collect()
}

#[cfg(test)]
mod tests {
    use super::*;

    #[test]
    fn counts_of_a_text() {
        let mut counts = Counts::default();
        let text = b"(add (len 0) (win 0 1) (mark 0))\n(plan 0)\nx\n(tally)";
        counts.count_text(text, &answer(text));
        assert_eq!((counts.texts, counts.lines, counts.found), (1, 4, 1));
        assert_eq!(counts.forms, [1, 0, 0, 0, 0, 0, 1, 0]);
        assert_eq!((counts.refusals[4], counts.refusals[10]), (1, 2));
        let mut sum = counts.clone();
        sum.take_in(&counts);
        assert_eq!((sum.lines, sum.refusals[10], sum.forms[0]), (8, 4, 2));
    }

    #[test]
    fn the_first_differing_line_is_shown() {
        let shown = describe(
            Path::new("file"),
            b"(tally)\n(row 0)\n",
            b"(tally 0)\n(no 2)\n",
            b"(tally 0)\n",
        );
        assert_eq!(
            shown,
            "file differs at line 2\n  text      (row 0)\\n\n  \
             reference (no 2)\\n\n  program   (no line)"
        );
    }

    /// `cat` hands back what it reads, so each piece has to arrive.
    #[test]
    fn a_text_in_pieces_arrives_whole() {
        let text: Vec<u8> = (0..200_000u32).map(|k| (k % 251) as u8).collect();
        for pieces in [1, 2, 7] {
            let given = run_program(Path::new("cat"), &text, pieces).unwrap();
            assert!(given == text);
        }
        assert!(run_program(Path::new("cat"), b"", 3).unwrap().is_empty());
    }
}
