//! The text: one bracket form a line goes in, one answer a line comes out
//! (the paper's section "The text"). It works on bytes, not on characters,
//! so any input at all has its answer.

use crate::board::{Board, Refusal, FORM, LOAD};
use crate::planner::{plan, Ending, Plan};

pub const MOST_BYTES: usize = 65_536;
const MOST_DIGITS: usize = 7;

#[derive(Clone, Copy, Debug, PartialEq, Eq)]
pub enum Form {
    Add,
    Arc,
    Mark,
    Cut,
    Row,
    Two,
    Plan,
    Tally,
}

/// Each form with the line it is written as; `#` stands for a number.
pub const FORMS: [(Form, &str); 8] = [
    (Form::Add, "(add (len #) (win # #) (mark #))"),
    (Form::Arc, "(arc # #)"),
    (Form::Mark, "(mark # #)"),
    (Form::Cut, "(cut # (win # #))"),
    (Form::Row, "(row #)"),
    (Form::Two, "(two # #)"),
    (Form::Plan, "(plan #)"),
    (Form::Tally, "(tally)"),
];

/// The answers to a whole text, on an empty board.
pub fn answer(text: &[u8]) -> Vec<u8> {
    if text.len() > MOST_BYTES {
        return [refused(LOAD).as_bytes(), b"\n"].concat();
    }
    let mut board = Board::empty();
    let mut answers = Vec::new();
    for line in text.split_inclusive(|&byte| byte == b'\n') {
        let answer = match line.strip_suffix(b"\n") {
            Some(line) => answer_line(&mut board, line),
            // Only a last line can be without its line feed.
            None => refused(FORM),
        };
        answers.extend_from_slice(answer.as_bytes());
        answers.push(b'\n');
    }
    answers
}

/// The answer to one line, given without its line feed.
pub fn answer_line(board: &mut Board, line: &[u8]) -> String {
    let answer = match read_form(line) {
        Some((form, numbers)) => carry_out(board, form, &numbers),
        None => Err(FORM),
    };
    answer.unwrap_or_else(refused)
}

/// The form that a line is, with its numbers in the order written.
pub fn read_form(line: &[u8]) -> Option<(Form, Vec<i64>)> {
    FORMS
        .iter()
        .find_map(|&(form, pattern)| Some((form, match_pattern(line, pattern)?)))
}

/// The numbers of a line that is written just as the pattern says.
fn match_pattern(line: &[u8], pattern: &str) -> Option<Vec<i64>> {
    let mut rest = line;
    let mut numbers = Vec::new();
    for wanted in pattern.bytes() {
        if wanted == b'#' {
            let (number, after) = read_number(rest)?;
            numbers.push(number);
            rest = after;
        } else {
            rest = rest.strip_prefix(&[wanted])?;
        }
    }
    rest.is_empty().then_some(numbers)
}

/// A number at the start of the bytes, and the bytes after it: an optional
/// minus and 1 to 7 decimal digits, no leading zero, no -0.
fn read_number(bytes: &[u8]) -> Option<(i64, &[u8])> {
    let (negative, unsigned) = match bytes.strip_prefix(b"-") {
        Some(after) => (true, after),
        None => (false, bytes),
    };
    let count = unsigned.iter().take_while(|b| b.is_ascii_digit()).count();
    let (digits, rest) = unsigned.split_at(count);
    if count == 0 || count > MOST_DIGITS {
        return None;
    }
    if digits[0] == b'0' && (count > 1 || negative) {
        return None;
    }
    let size = digits
        .iter()
        .fold(0, |sum, &digit| sum * 10 + i64::from(digit - b'0'));
    Some((if negative { -size } else { size }, rest))
}

fn carry_out(board: &mut Board, form: Form, n: &[i64]) -> Result<String, Refusal> {
    let ok = |()| "(ok)".to_string();
    match form {
        Form::Add => {
            let job = board.add(n[0], n[1], n[2], n[3])?;
            Ok(format!("(ok {job})"))
        }
        Form::Arc => board.arc(n[0], n[1]).map(ok),
        Form::Mark => board.mark(n[0], n[1]).map(ok),
        Form::Cut => board.cut(n[0], n[1], n[2]).map(ok),
        Form::Row => {
            let row = board.row(n[0])?;
            Ok(format!(
                "(row {} {} {} {} (before {}) (after {}))",
                n[0], row.mark, row.earliest_start, row.latest_end, row.before, row.after
            ))
        }
        Form::Two => {
            let (pair, gap) = board.pair(n[0], n[1])?;
            Ok(format!("(two {pair} {gap})"))
        }
        Form::Plan => Ok(shown_plan(&plan(board, n[0])?)),
        Form::Tally => Ok(format!("(tally {})", board.tally)),
    }
}

fn shown_plan(plan: &Plan) -> String {
    let ending = match &plan.ending {
        Ending::Found(placed) => {
            let placed: String = placed
                .iter()
                .map(|(job, start)| format!(" ({job} {start})"))
                .collect();
            format!("(found{placed})")
        }
        Ending::None => "(none)".to_string(),
        Ending::Spent => "(spent)".to_string(),
    };
    format!("(plan {} {ending})", plan.tries)
}

fn refused(refusal: Refusal) -> String {
    format!("(no {})", refusal.0)
}

#[cfg(test)]
mod tests {
    use super::*;

    fn answers(text: &str) -> String {
        String::from_utf8(answer(text.as_bytes())).unwrap()
    }

    #[test]
    fn the_whole_case_of_the_paper() {
        let case = [
            ("(add (len 30) (win 0 100) (mark 1))", "(ok 0)"),
            ("(add (len 40) (win 0 100) (mark 0))", "(ok 1)"),
            ("(add (len 20) (win 10 60) (mark 1))", "(ok 2)"),
            ("(arc 0 2)", "(ok)"),
            ("(row 1)", "(row 1 0 50 100 (before 5) (after 0))"),
            ("(two 2 1)", "(two 1 -10)"),
            ("(plan 100)", "(plan 2 (found (0 0) (2 30)))"),
            ("(cut 1 (win 0 85))", "(ok)"),
            ("(row 1)", "(row 1 2 0 0 (before 0) (after 0))"),
            ("(mark 1 1)", "(no 8)"),
            ("(tally)", "(tally 1)"),
        ];
        let text: String = case.iter().map(|(line, _)| format!("{line}\n")).collect();
        let wanted: String = case.iter().map(|(_, line)| format!("{line}\n")).collect();
        assert_eq!(answers(&text), wanted);
    }

    #[test]
    fn numbers() {
        for (written, number) in [
            ("0", 0),
            ("7", 7),
            ("-1", -1),
            ("10", 10),
            ("9999999", 9_999_999),
            ("-9999999", -9_999_999),
        ] {
            assert_eq!(
                read_number(written.as_bytes()),
                Some((number, &b""[..])),
                "{written}"
            );
        }
        for written in [
            "", "-", "-0", "00", "01", "-01", "--1", "+1", " 1", "10000000", "x", "-x", "00000001",
        ] {
            assert_eq!(read_number(written.as_bytes()), None, "{written}");
        }
        assert_eq!(read_number(b"12 3"), Some((12, &b" 3"[..])));
    }

    #[test]
    fn only_the_exact_line_is_a_form() {
        for line in [
            "(tally) ",
            " (tally)",
            "(tally",
            "tally",
            "(tally))",
            "(Tally)",
            "(tally)(tally)",
            "(tally)\r",
            "(row  1)",
            "(row\t1)",
            "(row 1 )",
            "(row)",
            "(row 1 1)",
            "(arc 0)",
            "(add (len 5) (win 0 100))",
            "(cut 0 (win 0 100) )",
            "(tally)\0",
            "",
        ] {
            assert_eq!(read_form(line.as_bytes()), None, "{line}");
        }
        assert_eq!(
            read_form(b"(cut 3 (win -1 2))"),
            Some((Form::Cut, vec![3, -1, 2]))
        );
        assert_eq!(read_form(b"(tally)"), Some((Form::Tally, vec![])));
    }

    #[test]
    fn line_feeds() {
        assert_eq!(answers(""), "");
        assert_eq!(answers("\n"), "(no 10)\n");
        assert_eq!(answers("(tally)\n\n"), "(tally 0)\n(no 10)\n");
        assert_eq!(answers("(tally)\n(tally)"), "(tally 0)\n(no 10)\n");
        assert_eq!(answer(b"\xff\n(tally)\n"), b"(no 10)\n(tally 0)\n");
    }

    #[test]
    fn the_longest_text() {
        let mut text = b"(tally)\n".to_vec();
        text.resize(MOST_BYTES - 1, b'x');
        text.push(b'\n');
        assert_eq!(answer(&text), b"(tally 0)\n(no 10)\n");
        text.push(b'\n');
        assert_eq!(answer(&text), b"(no 11)\n");
    }
}
