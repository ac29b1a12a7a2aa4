//! What the calls take and give, as Rust's own types: the library's numbers are made into them.
use crate::ffi::{PairReply, PlanReply, Reply, RowReply};
use crate::Board;
use std::fmt;

/// A job's mark.
#[derive(Clone, Copy, Debug, PartialEq, Eq, Hash)]
pub enum Mark {
    Undecided = 0,
    /// The job takes place.
    Valid = 1,
    /// The job doesn't take place.
    Invalid = 2,
}

/// Why a call is refused, with the paper's numbers. A refusal alters nothing, but for [`Refusal::Impossible`], which counts
/// one in the tally. (The refusals 10 and 11 belong to the text program alone.) Further calls may bring further refusals.
#[non_exhaustive]
#[derive(Clone, Copy, Debug, PartialEq, Eq, Hash)]
pub enum Refusal {
    /// The board breaks a limit, keeps something twice that doesn't agree, or isn't closed over what it shows.
    Board = 0,
    /// The board has 64 jobs already.
    Full = 1,
    /// A number that no job has.
    Job = 2,
    /// An arc or a pair names one job twice.
    Same = 3,
    /// A length below 1 or above 10000.
    Length = 4,
    /// E or D outside -500000 to 500000.
    Time = 5,
    /// E above D.
    Window = 6,
    /// [`Mark::Invalid`] in an addition, or [`Mark::Undecided`] in a mark.
    Mark = 7,
    /// There is no schedule and no closed board with this entry.
    Impossible = 8,
    /// A budget above 1000000.
    Budget = 9,
}

impl fmt::Display for Refusal {
    fn fmt(&self, f: &mut fmt::Formatter<'_>) -> fmt::Result {
        let reason = match self {
            Refusal::Board => "the board is not in order",
            Refusal::Full => "the board is full",
            Refusal::Job => "no such job",
            Refusal::Same => "one job twice",
            Refusal::Length => "the length is out of range",
            Refusal::Time => "a time is out of range",
            Refusal::Window => "the window is empty",
            Refusal::Mark => "no such mark here",
            Refusal::Impossible => "impossible",
            Refusal::Budget => "the budget is out of range",
        };
        f.write_str(reason)
    }
}

impl std::error::Error for Refusal {}

/// A job's row. The sets of jobs before and after it are words, bit k for job k; [`members`] lists one.
#[must_use]
#[derive(Clone, Copy, Debug, PartialEq, Eq, Hash)]
pub struct Row {
    pub mark: Mark,
    pub earliest: i32,
    pub latest: i32,
    pub before: u64,
    pub after: u64,
}

/// The arcs between two jobs A and B.
#[derive(Clone, Copy, Debug, PartialEq, Eq, Hash)]
pub enum Arcs {
    None = 0,
    /// A to B.
    Forth = 1,
    /// B to A.
    Back = 2,
    Both = 3,
}

/// Two jobs A and B: their arcs and the gap, E of B minus D of A. No arcs and 0 if either is invalid.
#[must_use]
#[derive(Clone, Copy, Debug, PartialEq, Eq, Hash)]
pub struct Pair {
    pub arcs: Arcs,
    pub gap: i32,
}

/// How a plan ends.
// A plan goes by value, without the heap.
#[allow(clippy::large_enum_variant)]
#[must_use]
#[derive(Clone, Copy, Debug, PartialEq, Eq, Hash)]
pub enum Plan {
    /// All valid jobs are placed: `placed` as a word, bit k for job k, with `starts[k]` for each. It may get further fields.
    #[non_exhaustive]
    Found {
        tries: u32,
        placed: u64,
        starts: [i32; Board::JOBS],
    },
    /// The entries have no schedule at all.
    None { tries: u32 },
    /// The tries would take more than the budget.
    Spent { budget: u32 },
}

/// The jobs of a set, in ascending number.
pub fn members(set: u64) -> impl Iterator<Item = usize> {
    (0..Board::JOBS).filter(move |job| set >> job & 1 == 1)
}

// No call replies another number: crates/call_reply_numbers/proofs/ReplyRefusals.antt.
fn refusal(number: u64) -> Refusal {
    match number {
        0 => Refusal::Board,
        1 => Refusal::Full,
        2 => Refusal::Job,
        3 => Refusal::Same,
        4 => Refusal::Length,
        5 => Refusal::Time,
        6 => Refusal::Window,
        7 => Refusal::Mark,
        8 => Refusal::Impossible,
        9 => Refusal::Budget,
        _ => unreachable!("no call gives refusal {number}"),
    }
}

// No row shows another mark: `RowShows.mark` in crates/paper_demands/specs/Paper/Views.antt.
fn mark(number: u8) -> Mark {
    match number {
        0 => Mark::Undecided,
        1 => Mark::Valid,
        2 => Mark::Invalid,
        _ => unreachable!("no row shows mark {number}"),
    }
}

// No pair has another number: `Arcs` in crates/paper_demands/specs/Paper/Views.antt.
fn arcs(number: u8) -> Arcs {
    match number {
        0 => Arcs::None,
        1 => Arcs::Forth,
        2 => Arcs::Back,
        3 => Arcs::Both,
        _ => unreachable!("no pair has arcs {number}"),
    }
}

// A job's number or a budget as the library takes it. One past what it takes is as far out of range as the greatest that it
// takes, and refused for the same reason.
pub(crate) fn number(n: impl TryInto<i32>) -> i32 {
    n.try_into().unwrap_or(i32::MAX)
}

pub(crate) fn added(reply: Reply) -> Result<usize, Refusal> {
    if reply.accepted {
        Ok(reply.number as usize)
    } else {
        Err(refusal(reply.number))
    }
}

pub(crate) fn accepted(reply: Reply) -> Result<(), Refusal> {
    added(reply).map(|_| ())
}

pub(crate) fn row(reply: RowReply) -> Result<Row, Refusal> {
    if !reply.accepted {
        return Err(refusal(reply.refusal.into()));
    }
    Ok(Row {
        mark: mark(reply.mark),
        earliest: reply.earliest,
        latest: reply.latest,
        before: reply.before,
        after: reply.after,
    })
}

pub(crate) fn pair(reply: PairReply) -> Result<Pair, Refusal> {
    if !reply.accepted {
        return Err(refusal(reply.refusal.into()));
    }
    Ok(Pair {
        arcs: arcs(reply.arcs),
        gap: reply.gap,
    })
}

pub(crate) fn plan(reply: PlanReply) -> Result<Plan, Refusal> {
    match reply.ending {
        0 => Ok(Plan::Found {
            tries: reply.number,
            placed: reply.placed,
            starts: reply.starts,
        }),
        1 => Ok(Plan::None {
            tries: reply.number,
        }),
        2 => Ok(Plan::Spent {
            budget: reply.number,
        }),
        _ => Err(refusal(reply.number.into())),
    }
}
