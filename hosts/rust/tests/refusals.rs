//! Every refusal of every call, every ending of a plan, what rows and pairs show, and the bytes of a board. The numbers are written out
//! as the paper has them, beside the names that they have here: two that are swapped in the wrapper are seen.
use bayboard::{Arcs, Board, Calls, Dock, Mark, Plan, Refusal, Row};
use Mark::{Invalid, Undecided, Valid};

/// A board with its calls: [`Board`] has check 0 in each, [`Dock`] in none.
trait Host: Calls {
    fn with(board: Board) -> Self;
    fn board(&self) -> Board;
}

impl Host for Board {
    fn with(board: Board) -> Board {
        board
    }

    fn board(&self) -> Board {
        *self
    }
}

impl Host for Dock {
    fn with(board: Board) -> Dock {
        Dock::try_from(board).expect("the board passes check 0")
    }

    fn board(&self) -> Board {
        *Dock::board(self)
    }
}

/// A call with its numbers.
#[derive(Clone, Copy, Debug)]
enum Call {
    Addition(i32, i32, i32, Mark),
    Arc(usize, usize),
    Mark(usize, Mark),
    Cut(usize, i32, i32),
    Row(usize),
    Pair(usize, usize),
    Plan(u32),
}

impl Call {
    fn refusal(self, host: &mut impl Calls) -> Option<Refusal> {
        match self {
            Call::Addition(length, earliest, latest, mark) => {
                host.addition(length, earliest, latest, mark).err()
            }
            Call::Arc(from, to) => host.arc(from, to).err(),
            Call::Mark(job, mark) => host.mark(job, mark).err(),
            Call::Cut(job, earliest, latest) => host.cut(job, earliest, latest).err(),
            Call::Row(job) => host.row(job).err(),
            Call::Pair(a, b) => host.pair(a, b).err(),
            Call::Plan(budget) => host.plan(budget).err(),
        }
    }
}

/// The paper's number of a refusal, and its name here.
type Expected = Option<(u32, Refusal)>;

const ACCEPTED: Expected = None;
const FULL: Expected = Some((1, Refusal::Full));
const JOB: Expected = Some((2, Refusal::Job));
const SAME: Expected = Some((3, Refusal::Same));
const LENGTH: Expected = Some((4, Refusal::Length));
const TIME: Expected = Some((5, Refusal::Time));
const WINDOW: Expected = Some((6, Refusal::Window));
const MARK: Expected = Some((7, Refusal::Mark));
const IMPOSSIBLE: Expected = Some((8, Refusal::Impossible));
const BUDGET: Expected = Some((9, Refusal::Budget));

/// On the board of six jobs. Each gives one reason for its refusal and no other.
const TESTS: &[(Call, Expected)] = &[
    (Call::Addition(1, -500_000, 500_000, Undecided), ACCEPTED),
    (Call::Addition(10_000, 0, 100_000, Valid), ACCEPTED),
    (Call::Addition(1, 50, 50, Undecided), ACCEPTED),
    (Call::Addition(0, 0, 100, Undecided), LENGTH),
    (Call::Addition(10_001, 0, 100_000, Undecided), LENGTH),
    (Call::Addition(10, -500_001, 100, Undecided), TIME),
    (Call::Addition(10, 0, 500_001, Undecided), TIME),
    (Call::Addition(10, 101, 100, Undecided), WINDOW),
    (Call::Addition(10, 0, 100, Invalid), MARK),
    (Call::Addition(10, 0, 9, Valid), IMPOSSIBLE),
    (Call::Arc(2, 3), ACCEPTED),
    (Call::Arc(6, 0), JOB),
    (Call::Arc(0, 6), JOB),
    (Call::Arc(usize::MAX, usize::MAX), JOB),
    (Call::Arc(0, 0), SAME),
    (Call::Arc(2, 0), IMPOSSIBLE),
    (Call::Mark(3, Valid), ACCEPTED),
    (Call::Mark(6, Valid), JOB),
    (Call::Mark(usize::MAX, Valid), JOB),
    (Call::Mark(3, Undecided), MARK),
    (Call::Mark(1, Valid), IMPOSSIBLE),
    (Call::Mark(0, Invalid), IMPOSSIBLE),
    (Call::Cut(0, -500_000, 500_000), ACCEPTED),
    (Call::Cut(6, 0, 100), JOB),
    (Call::Cut(0, -500_001, 100), TIME),
    (Call::Cut(0, 0, 500_001), TIME),
    (Call::Cut(0, 51, 50), WINDOW),
    (Call::Cut(0, 0, 9), IMPOSSIBLE),
    (Call::Row(5), ACCEPTED),
    (Call::Row(6), JOB),
    (Call::Pair(5, 0), ACCEPTED),
    (Call::Pair(6, 0), JOB),
    (Call::Pair(0, 6), JOB),
    (Call::Pair(0, 0), SAME),
    (Call::Plan(0), ACCEPTED),
    (Call::Plan(1_000_000), ACCEPTED),
    (Call::Plan(1_000_001), BUDGET),
    (Call::Plan(u32::MAX), BUDGET),
];

/// Adds jobs of a length, E, D and mark, each with the next number.
fn with_jobs<H: Host>(jobs: &[(i32, i32, i32, Mark)]) -> H {
    let mut host = H::with(Board::empty());
    for (number, &(length, earliest, latest, mark)) in jobs.iter().enumerate() {
        assert_eq!(host.addition(length, earliest, latest, mark), Ok(number));
    }
    host
}

/// Jobs 0, 2 and 5 are valid, with an arc from 0 to 2; 1 is invalid; 3 and 4 are undecided, with arcs both ways. R3 gives arcs
/// from each of them to 5, R4 raises E of 2 to 10, and R5 lowers D of 0 to 95.
fn six<H: Host>() -> H {
    let mut host: H = with_jobs(&[
        (10, 0, 100, Valid),
        (10, 0, 100, Undecided),
        (5, 0, 100, Valid),
        (5, 0, 100, Undecided),
        (5, 0, 100, Undecided),
        (5, 100, 500, Valid),
    ]);
    assert_eq!(host.mark(1, Invalid), Ok(()));
    assert_eq!(host.arc(0, 2), Ok(()));
    assert_eq!(host.arc(3, 4), Ok(()));
    assert_eq!(host.arc(4, 3), Ok(()));
    assert_eq!(host.cut(5, 0, 300), Ok(()));
    host
}

fn full<H: Host>() -> H {
    with_jobs(&[(1, 0, 100, Undecided); 64])
}

/// Three valid jobs of 10 minutes in 25: any two of them fit, so that the rules see nothing, and all three don't.
fn tight<H: Host>() -> H {
    with_jobs(&[(10, 0, 25, Valid); 3])
}

fn with_tally(mut board: Board, tally: u32) -> Board {
    board.books.tally = tally;
    board
}

/// Tests a call's refusal, and that a refusal alters nothing but the tally: "number 8 adds one", and it "stops at 1000000".
fn test_refusal<H: Host>(board: Board, call: Call, expected: Expected) {
    for (tally, next) in [(0, 1), (999_999, 1_000_000), (1_000_000, 1_000_000)] {
        let before = with_tally(board, tally);
        let mut host = H::with(before);
        let refusal = call.refusal(&mut host);
        assert_eq!(refusal, expected.map(|(_, name)| name), "{call:?}");
        let Some((number, name)) = expected else {
            continue;
        };
        assert_eq!(name as u32, number, "{name:?}");
        let tally = if number == 8 { next } else { tally };
        assert_eq!(host.board(), with_tally(before, tally), "{call:?}");
    }
}

fn test_refusals<H: Host>() {
    for &(call, expected) in TESTS {
        test_refusal::<H>(six::<H>().board(), call, expected);
    }
    test_refusal::<H>(
        full::<H>().board(),
        Call::Addition(1, 0, 100, Undecided),
        FULL,
    );
}

const fn row(mark: Mark, earliest: i32, latest: i32, before: u64, after: u64) -> Row {
    Row {
        mark,
        earliest,
        latest,
        before,
        after,
    }
}

/// A job, its length, the paper's number of its mark, and its row. In the words of a row, bit k is for job k.
const ROWS: &[(usize, i32, u8, Row)] = &[
    (0, 10, 1, row(Valid, 0, 95, 0b000000, 0b100100)),
    (1, 0, 2, row(Invalid, 0, 0, 0b000000, 0b000000)),
    (2, 5, 1, row(Valid, 10, 100, 0b000001, 0b100000)),
    (3, 5, 0, row(Undecided, 0, 100, 0b010000, 0b110000)),
    (5, 5, 1, row(Valid, 100, 300, 0b011101, 0b000000)),
];

fn test_rows<H: Host>() {
    let host = six::<H>();
    let board = host.board();
    assert_eq!(board.jobs, 6);
    for &(job, length, mark, row) in ROWS {
        assert_eq!(host.row(job), Ok(row), "job {job}");
        assert_eq!(row.mark as u8, mark, "job {job}");
        assert_eq!((board.lengths[job], board.marks[job]), (length, mark));
        assert_eq!(board.earliest[job], row.earliest, "job {job}");
        assert_eq!(board.latest[job], row.latest, "job {job}");
        assert_eq!(board.before[job], row.before, "job {job}");
        assert_eq!(board.after[job], row.after, "job {job}");
    }
}

/// Jobs A and B, the paper's number of their arcs, its name here, and the gap.
const PAIRS: &[(usize, usize, u8, Arcs, i32)] = &[
    (0, 3, 0, Arcs::None, -95),
    (0, 2, 1, Arcs::Forth, -85),
    (2, 0, 2, Arcs::Back, -100),
    (3, 4, 3, Arcs::Both, -100),
    (2, 5, 1, Arcs::Forth, 0),
    (0, 5, 1, Arcs::Forth, 5),
    (5, 0, 2, Arcs::Back, -300),
    (1, 5, 0, Arcs::None, 0),
    (5, 1, 0, Arcs::None, 0),
];

fn test_pairs<H: Host>() {
    let host = six::<H>();
    for &(a, b, number, name, gap) in PAIRS {
        let pair = host.pair(a, b).expect("a pair");
        assert_eq!((pair.arcs, pair.arcs as u8), (name, number), "{a}, {b}");
        assert_eq!(pair.gap, gap, "{a}, {b}");
    }
}

/// The tries, the placed jobs and their starts.
fn found(plan: Result<Plan, Refusal>) -> (u32, u64, [i32; 64]) {
    match plan {
        Ok(Plan::Found {
            tries,
            placed,
            starts,
            ..
        }) => (tries, placed, starts),
        other => panic!("no plan was found: {other:?}"),
    }
}

fn test_plans<H: Host>() {
    let mut starts = [0; 64];
    assert_eq!(found(with_jobs::<H>(&[]).plan(0)), (0, 0, starts));
    (starts[2], starts[5]) = (10, 100);
    assert_eq!(found(six::<H>().plan(3)), (3, 0b100101, starts));
    assert_eq!(tight::<H>().plan(15), Ok(Plan::None { tries: 15 }));
    assert_eq!(tight::<H>().plan(14), Ok(Plan::Spent { budget: 14 }));
    assert_eq!(six::<H>().plan(2), Ok(Plan::Spent { budget: 2 }));
}

#[test]
fn a_board_replies_as_the_paper_says() {
    test_refusals::<Board>();
    test_rows::<Board>();
    test_pairs::<Board>();
    test_plans::<Board>();
}

#[test]
fn a_dock_replies_as_the_paper_says() {
    test_refusals::<Dock>();
    test_rows::<Dock>();
    test_pairs::<Dock>();
    test_plans::<Dock>();
}

type Damage = fn(&mut Board);

/// Ways to break the board of six jobs.
const BROKEN: &[(&str, Damage)] = &[
    ("65 jobs", |b| b.jobs = 65),
    ("the greatest number of jobs", |b| b.jobs = usize::MAX),
    ("a tally of 1000001", |b| b.books.tally = 1_000_001),
    ("a length of 0", |b| b.lengths[5] = 0),
    ("a length of 10001", |b| {
        (b.lengths[5], b.latest[5]) = (10_001, 20_000)
    }),
    ("E below the limit", |b| b.earliest[0] = -500_001),
    ("D above the limit", |b| b.latest[5] = 500_001),
    ("E above D", |b| b.earliest[5] = 301),
    ("a mark of 3", |b| b.marks[5] = 3),
    ("an invalid job with a length", |b| b.lengths[1] = 1),
    ("an invalid job with a window", |b| b.latest[1] = 1),
    ("an arc to an invalid job", |b| link(b, 0, 1)),
    ("an arc from a job to itself", |b| link(b, 0, 0)),
    ("an arc to no job", |b| link(b, 0, 40)),
    ("an arc in the words after alone", |b| b.after[5] |= 1 << 3),
    ("an arc in the words before alone", |b| {
        b.before[3] |= 1 << 5
    }),
    ("no job, with a length", |b| b.lengths[63] = 1),
    ("no job, with E", |b| b.earliest[63] = 1),
    ("no job, with D", |b| b.latest[63] = 1),
    ("no job, with a mark", |b| b.marks[63] = 1),
    ("not closed under R2", |b| b.marks[3] = 1),
    ("not closed under R1 and R3", |b| {
        b.after[0] &= !(1 << 5);
        b.before[5] &= !(1 << 0);
    }),
    ("not closed under R4", |b| b.earliest[2] = 9),
    ("not closed under R5", |b| b.latest[0] = 96),
    ("not closed under R6", |b| b.earliest[3] = 96),
];

fn link(board: &mut Board, from: usize, to: usize) {
    board.after[from] |= 1 << to;
    board.before[to] |= 1 << from;
}

/// Check 0 comes first: every call is refused as 0, whatever its numbers.
#[test]
fn a_broken_board_is_refused() {
    let six: Board = six();
    assert_eq!(Dock::try_from(six).map(Board::from), Ok(six));
    assert_eq!(Refusal::Board as u32, 0);
    for (broken, damage) in BROKEN {
        let mut board = six;
        damage(&mut board);
        let before = board;
        assert_eq!(Dock::try_from(board), Err(Refusal::Board), "{broken}");
        assert_eq!(Board::from_bytes(&board.to_bytes()), board, "{broken}");
        for &(call, _) in TESTS {
            let refusal = call.refusal(&mut board);
            assert_eq!(refusal, Some(Refusal::Board), "{broken}: {call:?}");
            assert_eq!(board, before, "{broken}: {call:?}");
        }
    }
}

#[test]
fn refusals_say_why() {
    let texts = [
        (Refusal::Board, "the board is not in order"),
        (Refusal::Full, "the board is full"),
        (Refusal::Job, "no such job"),
        (Refusal::Same, "one job twice"),
        (Refusal::Length, "the length is out of range"),
        (Refusal::Time, "a time is out of range"),
        (Refusal::Window, "the window is empty"),
        (Refusal::Mark, "no such mark here"),
        (Refusal::Impossible, "impossible"),
        (Refusal::Budget, "the budget is out of range"),
    ];
    for (refusal, text) in texts {
        assert_eq!(refusal.to_string(), text);
    }
}

/// At each limit stand calls of the table above, with the numbers written out.
#[test]
fn limits_are_the_papers() {
    assert_eq!(Board::JOBS, 64);
    assert_eq!((Board::SHORTEST, Board::LONGEST), (1, 10_000));
    assert_eq!(
        (Board::FIRST_MINUTE, Board::LAST_MINUTE),
        (-500_000, 500_000)
    );
    assert_eq!((Board::TALLY, Board::BUDGET), (1_000_000, 1_000_000));
}

/// A number of so many bytes, the least first.
fn number_at(bytes: &[u8], offset: usize, size: usize) -> u64 {
    let most_first = bytes[offset..offset + size].iter().rev();
    most_first.fold(0, |number, &byte| number << 8 | u64::from(byte))
}

/// The offsets are those of hosts/c/bayboard.h.
fn test_bytes(board: Board) {
    let bytes = board.to_bytes();
    let minutes = |offset: usize, k: usize| number_at(&bytes, offset + 4 * k, 4) as u32 as i32;
    let word = |offset: usize, k: usize| number_at(&bytes, offset + 8 * k, 8);
    assert_eq!((bytes.len(), word(0, 0)), (1872, board.jobs as u64));
    for k in 0..64 {
        assert_eq!(minutes(8, k), board.lengths[k], "length {k}");
        assert_eq!(minutes(264, k), board.earliest[k], "E {k}");
        assert_eq!(minutes(520, k), board.latest[k], "D {k}");
        assert_eq!(bytes[776 + k], board.marks[k], "mark {k}");
        assert_eq!(word(840, k), board.after[k], "after {k}");
        assert_eq!(word(1352, k), board.before[k], "before {k}");
    }
    assert_eq!(word(1864, 0), u64::from(board.books.tally));
    let mut padded = bytes;
    padded[1868..].fill(255);
    assert_eq!(Board::from_bytes(&bytes), board);
    assert_eq!(Board::from_bytes(&padded), board);
}

#[test]
fn a_board_goes_to_bytes_and_back() {
    let night: Board = with_jobs(&[(10, -2, 300, Valid)]);
    let night = with_tally(night, 66_051);
    assert_eq!(night.to_bytes()[264..268], [254, 255, 255, 255]);
    assert_eq!(night.to_bytes()[520..524], [44, 1, 0, 0]);
    assert_eq!(night.to_bytes()[1864..], [3, 2, 1, 0, 0, 0, 0, 0]);
    for board in [six(), full(), tight(), Board::empty(), night] {
        test_bytes(board);
        assert_eq!(Dock::try_from(board).map(Board::from), Ok(board));
    }
    assert_eq!(Board::from_bytes(&[0; 1872]), Board::default());
    let no_board = Board::from_bytes(&[255; 1872]);
    assert_eq!(Dock::try_from(no_board), Err(Refusal::Board));
}
