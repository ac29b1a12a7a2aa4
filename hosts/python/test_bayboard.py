"""Every refusal of every call, every ending of a plan, what rows and pairs show, numbers of any size, a board as bytes, and how the library is
loaded. The numbers are written out as the paper has them, beside the names that they have here: two that are swapped in the module are seen."""

from __future__ import annotations

import copy
import ctypes
import doctest
import os
import pickle
import shutil
import struct
import subprocess
import sys
import tempfile
import unittest
from concurrent.futures import ThreadPoolExecutor
from pathlib import Path
from unittest import mock

import _ctypes
import bayboard
from bayboard import Arcs, Board, Ending, Mark, Pair, Plan, Refusal, Refused, Row

# Each field of a board: where its first place is, and of what form a place is, as in hosts/c/bayboard.h.
FIELDS = {
    "jobs": (0, "<Q"),
    "lengths": (8, "<i"),
    "earliest": (264, "<i"),
    "latest": (520, "<i"),
    "marks": (776, "<B"),
    "after": (840, "<Q"),
    "before": (1352, "<Q"),
    "tally": (1864, "<I"),
}
PADDING = 1868

# A call with its numbers on the board of six jobs, and its refusal. Each gives one reason for its refusal and no other.
CALLS = [
    ("addition", (1, -500_000, 500_000, 0), None),
    ("addition", (10_000, 0, 100_000, 1), None),
    ("addition", (1, 50, 50, 0), None),
    ("addition", (0, 0, 100, 0), 4),
    ("addition", (10_001, 0, 100_000, 0), 4),
    ("addition", (10, -500_001, 100, 0), 5),
    ("addition", (10, 0, 500_001, 0), 5),
    ("addition", (10, 101, 100, 0), 6),
    ("addition", (10, 0, 100, 2), 7),
    ("addition", (10, 0, 100, -1), 7),
    ("addition", (10, 0, 9, 1), 8),
    ("arc", (2, 3), None),
    ("arc", (6, 0), 2),
    ("arc", (0, 6), 2),
    ("arc", (-1, 0), 2),
    ("arc", (0, 0), 3),
    ("arc", (2, 0), 8),
    ("mark", (3, 1), None),
    ("mark", (6, 1), 2),
    ("mark", (-1, 1), 2),
    ("mark", (3, 0), 7),
    ("mark", (3, 3), 7),
    ("mark", (1, 1), 8),
    ("mark", (0, 2), 8),
    ("cut", (0, -500_000, 500_000), None),
    ("cut", (6, 0, 100), 2),
    ("cut", (0, -500_001, 100), 5),
    ("cut", (0, 0, 500_001), 5),
    ("cut", (0, 51, 50), 6),
    ("cut", (0, 0, 9), 8),
    ("row", (5,), None),
    ("row", (6,), 2),
    ("row", (-1,), 2),
    ("pair", (5, 0), None),
    ("pair", (6, 0), 2),
    ("pair", (0, 6), 2),
    ("pair", (0, 0), 3),
    ("plan", (0,), None),
    ("plan", (1_000_000,), None),
    ("plan", (1_000_001,), 9),
    ("plan", (-1,), 9),
]

# Several reasons: the first is given.
ORDER = [
    ("addition", (0, 500_001, 500_000, 2), 4),
    ("addition", (10, 500_001, 500_000, 2), 5),
    ("addition", (10, 101, 100, 2), 6),
    ("addition", (10, 0, 9, 2), 7),
    ("arc", (6, 6), 2),
    ("mark", (6, 0), 2),
    ("cut", (6, 500_001, 500_000), 2),
    ("cut", (0, 500_001, 500_000), 5),
    ("pair", (6, 6), 2),
]

# Calls where one number, W, or each of two, is outside every range.
W = object()
WIDE = [
    ("addition", (W, 0, 100, 1), 4),
    ("addition", (10, W, 100, 1), 5),
    ("addition", (10, 0, W, 1), 5),
    ("addition", (10, W, W, 1), 5),
    ("addition", (10, 0, 100, W), 7),
    ("arc", (W, 0), 2),
    ("arc", (0, W), 2),
    ("arc", (W, W), 2),
    ("mark", (W, 1), 2),
    ("mark", (3, W), 7),
    ("cut", (W, 0, 100), 2),
    ("cut", (0, W, 100), 5),
    ("cut", (0, 0, W), 5),
    ("row", (W,), 2),
    ("pair", (W, 0), 2),
    ("pair", (0, W), 2),
    ("pair", (W, W), 2),
    ("plan", (W,), 9),
]

# Ways to break the board of six jobs: fields, places and what is written there.
BROKEN = [
    ("65 jobs", [("jobs", 0, 65)]),
    ("the greatest number of jobs", [("jobs", 0, 2**64 - 1)]),
    ("a job less", [("jobs", 0, 5)]),
    ("a tally of 1000001", [("tally", 0, 1_000_001)]),
    ("a length of 0", [("lengths", 5, 0)]),
    ("a length of 10001", [("lengths", 5, 10_001), ("latest", 5, 20_000)]),
    ("E below the limit", [("earliest", 0, -500_001)]),
    ("D above the limit", [("latest", 5, 500_001)]),
    ("E above D", [("earliest", 5, 301)]),
    ("a mark of 3", [("marks", 5, 3)]),
    ("an invalid job with a length", [("lengths", 1, 1)]),
    ("an invalid job with a window", [("latest", 1, 1)]),
    ("an arc to an invalid job", [("after", 0, 0b100110), ("before", 1, 0b000001)]),
    ("an arc from a job to itself", [("after", 0, 0b100101), ("before", 0, 0b000001)]),
    ("an arc to no job", [("after", 0, 0b100100 | 1 << 40), ("before", 40, 0b000001)]),
    ("an arc in the words after alone", [("after", 5, 0b001000)]),
    ("an arc in the words before alone", [("before", 3, 0b110000)]),
    ("no job, with a length", [("lengths", 63, 1)]),
    ("no job, with E", [("earliest", 63, 1)]),
    ("no job, with D", [("latest", 63, 1)]),
    ("no job, with a mark", [("marks", 63, 1)]),
    ("not closed under R2", [("marks", 3, 1)]),
    ("not closed under R1 and R3", [("after", 0, 0b000100), ("before", 5, 0b011100)]),
    ("not closed under R4", [("earliest", 2, 9)]),
    ("not closed under R5", [("latest", 0, 96)]),
    ("not closed under R6", [("earliest", 3, 96)]),
]


def with_jobs(*jobs: tuple[int, int, int, int]) -> Board:
    """A board with jobs of a length, E, D and mark, each with the next number."""
    board = Board()
    numbers = [board.addition(*job) for job in jobs]
    assert numbers == list(range(len(jobs)))
    return board


def six() -> Board:
    """Jobs 0, 2 and 5 are valid, with an arc from 0 to 2; 1 is invalid; 3 and 4 are undecided, with arcs both ways. R3 gives arcs from each of
    them to 5, R4 raises E of 2 to 10, and R5 lowers D of 0 to 95."""
    board = with_jobs((10, 0, 100, 1), (10, 0, 100, 0), (5, 0, 100, 1), (5, 0, 100, 0), (5, 0, 100, 0), (5, 100, 500, 1))
    board.mark(1, 2)
    board.arc(0, 2)
    board.arc(3, 4)
    board.arc(4, 3)
    board.cut(5, 0, 300)
    return board


def tight() -> Board:
    """Three valid jobs of 10 minutes in 25: any two of them fit, so that the rules see nothing, and all three don't."""
    return with_jobs(*[(10, 0, 25, 1)] * 3)


def written(board: Board, *places: tuple[str, int, int]) -> bytes:
    """The board's bytes with something else in some places."""
    data = bytearray(board.to_bytes())
    for field, place, value in places:
        offset, form = FIELDS[field]
        struct.pack_into(form, data, offset + place * struct.calcsize(form), value)
    return bytes(data)


def read(board: Board, field: str, place: int = 0) -> int:
    """What a board's bytes have in a place."""
    offset, form = FIELDS[field]
    return struct.unpack_from(form, board.to_bytes(), offset + place * struct.calcsize(form))[0]


def refusal(board: Board, name: str, numbers: tuple) -> int | None:
    """The number of a call's refusal."""
    try:
        getattr(board, name)(*numbers)
    except Refused as refused:
        return refused.number
    return None


class Refusals(unittest.TestCase):
    def test_each_refusal_of_each_call(self) -> None:
        """A refusal alters nothing but the tally: number 8 adds one, and it stops at 1000000."""
        full = with_jobs(*[(1, 0, 100, 0)] * 64)
        tests = [(six(), *test) for test in CALLS + ORDER]
        tests += [(full, "addition", (1, 0, 100, 0), 1), (full, "addition", (0, 0, 100, 0), 1)]
        for board, name, numbers, number in tests:
            for tally, counted in (0, 1), (999_999, 1_000_000), (1_000_000, 1_000_000):
                with self.subTest(call=name, numbers=numbers, tally=tally):
                    tried = Board.from_bytes(written(board, ("tally", 0, tally)))
                    self.assertEqual(refusal(tried, name, numbers), number)
                    if number is not None:
                        after = counted if number == 8 else tally
                        self.assertEqual(tried.to_bytes(), written(board, ("tally", 0, after)))
                        self.assertEqual(tried.tally, after)
                    self.assertTrue(tried.passes())

    def test_check_0_comes_first(self) -> None:
        """Where the struct is written behind the calls, each is refused as 0, whatever its numbers, and alters nothing."""
        for what, places in BROKEN:
            board = six()
            board._kept = bayboard._Board.from_buffer_copy(written(board, *places))
            before = board.to_bytes()
            self.assertFalse(board.passes(), what)
            for name, numbers, _ in CALLS:
                with self.subTest(what, call=name, numbers=numbers):
                    self.assertEqual(refusal(board, name, numbers), 0)
                    self.assertEqual(board.to_bytes(), before)

    def test_refusals_say_why(self) -> None:
        texts = [
            (0, Refusal.BOARD, "the board is not in order"),
            (1, Refusal.FULL, "the board is full"),
            (2, Refusal.JOB, "no such job"),
            (3, Refusal.SAME, "one job twice"),
            (4, Refusal.LENGTH, "the length is out of range"),
            (5, Refusal.TIME, "a time is out of range"),
            (6, Refusal.WINDOW, "the window is empty"),
            (7, Refusal.MARK, "no such mark here"),
            (8, Refusal.IMPOSSIBLE, "impossible"),
            (9, Refusal.BUDGET, "the budget is out of range"),
        ]
        self.assertEqual([name for _, name, _ in texts], list(Refusal))
        for number, name, text in texts:
            for refused in Refused(number), pickle.loads(pickle.dumps(Refused(number))):
                self.assertEqual((refused.number, refused.refusal, str(refused)), (number, name, text))
                self.assertIs(refused.refusal, name)


class Numbers(unittest.TestCase):
    def test_a_number_outside_32_bits_is_refused_and_never_cut(self) -> None:
        """Cut to 32 bits, some of these would be the numbers 0, 1 and 3."""
        sizes = (2**31 - 1, 2**31, 2**32, 2**32 + 1, 2**32 + 3, 2**40, 2**64, 2**64 + 1, 10**100)
        board = six()
        before = board.to_bytes()
        for wide in [*sizes, *(-size for size in sizes), -(2**31), -(2**32) + 1, -(2**64) + 3]:
            for name, numbers, number in WIDE:
                with self.subTest(call=name, numbers=numbers, wide=wide):
                    self.assertEqual(refusal(board, name, tuple(wide if n is W else n for n in numbers)), number)
        self.assertEqual(refusal(board, "addition", (2**40, 2**41, -(2**40), 2**32)), 4)
        self.assertEqual(refusal(board, "addition", (1, 2**41, -(2**40), 2**32)), 5)
        self.assertEqual(refusal(board, "cut", (2**40, 2**41, -(2**40))), 2)
        self.assertEqual(board.to_bytes(), before)

    def test_what_is_no_integer_is_a_type_error(self) -> None:
        board = six()
        before = board.to_bytes()
        for wrong in 1.0, float("nan"), "1", b"1", None, [1]:
            for name, numbers, _ in WIDE:
                with self.subTest(call=name, numbers=numbers, wrong=wrong), self.assertRaises(TypeError):
                    getattr(board, name)(*(wrong if n is W else n for n in numbers))
        self.assertEqual(board.to_bytes(), before)

    def test_what_has_an_index_is_a_number(self) -> None:
        """As everywhere in Python, True is 1."""

        class Five:
            def __index__(self) -> int:
                return 5

        board = six()
        self.assertEqual(board.row(Five()), board.row(5))
        self.assertEqual(board.pair(Five(), False), board.pair(5, 0))
        self.assertEqual(board.addition(True, 0, Five(), Mark.UNDECIDED), 6)
        self.assertEqual((board.row(6).length, board.row(6).mark), (1, Mark.UNDECIDED))

    def test_limits(self) -> None:
        limits = (bayboard.JOBS, bayboard.SHORTEST, bayboard.LONGEST, bayboard.FIRST_MINUTE, bayboard.LAST_MINUTE, bayboard.TALLY, bayboard.BUDGET)
        self.assertEqual(limits, (64, 1, 10_000, -500_000, 500_000, 1_000_000, 1_000_000))


class Looking(unittest.TestCase):
    def test_rows(self) -> None:
        rows = [
            (1, Row(Mark.VALID, 10, 0, 95, frozenset(), frozenset({2, 5}))),
            (2, Row(Mark.INVALID, 0, 0, 0, frozenset(), frozenset())),
            (1, Row(Mark.VALID, 5, 10, 100, frozenset({0}), frozenset({5}))),
            (0, Row(Mark.UNDECIDED, 5, 0, 100, frozenset({4}), frozenset({4, 5}))),
            (0, Row(Mark.UNDECIDED, 5, 0, 100, frozenset({3}), frozenset({3, 5}))),
            (1, Row(Mark.VALID, 5, 100, 300, frozenset({0, 2, 3, 4}), frozenset())),
        ]
        board = six()
        self.assertEqual((board.jobs, board.tally, repr(board)), (6, 0, "<Board: 6 jobs, tally 0>"))
        for job, (mark, row) in enumerate(rows):
            with self.subTest(job=job):
                self.assertEqual(board.row(job), row)
                self.assertIsInstance(board.row(job).mark, Mark)
                self.assertEqual((read(board, "marks", job), read(board, "lengths", job)), (mark, row.length))
                self.assertEqual((read(board, "earliest", job), read(board, "latest", job)), (row.earliest, row.latest))
                self.assertEqual(read(board, "before", job), sum(1 << k for k in row.before))
                self.assertEqual(read(board, "after", job), sum(1 << k for k in row.after))
                self.assertEqual(row.mark, mark)

    def test_a_row_of_64_jobs(self) -> None:
        board = with_jobs(*[(1, 0, 200, 1)] * 64)
        for job in range(63):
            board.arc(job, 63)
        self.assertEqual(board.row(63).before, frozenset(range(63)))
        self.assertEqual(board.row(0).after, frozenset({63}))
        self.assertEqual((board.row(63).earliest, board.jobs), (63, 64))

    def test_pairs(self) -> None:
        pairs = [
            (0, 3, 0, Pair(Arcs.NONE, -95)),
            (0, 2, 1, Pair(Arcs.FORTH, -85)),
            (2, 0, 2, Pair(Arcs.BACK, -100)),
            (3, 4, 3, Pair(Arcs.BOTH, -100)),
            (2, 5, 1, Pair(Arcs.FORTH, 0)),
            (0, 5, 1, Pair(Arcs.FORTH, 5)),
            (5, 0, 2, Pair(Arcs.BACK, -300)),
            (1, 5, 0, Pair(Arcs.NONE, 0)),
            (5, 1, 0, Pair(Arcs.NONE, 0)),
        ]
        for a, b, number, pair in pairs:
            with self.subTest(a=a, b=b):
                self.assertEqual(six().pair(a, b), pair)
                self.assertEqual(pair.arcs, number)
                self.assertIsInstance(six().pair(a, b).arcs, Arcs)

    def test_plans(self) -> None:
        plans = [
            (six(), 3, 0, Plan(Ending.FOUND, 3, {0: 0, 2: 10, 5: 100})),
            (Board(), 0, 0, Plan(Ending.FOUND, 0, {})),
            (tight(), 15, 1, Plan(Ending.NONE, 15, {})),
            (tight(), 14, 2, Plan(Ending.SPENT, 14, {})),
            (six(), 2, 2, Plan(Ending.SPENT, 2, {})),
        ]
        for board, budget, number, plan in plans:
            with self.subTest(plan=plan):
                self.assertEqual(board.plan(budget), plan)
                self.assertEqual(plan.ending, number)
                self.assertEqual(list(board.plan(budget).starts), sorted(plan.starts))

    def test_looking_alters_nothing(self) -> None:
        board = six()
        before = board.to_bytes()
        for look in board.passes, board.to_bytes, board.copy, lambda: board.row(3), lambda: board.pair(3, 4), lambda: board.plan(100):
            look()
            self.assertEqual(board.to_bytes(), before)


class Bytes(unittest.TestCase):
    def test_layout(self) -> None:
        for field, (offset, _) in FIELDS.items():
            declared = bayboard._Board.books.offset + bayboard._Books.tally.offset if field == "tally" else getattr(bayboard._Board, field).offset
            self.assertEqual(declared, offset, field)
        structs = (bayboard._Board, bayboard._Reply, bayboard._RowReply, bayboard._PairReply, bayboard._PlanReply)
        self.assertEqual([ctypes.sizeof(each) for each in structs], [1872, 16, 40, 16, 272])

    def test_to_bytes_and_back(self) -> None:
        self.assertEqual(bayboard.SIZE, 1872)
        for board in Board(), six(), tight(), with_jobs(*[(1, 0, 100, 0)] * 64):
            data = board.to_bytes()
            self.assertEqual(len(data), 1872)
            self.assertEqual(data[PADDING:], bytes(4))
            for given in data, bytearray(data), memoryview(data), memoryview(data).cast("Q"):
                self.assertEqual(Board.from_bytes(given), board)
                self.assertEqual(Board.from_bytes(given).to_bytes(), data)
        self.assertEqual(Board().to_bytes(), bytes(1872))

    def test_padding_says_nothing(self) -> None:
        board = Board.from_bytes(six().to_bytes()[:PADDING] + b"\xff" * 4)
        self.assertEqual(board, six())
        self.assertEqual(board.to_bytes(), six().to_bytes())

    def test_the_bytes_given_are_copied(self) -> None:
        data = bytearray(six().to_bytes())
        board = Board.from_bytes(data)
        data[:] = bytes(len(data))
        self.assertEqual(board, six())

    def test_damaged_bytes(self) -> None:
        for what, places in BROKEN:
            with self.subTest(what), self.assertRaises(Refused) as refused:
                Board.from_bytes(written(six(), *places))
            self.assertIs(refused.exception.refusal, Refusal.BOARD)

    def test_another_number_of_bytes(self) -> None:
        data = six().to_bytes()
        for wrong in b"", data[:-1], data + b"\0", data[:PADDING], data * 2:
            with self.subTest(length=len(wrong)), self.assertRaisesRegex(ValueError, "^a board has 1872 bytes, not [0-9]+$"):
                Board.from_bytes(wrong)
        for wrong in "x" * 1872, 1872, None, [0] * 1872:
            with self.subTest(type=type(wrong)), self.assertRaises(TypeError):
                Board.from_bytes(wrong)

    def test_equality(self) -> None:
        """Boards that differ in one thing alone are not equal."""
        one = (5, 0, 100, 0)
        boards = [Board(), with_jobs(one), with_jobs(one, one), with_jobs((6, 0, 100, 0)), with_jobs((5, 1, 100, 0)), with_jobs((5, 0, 99, 0))]
        boards += [with_jobs((5, 0, 100, 1)), Board.from_bytes(written(Board(), ("tally", 0, 1))), with_jobs(one, one), with_jobs(one, one)]
        boards[-2].arc(0, 1)
        boards[-1].arc(1, 0)
        for k, board in enumerate(boards):
            for l, other in enumerate(boards):
                self.assertEqual(board == other, k == l)
                self.assertEqual(board != other, k != l)
        self.assertEqual(six(), six())
        self.assertNotEqual(six(), six().to_bytes())
        with self.assertRaises(TypeError):
            hash(six())

    def test_copies(self) -> None:
        for copied in Board.copy, copy.copy, copy.deepcopy, lambda board: pickle.loads(pickle.dumps(board)):
            board = six()
            other = copied(board)
            self.assertEqual(other, board)
            other.mark(3, Mark.VALID)
            self.assertNotEqual(other, board)
            self.assertEqual(board, six())

    def test_boards_in_threads(self) -> None:
        """Boards that aren't shared need no lock."""
        with ThreadPoolExecutor(8) as threads:
            boards = list(threads.map(lambda _: six(), range(200)))
        self.assertTrue(all(board == six() for board in boards))


class Paper(unittest.TestCase):
    """The paper's marked examples, by their names, and its whole case."""

    def test_m1_to_m4(self) -> None:
        self.assertEqual(refusal(Board(), "addition", (0, 0, 100, 1)), 4)
        self.assertEqual(with_jobs((10_000, 0, 10_000, 1)).row(0).mark, Mark.VALID)
        self.assertEqual(with_jobs((10_000, 0, 9_999, 0)).row(0).mark, Mark.INVALID)
        self.assertEqual(refusal(Board(), "addition", (10_000, 0, 9_999, 1)), 8)

    def test_m5_to_m7(self) -> None:
        before = [
            (30, (10, 0, 100, 1), (20, 0, 100, 1)),
            (60, (5, 0, 100, 1), (10, 50, 100, 1)),
            (5, (5, 0, 100, 1), (10, 50, 100, 0)),
        ]
        for earliest, first, second in before:
            board = with_jobs(first, second, (5, 0, 100, 1))
            board.arc(0, 2)
            board.arc(1, 2)
            self.assertEqual(board.row(2).earliest, earliest)

    def test_m8_and_m9(self) -> None:
        self.assertEqual(with_jobs((40, 0, 100, 1), (20, 10, 60, 1)).pair(0, 1).arcs, Arcs.NONE)
        self.assertEqual(with_jobs((40, 0, 100, 1), (20, 10, 59, 1)).pair(1, 0).arcs, Arcs.FORTH)

    def test_m10_to_m12(self) -> None:
        board = with_jobs((5, 0, 100, 1), (5, 0, 100, 0), (5, 0, 100, 1))
        board.arc(0, 1)
        board.arc(1, 2)
        self.assertEqual(board.pair(0, 2).arcs, Arcs.NONE)
        board.mark(1, Mark.VALID)
        self.assertEqual(board.pair(0, 2).arcs, Arcs.FORTH)
        board = with_jobs((5, 0, 100, 0), (5, 0, 100, 0))
        board.arc(0, 1)
        board.arc(1, 0)
        self.assertEqual(board.pair(0, 1).arcs, Arcs.BOTH)
        board.mark(0, Mark.VALID)
        self.assertEqual(board.row(1).mark, Mark.INVALID)

    def test_the_whole_case(self) -> None:
        board = with_jobs((30, 0, 100, 1), (40, 0, 100, 0), (20, 10, 60, 1))
        board.arc(0, 2)
        self.assertEqual(board.row(1), Row(Mark.UNDECIDED, 40, 50, 100, frozenset({0, 2}), frozenset()))
        self.assertEqual(board.pair(2, 1), Pair(Arcs.FORTH, -10))
        self.assertEqual(board.plan(100), Plan(Ending.FOUND, 2, {0: 0, 2: 30}))
        board.cut(1, 0, 85)
        self.assertEqual(board.row(1), Row(Mark.INVALID, 0, 0, 0, frozenset(), frozenset()))
        self.assertEqual(refusal(board, "mark", (1, 1)), 8)
        self.assertEqual(board.tally, 1)


class Loading(unittest.TestCase):
    """A copy of the module in a folder of its own finds no repository."""

    def setUp(self) -> None:
        temporary = tempfile.TemporaryDirectory()
        self.addCleanup(temporary.cleanup)
        self.folder = Path(temporary.name)
        shutil.copy(bayboard.__file__, self.folder)

    def load(self, **named: str) -> str:
        """What Python says last where it imports the module with these variables."""
        kept = {name: value for name, value in os.environ.items() if name not in ("BAYBOARD_LIB_DIR", "LD_LIBRARY_PATH", "PYTHONPATH")}
        command = [sys.executable, "-B", "-c", "import bayboard; print(bayboard.Board())"]
        ran = subprocess.run(command, cwd=self.folder, env={**kept, **named}, stdout=subprocess.PIPE, stderr=subprocess.STDOUT, text=True)
        return ran.stdout.splitlines()[-1]

    def test_a_folder_and_the_systems_loader(self) -> None:
        library = os.path.realpath(bayboard._library._name)
        (self.folder / "libbayboard.so").symlink_to(library)
        self.assertEqual(self.load(BAYBOARD_LIB_DIR=str(self.folder)), "<Board: 0 jobs, tally 0>")
        self.assertEqual(self.load(BAYBOARD_LIB_DIR="."), "<Board: 0 jobs, tally 0>")
        (self.folder / "libbayboard.so").rename(self.folder / "libbayboard.so.1")
        self.assertEqual(self.load(LD_LIBRARY_PATH=str(self.folder)), "<Board: 0 jobs, tally 0>")

    def test_no_library_there(self) -> None:
        said = self.load(BAYBOARD_LIB_DIR=str(self.folder))
        self.assertTrue(said.startswith(f"ImportError: no library: {self.folder}/libbayboard.so: "), said)
        self.assertIn("hosts/library makes it", said)

    def test_another_library_there(self) -> None:
        (self.folder / "libbayboard.so").symlink_to(_ctypes.__file__)
        said = self.load(BAYBOARD_LIB_DIR=str(self.folder))
        self.assertTrue(said.startswith(f"ImportError: not the library of bayboard.py {bayboard.VERSION}: "), said)
        self.assertIn("bayboard_version", said)

    def test_versions_and_sizes(self) -> None:
        with mock.patch.object(bayboard, "VERSION", "1.2.3"):
            for version in 10_203, 10_200, 10_299, 10_300, 19_999:
                bayboard._compare(version, 1872)
            for version, text in (10_199, "1.1.99"), (20_203, "2.2.3"), (203, "0.2.3"), (0, "0.0.0"):
                with self.assertRaisesRegex(ImportError, f"^bayboard.py has version 1.2.3, the library {text}$"):
                    bayboard._compare(version, 1872)
            for size in 0, 1868, 1880:
                with self.assertRaisesRegex(ImportError, f"^a board has 1872 bytes in bayboard.py, {size} in the library$"):
                    bayboard._compare(10_203, size)


def load_tests(_loader: unittest.TestLoader, tests: unittest.TestSuite, _pattern: str | None) -> unittest.TestSuite:
    """The example in the module's own text is a test too."""
    tests.addTests(doctest.DocTestSuite(bayboard))
    return tests


if __name__ == "__main__":
    unittest.main()
