"""The bay board for Python: ctypes over libbayboard.so, and nothing but the standard library. Python 3.9 or later, Linux on x86-64.

Each call of the library is proved, for every board and all numbers, to reply just what the paper says; the equations stand in
crates/call_exports. A refusal is an exception.

    >>> from bayboard import Board, Mark
    >>> board = Board()
    >>> dairy = board.addition(45, 360, 480, Mark.VALID)
    >>> van = board.addition(30, 390, 540, Mark.VALID)
    >>> board.arc(dairy, van)
    >>> board.row(van).earliest
    405
    >>> board.cut(van, 360, 420)
    Traceback (most recent call last):
    bayboard.Refused: impossible

Numbers are integers of any size. The library takes 32 bits: a number outside them is handed on as the nearest one inside, which is out of every
range too, so that the library refuses it, in its own order.

Threads: ctypes lets other threads run during a call. A board that threads share needs a lock of theirs around each call, those that look too,
unless all of them only look. Boards that aren't shared need none: the library keeps nothing between calls.
"""

from __future__ import annotations

import operator
import os
from ctypes import CDLL, POINTER, Structure, c_bool, c_int32, c_size_t, c_uint8, c_uint32, c_uint64, sizeof
from dataclasses import dataclass
from enum import IntEnum
from typing import Any, SupportsIndex

__all__ = [
    "Arcs", "Board", "Ending", "Mark", "Pair", "Plan", "Refusal", "Refused", "Row",
    "VERSION", "SIZE", "JOBS", "SHORTEST", "LONGEST", "FIRST_MINUTE", "LAST_MINUTE", "TALLY", "BUDGET",
]

VERSION = "1.0.0"

JOBS = 64  # that a board holds at most, numbered from 0 in the order added
SHORTEST, LONGEST = 1, 10_000  # length of a job, in minutes
FIRST_MINUTE, LAST_MINUTE = -500_000, 500_000  # that E and D may be
TALLY = 1_000_000  # at which the tally stops
BUDGET = 1_000_000  # of a plan at most


class Mark(IntEnum):
    """A job's mark: a valid job takes place, an invalid one doesn't."""

    UNDECIDED = 0
    VALID = 1
    INVALID = 2


class Refusal(IntEnum):
    """Why a call is refused, with the paper's numbers. A refusal alters nothing, but for IMPOSSIBLE, which counts one in the tally.
    If several apply, the first is given. (The refusals 10 and 11 belong to the text program alone.)"""

    BOARD = 0, "the board is not in order"  # it breaks a limit, keeps something twice that doesn't agree, or isn't closed
    FULL = 1, "the board is full"  # it has 64 jobs already
    JOB = 2, "no such job"  # a number that no job has
    SAME = 3, "one job twice"  # an arc or a pair names one job twice
    LENGTH = 4, "the length is out of range"  # below 1 or above 10000
    TIME = 5, "a time is out of range"  # E or D outside -500000 to 500000
    WINDOW = 6, "the window is empty"  # E above D
    MARK = 7, "no such mark here"  # other than 0 or 1 in an addition, or than 1 or 2 in a mark
    IMPOSSIBLE = 8, "impossible"  # no schedule and no closed board with this entry
    BUDGET = 9, "the budget is out of range"  # below 0 or above 1000000

    text: str

    def __new__(cls, number: int, text: str) -> Refusal:
        refusal = int.__new__(cls, number)
        refusal._value_, refusal.text = number, text
        return refusal


class Refused(Exception):
    """A call was refused."""

    def __init__(self, number: int) -> None:
        self.refusal = Refusal(number)
        super().__init__(self.refusal)

    @property
    def number(self) -> int:
        return self.refusal.value

    def __str__(self) -> str:
        return self.refusal.text


@dataclass(frozen=True)
class Row:
    """A job's row, and its length, which a row of the paper hasn't. An invalid job has length, E and D 0, and no jobs before or after it."""

    mark: Mark
    length: int
    earliest: int
    latest: int
    before: frozenset[int]
    after: frozenset[int]


class Arcs(IntEnum):
    """The arcs between two jobs A and B: FORTH is A to B, BACK is B to A."""

    NONE = 0
    FORTH = 1
    BACK = 2
    BOTH = 3


@dataclass(frozen=True)
class Pair:
    """Two jobs A and B: their arcs and the gap, E of B minus D of A. No arcs and 0 if either is invalid."""

    arcs: Arcs
    gap: int


class Ending(IntEnum):
    """How a plan ends."""

    FOUND = 0  # all valid jobs are placed
    NONE = 1  # the entries have no schedule at all
    SPENT = 2  # the tries would take more than the budget


@dataclass(frozen=True)
class Plan:
    """The number is that of the tries, or the budget where they are spent. Where a plan is found, each placed job has its start,
    in ascending number of the jobs; otherwise there are none."""

    ending: Ending
    number: int
    starts: dict[int, int]


# The structs of hosts/c/bayboard.h. Nothing holds them to the library but the size of a board and the tests.


class _Books(Structure):
    _fields_ = [("tally", c_uint32)]


class _Board(Structure):
    _fields_ = [
        ("jobs", c_size_t),
        ("lengths", c_int32 * JOBS),
        ("earliest", c_int32 * JOBS),
        ("latest", c_int32 * JOBS),
        ("marks", c_uint8 * JOBS),
        ("after", c_uint64 * JOBS),
        ("before", c_uint64 * JOBS),
        ("books", _Books),
    ]


class _Reply(Structure):
    _fields_ = [("accepted", c_bool), ("number", c_uint64)]


class _RowReply(Structure):
    _fields_ = [
        ("accepted", c_bool), ("refusal", c_uint32), ("mark", c_uint8), ("earliest", c_int32), ("latest", c_int32),
        ("before", c_uint64), ("after", c_uint64),
    ]


class _PairReply(Structure):
    _fields_ = [("accepted", c_bool), ("refusal", c_uint32), ("arcs", c_uint8), ("gap", c_int32)]


class _PlanReply(Structure):
    _fields_ = [("ending", c_uint8), ("number", c_uint32), ("placed", c_uint64), ("starts", c_int32 * JOBS)]


SIZE = sizeof(_Board)  # of a board, in bytes
_FIELD_BYTES = _Board.books.offset + sizeof(_Books)  # the rest is padding, in which a call may leave anything
_REFUSED = 3  # the ending of a plan that is refused

# Each call, its reply, and how many numbers it takes after the board.
_CALLS = [
    ("passes", c_bool, 0),
    ("addition", _Reply, 4),
    ("arc", _Reply, 2),
    ("mark", _Reply, 2),
    ("cut", _Reply, 3),
    ("row", _RowReply, 1),
    ("pair", _PairReply, 2),
    ("plan", _PlanReply, 1),
]


def _open() -> CDLL:
    """The library in the folder BAYBOARD_LIB_DIR; where none is named, the repository's; where that isn't made, the system's."""
    named = os.environ.get("BAYBOARD_LIB_DIR")
    made = os.path.join(os.path.dirname(os.path.realpath(__file__)), "..", "..", "target", "hosts", "lib")
    path = os.path.join(named or made, "libbayboard.so")
    try:
        return CDLL(path if named or os.path.exists(path) else f"libbayboard.so.{VERSION.split('.')[0]}")
    except OSError as error:
        raise ImportError(f"no library: {error} (hosts/library makes it, and BAYBOARD_LIB_DIR may name its folder)") from error


def _compare(version: int, size: int) -> None:
    """As bayboard_matches in C: the library has the first number of this module's version and at least its second, and boards of one size."""
    theirs = (version // 10_000, version // 100 % 100, version % 100)
    ours = tuple(map(int, VERSION.split(".")))
    if theirs[0] != ours[0] or theirs[1] < ours[1]:
        raise ImportError(f"bayboard.py has version {VERSION}, the library {'.'.join(map(str, theirs))}")
    if size != SIZE:
        raise ImportError(f"a board has {SIZE} bytes in bayboard.py, {size} in the library")


def _load() -> CDLL:
    """The library, compared with this module, each call with the types of what it takes and replies."""
    library = _open()
    try:
        library.bayboard_version.restype, library.bayboard_version.argtypes = c_uint32, []
        library.bayboard_size.restype, library.bayboard_size.argtypes = c_size_t, []
        _compare(library.bayboard_version(), library.bayboard_size())
        library.bayboard_empty.restype, library.bayboard_empty.argtypes = _Board, []
        for name, reply, numbers in _CALLS:
            call = getattr(library, f"bayboard_{name}")
            call.restype, call.argtypes = reply, [POINTER(_Board)] + [c_int32] * numbers
    except AttributeError as error:
        raise ImportError(f"not the library of bayboard.py {VERSION}: {error}") from error
    return library


_library = _load()


def _number(number: SupportsIndex) -> int:
    """The nearest number of 32 bits: ctypes would cut a wider one, and 2**32 would be job 0."""
    return max(-(2**31), min(2**31 - 1, operator.index(number)))


def _members(word: int) -> list[int]:
    """The jobs of a set, bit k for job k, in ascending number."""
    return [job for job in range(word.bit_length()) if word >> job & 1]


class Board:
    """A board, empty at first. Its calls alter it where it is kept; times are minutes, and jobs go by the numbers that their additions gave.

    Only the calls write the board, and what they leave passes check 0. Each call tests it nevertheless, which takes half a microsecond to two, less
    than the rest of a call in Python: so a program that writes the struct behind the calls gets refusal 0, and nothing is read or written past it."""

    __slots__ = ("_kept",)

    def __init__(self) -> None:
        self._kept: _Board = _library.bayboard_empty()

    def addition(self, length: SupportsIndex, earliest: SupportsIndex, latest: SupportsIndex, mark: SupportsIndex) -> int:
        """Adds a job of `length` minutes in the window from `earliest` to `latest`, with mark 0 or 1; gives the job's number.
        Refusals 1, 4 to 8."""
        return self._enter(_library.bayboard_addition, length, earliest, latest, mark)

    def arc(self, a: SupportsIndex, b: SupportsIndex) -> None:
        """A ends no later than B starts, if both take place. Refusals 2, 3, 8."""
        self._enter(_library.bayboard_arc, a, b)

    def mark(self, job: SupportsIndex, mark: SupportsIndex) -> None:
        """Marks a job valid (1) or invalid (2). Refusals 2, 7, 8."""
        self._enter(_library.bayboard_mark, job, mark)

    def cut(self, job: SupportsIndex, earliest: SupportsIndex, latest: SupportsIndex) -> None:
        """Narrows a job's window: the later E and the earlier D hold. Refusals 2, 5, 6, 8."""
        self._enter(_library.bayboard_cut, job, earliest, latest)

    def row(self, job: SupportsIndex) -> Row:
        """A job's mark, length, E, D, and the sets before and after it. Refusal 2."""
        number = _number(job)
        reply = self._look(_library.bayboard_row, number)
        before, after = frozenset(_members(reply.before)), frozenset(_members(reply.after))
        return Row(Mark(reply.mark), self._kept.lengths[number], reply.earliest, reply.latest, before, after)

    def pair(self, a: SupportsIndex, b: SupportsIndex) -> Pair:
        """The arcs between two jobs and their gap. Refusals 2, 3."""
        reply = self._look(_library.bayboard_pair, a, b)
        return Pair(Arcs(reply.arcs), reply.gap)

    def plan(self, budget: SupportsIndex) -> Plan:
        """Plans all valid jobs with at most `budget` tries. Refusal 9."""
        reply = _library.bayboard_plan(self._kept, _number(budget))
        if reply.ending == _REFUSED:
            raise Refused(reply.number)
        return Plan(Ending(reply.ending), reply.number, {job: reply.starts[job] for job in _members(reply.placed)})

    def passes(self) -> bool:
        """Does the board pass check 0: is it within its limits, and closed over what it shows?"""
        return _library.bayboard_passes(self._kept)

    @property
    def jobs(self) -> int:
        """How many jobs there are: their numbers are those below."""
        return self._kept.jobs

    @property
    def tally(self) -> int:
        """How many entries were refused as impossible, up to 1000000."""
        return self._kept.books.tally

    def to_bytes(self) -> bytes:
        """The board as the library has it, in SIZE bytes: hosts/c/bayboard.h says where each field is. The padding is 0, so that equal boards
        give equal bytes."""
        return bytes(self._kept)[:_FIELD_BYTES].ljust(SIZE, b"\0")

    @classmethod
    def from_bytes(cls, data: bytes | bytearray | memoryview) -> Board:
        """The board of these bytes, if it passes check 0: otherwise refusal 0. Other than SIZE bytes are a ValueError."""
        data = memoryview(data).tobytes()
        if len(data) != SIZE:
            raise ValueError(f"a board has {SIZE} bytes, not {len(data)}")
        board = cls()
        board._kept = _Board.from_buffer_copy(data)
        if not board.passes():
            raise Refused(Refusal.BOARD)
        return board

    def copy(self) -> Board:
        """Another board with the same jobs and tally."""
        return self.from_bytes(self.to_bytes())

    def __reduce__(self) -> tuple[Any, tuple[bytes]]:
        """The modules copy and pickle go by the bytes too: otherwise two boards would share one struct."""
        return self.from_bytes, (self.to_bytes(),)

    def __eq__(self, other: object) -> bool:
        """Do the number of jobs, every length, window, mark and arc, and the tally agree?"""
        if not isinstance(other, Board):
            return NotImplemented
        return self.to_bytes() == other.to_bytes()

    def __repr__(self) -> str:
        return f"<Board: {self.jobs} jobs, tally {self.tally}>"

    def _enter(self, call: Any, *numbers: SupportsIndex) -> int:
        reply = call(self._kept, *map(_number, numbers))
        if not reply.accepted:
            raise Refused(reply.number)
        return reply.number

    def _look(self, call: Any, *numbers: SupportsIndex) -> Any:
        reply = call(self._kept, *map(_number, numbers))
        if not reply.accepted:
            raise Refused(reply.refusal)
        return reply
