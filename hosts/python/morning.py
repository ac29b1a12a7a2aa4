"""Books the morning of README.md on a board and prints the board after it."""

from __future__ import annotations

from bayboard import Board, Ending, Mark, Refusal, Refused


def book(board: Board) -> None:
    """Minutes after midnight: 360 is 6:00."""
    dairy = board.addition(45, 360, 480, Mark.VALID)  # 6:00 to 8:00
    van = board.addition(30, 390, 540, Mark.VALID)  # 6:30 to 9:00
    beverages = board.addition(60, 360, 600, Mark.UNDECIDED)  # not confirmed, 6:00 to 10:00
    board.addition(20, 420, 500, Mark.VALID)  # returns, 7:00 to 8:20
    board.arc(dairy, van)  # the van takes what the dairy truck brings
    board.cut(dairy, 390, 480)  # the dairy truck phones: not before 6:30
    board.mark(beverages, Mark.VALID)  # the beverages are confirmed,
    board.cut(beverages, 360, 520)  # and their driver has to leave at 8:40
    try:
        board.cut(van, 390, 510)  # the van would like to leave at 8:30: it can't
    except Refused as refused:
        if refused.refusal is not Refusal.IMPOSSIBLE:
            raise


def listed(jobs: frozenset[int]) -> str:
    return " ".join(map(str, sorted(jobs))) or "none"


def show(board: Board) -> None:
    print(f"{board.jobs} jobs, {board.tally} refused as impossible")
    for job in range(board.jobs):
        row = board.row(job)
        window = f"{row.earliest} to {row.latest}"
        print(f"job {job}: mark {row.mark:d}, {window}, after {listed(row.before)}, before {listed(row.after)}")
    pair = board.pair(2, 1)
    print(f"jobs 2 and 1: arcs {pair.arcs:d}, gap {pair.gap}")
    plan = board.plan(1000)
    if plan.ending is not Ending.FOUND:
        raise SystemExit("unexpected: no plan")
    print(f"plan of {plan.number} tries:", *(f"job {job} at {start}" for job, start in plan.starts.items()))


if __name__ == "__main__":
    board = Board()
    book(board)
    show(board)
