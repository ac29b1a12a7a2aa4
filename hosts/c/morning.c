/* Books the morning of README.md on a board of its own and prints the board after it. */
#include "bayboard.h"

#include <stdio.h>
#include <stdlib.h>

/* Ends the program where a reply isn't the one expected. */
static void expect(bool holds, const char *what)
{
    if (!holds) {
        fprintf(stderr, "unexpected: %s\n", what);
        exit(1);
    }
}

static void expect_job(bayboard_reply reply, uint64_t job)
{
    expect(reply.accepted && reply.number == job, "the number of a job added");
}

/* Minutes after midnight: 360 is 6:00. */
static void book(bayboard *board)
{
    expect_job(bayboard_addition(board, 45, 360, 480, BAYBOARD_VALID), 0);     /* the dairy truck, 6:00 to 8:00 */
    expect_job(bayboard_addition(board, 30, 390, 540, BAYBOARD_VALID), 1);     /* the parcel van, 6:30 to 9:00 */
    expect_job(bayboard_addition(board, 60, 360, 600, BAYBOARD_UNDECIDED), 2); /* beverages, not confirmed, 6:00 to 10:00 */
    expect_job(bayboard_addition(board, 20, 420, 500, BAYBOARD_VALID), 3);     /* returns, 7:00 to 8:20 */
    expect(bayboard_arc(board, 0, 1).accepted, "the van takes what the dairy truck brings");
    expect(bayboard_cut(board, 0, 390, 480).accepted, "the dairy truck: not before 6:30");
    expect(bayboard_mark(board, 2, BAYBOARD_VALID).accepted, "the beverages are confirmed");
    expect(bayboard_cut(board, 2, 360, 520).accepted, "their driver has to leave at 8:40");
    bayboard_reply refused = bayboard_cut(board, 1, 390, 510);
    expect(!refused.accepted && refused.number == BAYBOARD_NO_IMPOSSIBLE, "the van can't leave at 8:30");
}

static void print_set(const char *name, uint64_t set)
{
    printf(" %s%s", name, set == 0 ? " none" : "");
    for (int job = 0; job < BAYBOARD_JOBS; job++)
        if (set >> job & 1)
            printf(" %d", job);
}

static void print(const bayboard *board)
{
    printf("%zu jobs, %u refused as impossible\n", board->jobs, (unsigned)board->books.tally);
    for (int32_t job = 0; job < (int32_t)board->jobs; job++) {
        bayboard_row_reply row = bayboard_row(board, job);
        expect(row.accepted, "a row of each job");
        printf("job %d: mark %d, %d to %d,", (int)job, row.mark, (int)row.earliest, (int)row.latest);
        print_set("after", row.before);
        putchar(',');
        print_set("before", row.after);
        putchar('\n');
    }
    bayboard_pair_reply pair = bayboard_pair(board, 2, 1);
    expect(pair.accepted, "a pair of two jobs");
    printf("jobs 2 and 1: arcs %d, gap %d\n", pair.arcs, (int)pair.gap);
    bayboard_plan_reply plan = bayboard_plan(board, 1000);
    expect(plan.ending == BAYBOARD_FOUND, "a plan");
    printf("plan of %u tries:", (unsigned)plan.number);
    for (int job = 0; job < BAYBOARD_JOBS; job++)
        if (plan.placed >> job & 1)
            printf(" job %d at %d", job, (int)plan.starts[job]);
    putchar('\n');
}

int main(void)
{
    expect(bayboard_matches(), "a library of this header's version");
    bayboard board = bayboard_empty();
    book(&board);
    expect(bayboard_passes(&board), "a board that the calls left passes check 0");
    print(&board);
    board.marks[0] = 3;
    expect(!bayboard_passes(&board), "a board with a mark of 3 doesn't");
    return 0;
}
