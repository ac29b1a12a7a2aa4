/* Tests of both headers: every refusal of every call, every ending of a plan, and what rows and pairs show; and what the header says of
 * its version, the limits, the texts, the bytes of a board, threads and the stack.
 *
 * The numbers expected are written out as the paper has them, with the header's name beside each that has one: two names that
 * are swapped in a header are seen here, and so are two fields of a reply. */
#define _POSIX_C_SOURCE 200809L
#include "bayboard_unchecked.h"

#include <pthread.h>
#include <stdio.h>
#include <string.h>

typedef struct {
    const char *name;
    bayboard_reply (*addition)(bayboard *, int32_t, int32_t, int32_t, int32_t);
    bayboard_reply (*arc)(bayboard *, int32_t, int32_t);
    bayboard_reply (*mark)(bayboard *, int32_t, int32_t);
    bayboard_reply (*cut)(bayboard *, int32_t, int32_t, int32_t);
    bayboard_row_reply (*row)(const bayboard *, int32_t);
    bayboard_pair_reply (*pair)(const bayboard *, int32_t, int32_t);
    bayboard_plan_reply (*plan)(const bayboard *, int32_t);
} calls;

static const calls checked = {
    "checked", bayboard_addition, bayboard_arc, bayboard_mark, bayboard_cut, bayboard_row, bayboard_pair, bayboard_plan,
};

static const calls unchecked = {
    "unchecked", bayboard_unchecked_addition, bayboard_unchecked_arc, bayboard_unchecked_mark, bayboard_unchecked_cut,
    bayboard_unchecked_row, bayboard_unchecked_pair, bayboard_unchecked_plan,
};

/* The calls under test. */
static const calls *use;

static int passed, failed;

/* Counts a test. One that fails is named by its call and the call's first numbers. */
static void expect(bool holds, const char *call, int32_t first, int32_t second, const char *what)
{
    passed += holds;
    failed += !holds;
    if (!holds)
        fprintf(stderr, "refusals: %s %s %d %d: %s\n", use->name, call, (int)first, (int)second, what);
}

/* Jobs 0, 2 and 5 are valid, with an arc from 0 to 2; 1 is invalid; 3 and 4 are undecided, with arcs both ways. R3 gives arcs
 * from each of them to 5, R4 raises E of 2 to 10, and R5 lowers D of 0 to 95. */
static bayboard six;
/* 64 undecided jobs. */
static bayboard full;
/* Three valid jobs of 10 minutes in 25: any two of them fit, so that the rules see nothing, and all three don't. */
static bayboard tight;
static bayboard empty;

static void add(bayboard *board, int32_t length, int32_t earliest, int32_t latest, int32_t mark)
{
    uint64_t number = board->jobs;
    bayboard_reply reply = use->addition(board, length, earliest, latest, mark);
    expect(reply.accepted && reply.number == number, "addition", length, earliest, "the job's number");
}

static void accept(bayboard_reply reply, const char *call, int32_t first, int32_t second)
{
    expect(reply.accepted && reply.number == 0, call, first, second, "accepted, with 0");
}

static void make_boards(void)
{
    six = full = tight = empty = bayboard_empty();
    add(&six, 10, 0, 100, 1);
    add(&six, 10, 0, 100, 0);
    add(&six, 5, 0, 100, 1);
    add(&six, 5, 0, 100, 0);
    add(&six, 5, 0, 100, 0);
    add(&six, 5, 100, 500, 1);
    accept(use->mark(&six, 1, 2), "mark", 1, 2);
    accept(use->arc(&six, 0, 2), "arc", 0, 2);
    accept(use->arc(&six, 3, 4), "arc", 3, 4);
    accept(use->arc(&six, 4, 3), "arc", 4, 3);
    accept(use->cut(&six, 5, 0, 300), "cut", 5, 0);
    for (int job = 0; job < 64; job++)
        add(&full, 1, 0, 100, 0);
    for (int job = 0; job < 3; job++)
        add(&tight, 10, 0, 25, 1);
}

enum call { ADDITION, ARC, MARK, CUT, ROW, PAIR, PLAN };
static const char *const call_names[] = {"addition", "arc", "mark", "cut", "row", "pair", "plan"};

/* In place of a refusal's number: the call was accepted; it was refused and shows something all the same. */
enum { ACCEPTED = -1, SHOWN = -2 };

/* A call with its numbers, the paper's number of its refusal, and the header's name for that. */
typedef struct {
    const bayboard *board;
    enum call call;
    int32_t numbers[4];
    int refusal;
    int name;
} test;

/* Each gives one reason for its refusal and no other. */
static const test tests[] = {
    {&six, ADDITION, {1, -500000, 500000, 0}, ACCEPTED, ACCEPTED},
    {&six, ADDITION, {10000, 0, 100000, 1}, ACCEPTED, ACCEPTED},
    {&six, ADDITION, {1, 50, 50, 0}, ACCEPTED, ACCEPTED},
    {&full, ADDITION, {1, 0, 100, 0}, 1, BAYBOARD_NO_FULL},
    {&six, ADDITION, {0, 0, 100, 0}, 4, BAYBOARD_NO_LENGTH},
    {&six, ADDITION, {10001, 0, 100000, 0}, 4, BAYBOARD_NO_LENGTH},
    {&six, ADDITION, {10, -500001, 100, 0}, 5, BAYBOARD_NO_TIME},
    {&six, ADDITION, {10, 0, 500001, 0}, 5, BAYBOARD_NO_TIME},
    {&six, ADDITION, {10, 101, 100, 0}, 6, BAYBOARD_NO_WINDOW},
    {&six, ADDITION, {10, 0, 100, -1}, 7, BAYBOARD_NO_MARK},
    {&six, ADDITION, {10, 0, 100, 2}, 7, BAYBOARD_NO_MARK},
    {&six, ADDITION, {10, 0, 9, 1}, 8, BAYBOARD_NO_IMPOSSIBLE},
    {&six, ARC, {2, 3}, ACCEPTED, ACCEPTED},
    {&six, ARC, {-1, 0}, 2, BAYBOARD_NO_JOB},
    {&six, ARC, {6, 0}, 2, BAYBOARD_NO_JOB},
    {&six, ARC, {0, 6}, 2, BAYBOARD_NO_JOB},
    {&six, ARC, {0, 0}, 3, BAYBOARD_NO_SAME},
    {&six, ARC, {2, 0}, 8, BAYBOARD_NO_IMPOSSIBLE},
    {&six, MARK, {3, 1}, ACCEPTED, ACCEPTED},
    {&six, MARK, {-1, 1}, 2, BAYBOARD_NO_JOB},
    {&six, MARK, {6, 1}, 2, BAYBOARD_NO_JOB},
    {&six, MARK, {3, 0}, 7, BAYBOARD_NO_MARK},
    {&six, MARK, {3, 3}, 7, BAYBOARD_NO_MARK},
    {&six, MARK, {1, 1}, 8, BAYBOARD_NO_IMPOSSIBLE},
    {&six, MARK, {0, 2}, 8, BAYBOARD_NO_IMPOSSIBLE},
    {&six, CUT, {0, -500000, 500000}, ACCEPTED, ACCEPTED},
    {&six, CUT, {-1, 0, 100}, 2, BAYBOARD_NO_JOB},
    {&six, CUT, {6, 0, 100}, 2, BAYBOARD_NO_JOB},
    {&six, CUT, {0, -500001, 100}, 5, BAYBOARD_NO_TIME},
    {&six, CUT, {0, 0, 500001}, 5, BAYBOARD_NO_TIME},
    {&six, CUT, {0, 51, 50}, 6, BAYBOARD_NO_WINDOW},
    {&six, CUT, {0, 0, 9}, 8, BAYBOARD_NO_IMPOSSIBLE},
    {&six, ROW, {5}, ACCEPTED, ACCEPTED},
    {&six, ROW, {-1}, 2, BAYBOARD_NO_JOB},
    {&six, ROW, {6}, 2, BAYBOARD_NO_JOB},
    {&six, PAIR, {5, 0}, ACCEPTED, ACCEPTED},
    {&six, PAIR, {-1, 0}, 2, BAYBOARD_NO_JOB},
    {&six, PAIR, {0, 6}, 2, BAYBOARD_NO_JOB},
    {&six, PAIR, {0, 0}, 3, BAYBOARD_NO_SAME},
    {&six, PLAN, {0}, ACCEPTED, ACCEPTED},
    {&six, PLAN, {1000000}, ACCEPTED, ACCEPTED},
    {&six, PLAN, {-1}, 9, BAYBOARD_NO_BUDGET},
    {&six, PLAN, {1000001}, 9, BAYBOARD_NO_BUDGET},
};
enum { TESTS = sizeof tests / sizeof *tests };

static int entry_refusal(bayboard_reply reply)
{
    return reply.accepted ? ACCEPTED : (int)reply.number;
}

static int row_refusal(bayboard_row_reply row)
{
    bool shown = row.mark || row.earliest || row.latest || row.before || row.after;
    return row.accepted ? ACCEPTED : shown ? SHOWN : (int)row.refusal;
}

static int pair_refusal(bayboard_pair_reply pair)
{
    bool shown = pair.arcs || pair.gap;
    return pair.accepted ? ACCEPTED : shown ? SHOWN : (int)pair.refusal;
}

static int plan_refusal(bayboard_plan_reply plan)
{
    static const int32_t no_starts[BAYBOARD_JOBS];
    bool shown = plan.placed || memcmp(plan.starts, no_starts, sizeof no_starts) != 0;
    return plan.ending != 3 ? ACCEPTED : shown ? SHOWN : (int)plan.number;
}

/* Makes the call of a test on a board. */
static int refusal(bayboard *board, const test *test)
{
    const int32_t *n = test->numbers;
    switch (test->call) {
    case ADDITION: return entry_refusal(use->addition(board, n[0], n[1], n[2], n[3]));
    case ARC: return entry_refusal(use->arc(board, n[0], n[1]));
    case MARK: return entry_refusal(use->mark(board, n[0], n[1]));
    case CUT: return entry_refusal(use->cut(board, n[0], n[1], n[2]));
    case ROW: return row_refusal(use->row(board, n[0]));
    case PAIR: return pair_refusal(use->pair(board, n[0], n[1]));
    default: return plan_refusal(use->plan(board, n[0]));
    }
}

static bool same_boards(const bayboard *a, const bayboard *b)
{
    return memcmp(a, b, BAYBOARD_FIELD_BYTES) == 0;
}

static void pad(bayboard *board, int byte)
{
    memset((unsigned char *)board + BAYBOARD_FIELD_BYTES, byte, sizeof *board - BAYBOARD_FIELD_BYTES);
}

/* Expects a refusal, or ACCEPTED, of a test's call on a board, whatever its padding; that a refusal alters nothing but the tally; and
 * that the call writes nothing beside the board. */
static void expect_refusal(int number, bayboard board, const test *test, uint32_t tally, const char *what)
{
    const int32_t *n = test->numbers;
    const char *call = call_names[test->call];
    bayboard unaltered = board;
    unaltered.books.tally = tally;
    for (int byte = 0; byte <= 255; byte += 255) {
        struct {
            uint64_t low;
            bayboard board;
            uint64_t high;
        } kept = {UINT64_MAX / 3, board, UINT64_MAX / 3};
        pad(&kept.board, byte);
        expect(refusal(&kept.board, test) == number, call, n[0], n[1], what);
        expect(kept.low == UINT64_MAX / 3 && kept.high == UINT64_MAX / 3, call, n[0], n[1], "what stands beside the board");
        if (number != ACCEPTED)
            expect(same_boards(&kept.board, &unaltered), call, n[0], n[1], "the board after it");
    }
}

/* "number 8 adds one to the tally", which "stops at 1000000" */
static void test_refusals(void)
{
    static const uint32_t tallies[][2] = {{0, 1}, {999999, 1000000}, {1000000, 1000000}};
    for (int i = 0; i < TESTS; i++) {
        const test *test = &tests[i];
        expect(test->name == test->refusal, "refusal", test->refusal, test->name, "its name");
        for (int k = 0; k < 3; k++) {
            bayboard board = *test->board;
            board.books.tally = tallies[k][0];
            expect(bayboard_passes(&board), "passes", (int32_t)board.books.tally, 0, "a board that the calls made");
            expect_refusal(test->refusal, board, test, tallies[k][test->refusal == 8], "its refusal");
        }
    }
}

static void test_rows(void)
{
    static const struct {
        int32_t job, length, earliest, latest, mark, mark_name;
        uint64_t before, after;
    } rows[] = {
        {0, 10, 0, 95, 1, BAYBOARD_VALID, 0, 1 << 2 | 1 << 5},
        {1, 0, 0, 0, 2, BAYBOARD_INVALID, 0, 0},
        {2, 5, 10, 100, 1, BAYBOARD_VALID, 1 << 0, 1 << 5},
        {3, 5, 0, 100, 0, BAYBOARD_UNDECIDED, 1 << 4, 1 << 4 | 1 << 5},
        {5, 5, 100, 300, 1, BAYBOARD_VALID, 1 << 0 | 1 << 2 | 1 << 3 | 1 << 4, 0},
    };
    expect(six.jobs == 6 && BAYBOARD_JOBS == 64, "jobs", 6, BAYBOARD_JOBS, "their number");
    for (size_t i = 0; i < sizeof rows / sizeof *rows; i++) {
        int32_t job = rows[i].job;
        bayboard_row_reply row = use->row(&six, job);
        expect(row.accepted && row.mark == rows[i].mark && row.mark == rows[i].mark_name, "row", job, row.mark, "mark");
        expect(row.earliest == rows[i].earliest && row.latest == rows[i].latest, "row", job, row.earliest, "window");
        expect(row.before == rows[i].before && row.after == rows[i].after, "row", job, (int32_t)row.before, "sets");
        expect(six.lengths[job] == rows[i].length && six.marks[job] == row.mark, "board", job, six.lengths[job], "length");
        expect(six.earliest[job] == row.earliest && six.latest[job] == row.latest, "board", job, 0, "window");
        expect(six.before[job] == row.before && six.after[job] == row.after, "board", job, 0, "sets");
    }
}

static void test_pairs(void)
{
    static const struct {
        int32_t a, b, arcs, gap;
    } pairs[] = {
        {0, 3, 0, -95}, {0, 2, 1, -85}, {2, 0, 2, -100}, {3, 4, 3, -100}, {2, 5, 1, 0}, {0, 5, 1, 5}, {5, 0, 2, -300},
        {1, 5, 0, 0}, {5, 1, 0, 0}, /* either is invalid */
    };
    for (size_t i = 0; i < sizeof pairs / sizeof *pairs; i++) {
        bayboard_pair_reply pair = use->pair(&six, pairs[i].a, pairs[i].b);
        expect(pair.accepted && pair.arcs == pairs[i].arcs, "pair", pairs[i].a, pairs[i].b, "arcs");
        expect(pair.gap == pairs[i].gap, "pair", pairs[i].a, pairs[i].b, "gap");
    }
}

static void test_plans(void)
{
    static const struct {
        const bayboard *board;
        int32_t budget, ending, ending_name;
        uint32_t number;
        uint64_t placed;
        int32_t starts[BAYBOARD_JOBS];
    } plans[] = {
        {&six, 3, 0, BAYBOARD_FOUND, 3, 1 << 0 | 1 << 2 | 1 << 5, {[0] = 0, [2] = 10, [5] = 100}},
        {&empty, 0, 0, BAYBOARD_FOUND, 0, 0, {0}},
        {&tight, 15, 1, BAYBOARD_NONE, 15, 0, {0}},
        {&tight, 14, 2, BAYBOARD_SPENT, 14, 0, {0}},
        {&six, 2, 2, BAYBOARD_SPENT, 2, 0, {0}},
        {&six, -1, 3, BAYBOARD_REFUSED, 9, 0, {0}},
    };
    for (size_t i = 0; i < sizeof plans / sizeof *plans; i++) {
        int32_t budget = plans[i].budget;
        bayboard_plan_reply plan = use->plan(plans[i].board, budget);
        expect(plan.ending == plans[i].ending && plan.ending == plans[i].ending_name, "plan", budget, plan.ending, "ending");
        expect(plan.number == plans[i].number, "plan", budget, (int32_t)plan.number, "tries");
        expect(plan.placed == plans[i].placed, "plan", budget, (int32_t)plan.placed, "placed jobs");
        expect(memcmp(plan.starts, plans[i].starts, sizeof plan.starts) == 0, "plan", budget, plan.starts[0], "starts");
    }
}

/* Breaks the board of six jobs in one way, and says in which; NULL where there is no such way. */
static const char *break_board(bayboard *b, int way)
{
    switch (way) {
    case 0: b->jobs = 65; return "65 jobs";
    case 1: b->jobs = SIZE_MAX; return "the greatest number of jobs";
    case 2: b->books.tally = 1000001; return "a tally of 1000001";
    case 3: b->lengths[5] = 0; return "a length of 0";
    case 4: b->lengths[5] = 10001; b->latest[5] = 20000; return "a length of 10001";
    case 5: b->earliest[0] = -500001; return "E below the limit";
    case 6: b->latest[5] = 500001; return "D above the limit";
    case 7: b->earliest[5] = 301; return "E above D";
    case 8: b->marks[5] = 3; return "a mark of 3";
    case 9: b->lengths[1] = 1; return "an invalid job with a length";
    case 10: b->latest[1] = 1; return "an invalid job with a window";
    case 11: b->after[0] |= 2; b->before[1] |= 1; return "an arc to an invalid job";
    case 12: b->after[0] |= 1; b->before[0] |= 1; return "an arc from a job to itself";
    case 13: b->after[0] |= 1ull << 40; b->before[40] |= 1; return "an arc to no job";
    case 14: b->after[5] |= 1 << 3; return "an arc in the words after alone";
    case 15: b->before[3] |= 1 << 5; return "an arc in the words before alone";
    case 16: b->lengths[63] = 1; return "no job, with a length";
    case 17: b->earliest[63] = 1; return "no job, with E";
    case 18: b->latest[63] = 1; return "no job, with D";
    case 19: b->marks[63] = 1; return "no job, with a mark";
    case 20: b->marks[3] = 1; return "not closed under R2";
    case 21: b->after[0] &= ~32ull; b->before[5] &= ~1ull; return "not closed under R1 and R3";
    case 22: b->earliest[2] = 9; return "not closed under R4";
    case 23: b->latest[0] = 96; return "not closed under R5";
    case 24: b->earliest[3] = 96; return "not closed under R6";
    default: return NULL;
    }
}

/* Check 0 comes first: on these boards every test's call is refused as 0, whatever its numbers. */
static void test_broken_boards(void)
{
    expect(BAYBOARD_NO_BOARD == 0, "refusal", 0, BAYBOARD_NO_BOARD, "its name");
    bayboard board = six;
    const char *broken;
    for (int way = 0; (broken = break_board(&board, way)) != NULL; way++, board = six) {
        expect(!bayboard_passes(&board), "passes", way, 0, broken);
        for (int i = 0; i < TESTS; i++)
            expect_refusal(0, board, &tests[i], board.books.tally, broken);
    }
}

static void test_version(void)
{
    expect(bayboard_version() == BAYBOARD_VERSION, "version", (int32_t)bayboard_version(), BAYBOARD_VERSION, "the header's");
    expect(bayboard_size() == 1872, "size", (int32_t)bayboard_size(), (int32_t)sizeof(bayboard), "the header's");
    expect(bayboard_matches(), "matches", (int32_t)bayboard_version(), (int32_t)bayboard_size(), "library and header");
}

/* At each limit stand calls of the table above, with the numbers written out. */
static void test_limits(void)
{
    static const int32_t limits[][2] = {
        {BAYBOARD_JOBS, 64},
        {BAYBOARD_SHORTEST, 1},
        {BAYBOARD_LONGEST, 10000},
        {BAYBOARD_FIRST_MINUTE, -500000},
        {BAYBOARD_LAST_MINUTE, 500000},
        {BAYBOARD_TALLY, 1000000},
        {BAYBOARD_BUDGET, 1000000},
    };
    for (size_t i = 0; i < sizeof limits / sizeof *limits; i++)
        expect(limits[i][0] == limits[i][1], "limit", limits[i][0], limits[i][1], "its constant");
}

static void test_texts(void)
{
    static const char *const texts[] = {
        "the board is not in order", "the board is full", "no such job", "one job twice", "the length is out of range",
        "a time is out of range", "the window is empty", "no such mark here", "impossible", "the budget is out of range",
    };
    static const uint64_t others[] = {10, 11, 1ull << 32, UINT64_MAX};
    for (int32_t number = 0; number < 10; number++)
        expect(strcmp(bayboard_refusal_text((uint64_t)number), texts[number]) == 0, "text", number, 0, texts[number]);
    for (int32_t i = 0; i < 4; i++)
        expect(strcmp(bayboard_refusal_text(others[i]), "no refusal of these calls") == 0, "text", i, 0, "of another number");
}

/* A number of so many bytes, the least first. */
static uint64_t number_at(const unsigned char *bytes, int offset, int size)
{
    uint64_t number = 0;
    while (size-- > 0)
        number = number << 8 | bytes[offset + size];
    return number;
}

static void test_bytes(const bayboard *board)
{
    unsigned char bytes[sizeof(bayboard)] = {0};
    memcpy(bytes, board, BAYBOARD_FIELD_BYTES);
    expect(number_at(bytes, 0, 8) == board->jobs, "bytes", 0, 8, "jobs");
    for (int k = 0; k < 64; k++) {
        expect(number_at(bytes, 8 + 4 * k, 4) == (uint32_t)board->lengths[k], "bytes", 8, k, "lengths");
        expect(number_at(bytes, 264 + 4 * k, 4) == (uint32_t)board->earliest[k], "bytes", 264, k, "earliest");
        expect(number_at(bytes, 520 + 4 * k, 4) == (uint32_t)board->latest[k], "bytes", 520, k, "latest");
        expect(number_at(bytes, 776 + k, 1) == board->marks[k], "bytes", 776, k, "marks");
        expect(number_at(bytes, 840 + 8 * k, 8) == board->after[k], "bytes", 840, k, "after");
        expect(number_at(bytes, 1352 + 8 * k, 8) == board->before[k], "bytes", 1352, k, "before");
    }
    expect(number_at(bytes, 1864, 4) == board->books.tally, "bytes", 1864, 4, "tally");
    expect(number_at(bytes, 1868, 4) == 0, "bytes", 1868, 4, "padding");
    bayboard back;
    memcpy(&back, bytes, sizeof back);
    expect(same_boards(&back, board) && bayboard_passes(&back), "bytes", 0, 1872, "taken back");
    back.books.tally ^= 1;
    expect(!same_boards(&back, board), "bytes", 1864, 4, "another tally");
}

static void test_bytes_of_boards(void)
{
    bayboard night = empty;
    add(&night, 10, -2, 300, 1);
    night.books.tally = 66051;
    unsigned char bytes[sizeof(bayboard)];
    memcpy(bytes, &night, sizeof bytes);
    static const unsigned char first[] = {254, 255, 255, 255}, last[] = {44, 1, 0, 0}, tally[] = {3, 2, 1, 0};
    expect(memcmp(bytes + 264, first, 4) == 0, "bytes", 264, -2, "a negative number");
    expect(memcmp(bytes + 520, last, 4) == 0, "bytes", 520, 300, "the least byte first");
    expect(memcmp(bytes + 1864, tally, 4) == 0, "bytes", 1864, 66051, "the least byte first");
    const bayboard *const boards[] = {&six, &full, &tight, &empty, &night};
    for (int i = 0; i < 5; i++)
        test_bytes(boards[i]);
}

enum { THREADS = 4, ROUNDS = 1000, STACK = 64 * 1024, SUFFICIENT = 16 * 1024, PAINT = 0xA5 };
static _Alignas(4096) unsigned char stacks[THREADS][STACK];

/* A thread that makes the calls of all tests on a board of its own, which is known by its tally. */
typedef struct {
    const unsigned char *stack;
    uint32_t tally;
    bayboard board;
    int wrong;      /* replies that aren't the test's, and tallies that aren't the thread's */
    ptrdiff_t used; /* of the stack, by the calls and their callers here */
} thread;

static void *make_calls(void *own)
{
    thread *self = own;
    unsigned char here = 0;
    for (int round = 0; round < ROUNDS; round++)
        for (int i = 0; i < TESTS; i++) {
            self->board = *tests[i].board;
            self->board.books.tally = self->tally;
            self->wrong += refusal(&self->board, &tests[i]) != tests[i].refusal;
            self->wrong += self->board.books.tally != self->tally + (tests[i].refusal == 8);
        }
    const unsigned char *deepest = self->stack;
    while (*deepest == PAINT)
        deepest++;
    self->used = &here - deepest;
    return NULL;
}

static bool start(pthread_t *id, thread *own, unsigned char *stack)
{
    pthread_attr_t attributes;
    pthread_attr_init(&attributes);
    pthread_attr_setstack(&attributes, stack, STACK);
    bool started = pthread_create(id, &attributes, make_calls, own) == 0;
    pthread_attr_destroy(&attributes);
    return started;
}

static void test_threads(void)
{
    static thread own[THREADS];
    pthread_t ids[THREADS];
    bool started[THREADS];
    memset(stacks, PAINT, sizeof stacks);
    for (int i = 0; i < THREADS; i++) {
        own[i] = (thread){.stack = stacks[i], .tally = 1000 * (uint32_t)i};
        started[i] = start(&ids[i], &own[i], stacks[i]);
    }
    for (int i = 0; i < THREADS; i++) {
        expect(started[i] && pthread_join(ids[i], NULL) == 0, "thread", i, 0, "from its start to its end");
        expect(own[i].wrong == 0, "thread", i, own[i].wrong, "its replies");
        expect(own[i].used > 0 && own[i].used < SUFFICIENT, "thread", i, (int32_t)own[i].used, "its stack");
    }
}

int main(void)
{
    static const calls *const both[] = {&unchecked, &checked};
    for (int i = 0; i < 2; i++) {
        use = both[i];
        make_boards();
        test_refusals();
        test_rows();
        test_pairs();
        test_plans();
        test_threads();
    }
    test_broken_boards();
    test_version();
    test_limits();
    test_texts();
    test_bytes_of_boards();
    printf("refusals: %d passed, %d failed\n", passed, failed);
    return failed != 0;
}
