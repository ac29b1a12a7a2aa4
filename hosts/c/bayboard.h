/* The bay board for C and C++: the host keeps the board, a plain struct; the calls alter it where it is kept, or look at it there.
 *
 * Each function is proved, for every board and all numbers, to reply just what the paper says: the equations stand in
 * crates/call_exports/src/lib.rt, the replies in crates/call_reply_numbers/specs/ReplyNumbers.antt. What C can't be held to is asked of the caller:
 * a pointer to one board that nobody else reads or writes, or in a const call writes, until the call returns. Each call tests
 * the board first (check 0); calls without that test, for wrappers, are in bayboard_unchecked.h.
 *
 * Threads: the library keeps nothing between calls, so that calls on different boards may run at the same time, and const calls on one
 * board too; other calls on one board need the caller's lock.
 * Memory: no heap and no files; of the C library it uses memcpy and memset alone.
 * Stack: 16 kilobytes suffice for every call.
 *
 * Link with libbayboard, static or shared (Linux on x86-64): `hosts/library` makes it in target/hosts/lib, and `hosts/install PREFIX`
 * installs it with this header and a file for pkg-config. */
#ifndef BAYBOARD_H
#define BAYBOARD_H

#include <stdbool.h>
#include <stddef.h>
#include <stdint.h>

#ifdef __cplusplus
extern "C" {
#endif

/* The version of this header as one number: 1.2.3 would be 10203. bayboard_matches compares it with the library's. */
#define BAYBOARD_VERSION 10000

/* A board holds at most so many jobs, numbered from 0 in the order added. */
#define BAYBOARD_JOBS 64

/* The least and the greatest length of a job, in minutes. */
#define BAYBOARD_SHORTEST 1
#define BAYBOARD_LONGEST 10000

/* The first and the last time that E and D may be. */
#define BAYBOARD_FIRST_MINUTE (-500000)
#define BAYBOARD_LAST_MINUTE 500000

/* Where the tally stops. */
#define BAYBOARD_TALLY 1000000

/* The greatest budget of a plan; the least is 0. */
#define BAYBOARD_BUDGET 1000000

/* A job's mark. */
enum { BAYBOARD_UNDECIDED = 0, BAYBOARD_VALID = 1, BAYBOARD_INVALID = 2 };

/* Why a call is refused. If several apply, the first is given. A refusal alters nothing, but for `impossible`, which counts
 * one in the tally. (10 and 11 belong to the text program alone.) Beside each call below stand the refusals that it has: no other
 * number occurs (crates/call_reply_numbers/proofs/ReplyRefusals.antt), and each of them does (`Demand1.met` in crates/paper_demands/specs/Demands.antt). */
enum {
    BAYBOARD_NO_BOARD = 0,      /* the board breaks a limit, keeps something twice that doesn't agree, or isn't closed */
    BAYBOARD_NO_FULL = 1,       /* an addition to 64 jobs */
    BAYBOARD_NO_JOB = 2,        /* a number that no job has */
    BAYBOARD_NO_SAME = 3,       /* an arc or a pair names one job twice */
    BAYBOARD_NO_LENGTH = 4,     /* a length below 1 or above 10000 */
    BAYBOARD_NO_TIME = 5,       /* E or D outside -500000 to 500000 */
    BAYBOARD_NO_WINDOW = 6,     /* E above D */
    BAYBOARD_NO_MARK = 7,       /* a mark other than 0 or 1 in an addition, or than 1 or 2 in a mark */
    BAYBOARD_NO_IMPOSSIBLE = 8, /* no schedule and no closed board with this entry */
    BAYBOARD_NO_BUDGET = 9      /* a budget below 0 or above 1000000 */
};

/* What a board keeps beside its jobs and their arcs: nothing that follows from an entry alters it. */
typedef struct {
    uint32_t tally; /* of entries refused as impossible, up to 1000000 */
} bayboard_books;

/* The board. Place k below `jobs` is job k; a place without a job holds 0 in everything. Bit k of after[i] is the arc from i to
 * k, and bit i of before[k] is the same arc. The host may read it, copy it, store it and compare it (see "The bytes of a board"); it
 * may also write it, and then every call below replies refusal 0 unless the board passes check 0. */
typedef struct {
    size_t jobs;
    int32_t lengths[BAYBOARD_JOBS];  /* minutes, 0 once invalid */
    int32_t earliest[BAYBOARD_JOBS]; /* E, the earliest start */
    int32_t latest[BAYBOARD_JOBS];   /* D, the latest end */
    uint8_t marks[BAYBOARD_JOBS];
    uint64_t after[BAYBOARD_JOBS];
    uint64_t before[BAYBOARD_JOBS];
    bayboard_books books;
} bayboard;

/* The bytes of a board.
 *
 *     offset  bytes
 *          0      8  jobs
 *          8    256  lengths, 64 of 4 bytes
 *        264    256  earliest, 64 of 4
 *        520    256  latest, 64 of 4
 *        776     64  marks, 64 of 1
 *        840    512  after, 64 of 8
 *       1352    512  before, 64 of 8
 *       1864      4  books.tally
 *       1868      4  padding
 *
 * Each number has its least byte first, and a negative one is in two's complement. The padding is no part of the board: no reply
 * depends on it, and a call may leave anything there, so that it is not compared, and stored as 0. With <string.h>:
 *
 *     memcmp(&a, &b, BAYBOARD_FIELD_BYTES) == 0           boards a and b are equal, tallies included
 *
 *     unsigned char bytes[sizeof(bayboard)] = {0};
 *     memcpy(bytes, &board, BAYBOARD_FIELD_BYTES);        to store a board: equal boards have equal bytes
 *
 *     memcpy(&board, bytes, sizeof board);                to take it back: bytes that are no board do no harm,
 *     if (!bayboard_passes(&board)) ..                    since this says so, and every call refuses them as 0
 *
 * Check 0 says that the bytes are a board, and not that they are the one that was stored. They keep this meaning as long as the version
 * keeps its first number. Replies have padding too, and are compared field by field. */
#define BAYBOARD_FIELD_BYTES 1868

/* To an entry. Accepted: `number` is the job's number where one was added, else 0. Refused: it is the refusal's number. */
typedef struct {
    bool accepted;
    uint64_t number;
} bayboard_reply;

/* To a row: the job's mark, E, D, and the sets before and after it, bit k for job k. Refused: `refusal`, and 0 in the rest. */
typedef struct {
    bool accepted;
    uint32_t refusal;
    uint8_t mark;
    int32_t earliest;
    int32_t latest;
    uint64_t before;
    uint64_t after;
} bayboard_row_reply;

/* To a pair A, B: arcs 0 none, 1 A to B, 2 B to A, 3 both; and the gap, E of B minus D of A, which may be negative. Both are 0
 * if either job is invalid. Refused: `refusal`, and 0 in the rest. */
typedef struct {
    bool accepted;
    uint32_t refusal;
    uint8_t arcs;
    int32_t gap;
} bayboard_pair_reply;

/* How a plan ends. */
enum {
    BAYBOARD_FOUND = 0,  /* all valid jobs are placed */
    BAYBOARD_NONE = 1,   /* the entries have no schedule at all */
    BAYBOARD_SPENT = 2,  /* the tries would take more than the budget */
    BAYBOARD_REFUSED = 3
};

/* To a plan. Found, none: `number` is the number of tries; spent: the budget; refused: the refusal's number. Found: the placed
 * jobs as a word, bit k for job k, and starts[k] for each; otherwise, and in the other places, 0. */
typedef struct {
    uint8_t ending;
    uint32_t number;
    uint64_t placed;
    int32_t starts[BAYBOARD_JOBS];
} bayboard_plan_reply;

/* The library's version, as BAYBOARD_VERSION is the header's. */
uint32_t bayboard_version(void);

/* The bytes of the library's board, as sizeof(bayboard) is of the header's. */
size_t bayboard_size(void);

/* A board without jobs whose tally starts at 0. */
bayboard bayboard_empty(void);

/* Does the board pass check 0: within its limits, and closed over what it shows? */
bool bayboard_passes(const bayboard *board);

/* Entries. After an accepted one the board shows the least that follows from it and from all before it. */

/* Adds a job of `length` minutes in the window E to D, with mark 0 or 1. Refusals 0, 1, 4 to 8. */
bayboard_reply bayboard_addition(bayboard *board, int32_t length, int32_t earliest, int32_t latest, int32_t mark);

/* The first job ends no later than the second starts, if both take place. Refusals 0, 2, 3, 8. */
bayboard_reply bayboard_arc(bayboard *board, int32_t from, int32_t to);

/* Marks a job valid (1) or invalid (2). Refusals 0, 2, 7, 8. */
bayboard_reply bayboard_mark(bayboard *board, int32_t job, int32_t mark);

/* Narrows a job's window: the later E and the earlier D hold. Refusals 0, 2, 5, 6, 8. */
bayboard_reply bayboard_cut(bayboard *board, int32_t job, int32_t earliest, int32_t latest);

/* Looking. Nothing is altered. */

/* Refusals 0, 2. */
bayboard_row_reply bayboard_row(const bayboard *board, int32_t job);

/* Refusals 0, 2, 3. */
bayboard_pair_reply bayboard_pair(const bayboard *board, int32_t a, int32_t b);

/* Plans all valid jobs with at most `budget` tries. Refusals 0, 9. */
bayboard_plan_reply bayboard_plan(const bayboard *board, int32_t budget);

#ifdef __cplusplus
}
#endif

/* May a program that was built with this header use this library? It may where the library's version has the header's first number
 * and at least its second, whatever the third, and where both have boards of one size. To be asked once, before the first call. */
static inline bool bayboard_matches(void)
{
    uint32_t version = bayboard_version();
    bool fits = version / 10000 == BAYBOARD_VERSION / 10000 && version / 100 >= BAYBOARD_VERSION / 100;
    return fits && bayboard_size() == sizeof(bayboard);
}

/* A refusal in words, by its number. */
static inline const char *bayboard_refusal_text(uint64_t number)
{
    switch (number) {
    case BAYBOARD_NO_BOARD: return "the board is not in order";
    case BAYBOARD_NO_FULL: return "the board is full";
    case BAYBOARD_NO_JOB: return "no such job";
    case BAYBOARD_NO_SAME: return "one job twice";
    case BAYBOARD_NO_LENGTH: return "the length is out of range";
    case BAYBOARD_NO_TIME: return "a time is out of range";
    case BAYBOARD_NO_WINDOW: return "the window is empty";
    case BAYBOARD_NO_MARK: return "no such mark here";
    case BAYBOARD_NO_IMPOSSIBLE: return "impossible";
    case BAYBOARD_NO_BUDGET: return "the budget is out of range";
    default: return "no refusal of these calls";
    }
}

/* The layout that the library has, asserted from C99 and from C++11 on: where there is no assertion, an array of size -1 is refused. */
#ifdef __cplusplus
#define BAYBOARD_ASSERT(name, holds) static_assert(holds, #name)
#define BAYBOARD_SIZEOF(type, field) sizeof(type::field)
#else
#if defined(__STDC_VERSION__) && __STDC_VERSION__ >= 201112L
#define BAYBOARD_ASSERT(name, holds) _Static_assert(holds, #name)
#else
#define BAYBOARD_ASSERT(name, holds) typedef char bayboard_assert_##name[(holds) ? 1 : -1]
#endif
#define BAYBOARD_SIZEOF(type, field) sizeof(((type *)0)->field)
#endif
#define BAYBOARD_AT(type, field, offset, bytes) \
    BAYBOARD_ASSERT(type##_##field, offsetof(type, field) == (offset) && BAYBOARD_SIZEOF(type, field) == (bytes))

BAYBOARD_ASSERT(linux_on_x86_64, sizeof(size_t) == 8 && sizeof(bool) == 1 && sizeof(void *) == 8);

BAYBOARD_ASSERT(bayboard_bytes, sizeof(bayboard) == 1872);
BAYBOARD_AT(bayboard, jobs, 0, 8);
BAYBOARD_AT(bayboard, lengths, 8, 256);
BAYBOARD_AT(bayboard, earliest, 264, 256);
BAYBOARD_AT(bayboard, latest, 520, 256);
BAYBOARD_AT(bayboard, marks, 776, 64);
BAYBOARD_AT(bayboard, after, 840, 512);
BAYBOARD_AT(bayboard, before, 1352, 512);
BAYBOARD_AT(bayboard, books, 1864, 4);
BAYBOARD_AT(bayboard_books, tally, 0, 4);
BAYBOARD_ASSERT(bayboard_field_bytes, offsetof(bayboard, books) + sizeof(bayboard_books) == BAYBOARD_FIELD_BYTES);

BAYBOARD_ASSERT(bayboard_reply_bytes, sizeof(bayboard_reply) == 16);
BAYBOARD_AT(bayboard_reply, accepted, 0, 1);
BAYBOARD_AT(bayboard_reply, number, 8, 8);

BAYBOARD_ASSERT(bayboard_row_reply_bytes, sizeof(bayboard_row_reply) == 40);
BAYBOARD_AT(bayboard_row_reply, accepted, 0, 1);
BAYBOARD_AT(bayboard_row_reply, refusal, 4, 4);
BAYBOARD_AT(bayboard_row_reply, mark, 8, 1);
BAYBOARD_AT(bayboard_row_reply, earliest, 12, 4);
BAYBOARD_AT(bayboard_row_reply, latest, 16, 4);
BAYBOARD_AT(bayboard_row_reply, before, 24, 8);
BAYBOARD_AT(bayboard_row_reply, after, 32, 8);

BAYBOARD_ASSERT(bayboard_pair_reply_bytes, sizeof(bayboard_pair_reply) == 16);
BAYBOARD_AT(bayboard_pair_reply, accepted, 0, 1);
BAYBOARD_AT(bayboard_pair_reply, refusal, 4, 4);
BAYBOARD_AT(bayboard_pair_reply, arcs, 8, 1);
BAYBOARD_AT(bayboard_pair_reply, gap, 12, 4);

BAYBOARD_ASSERT(bayboard_plan_reply_bytes, sizeof(bayboard_plan_reply) == 272);
BAYBOARD_AT(bayboard_plan_reply, ending, 0, 1);
BAYBOARD_AT(bayboard_plan_reply, number, 4, 4);
BAYBOARD_AT(bayboard_plan_reply, placed, 8, 8);
BAYBOARD_AT(bayboard_plan_reply, starts, 16, 256);

#undef BAYBOARD_AT
#undef BAYBOARD_SIZEOF
#undef BAYBOARD_ASSERT

#endif
