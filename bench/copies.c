/* Prints the bytes that go through memcpy and memmove in each call, on a board of 8 jobs, and what they are in boards. The program's own
 * memcpy and memmove count; the linker takes them before those of the C library. */
#include "../hosts/c/bayboard_unchecked.h"
#include <stdio.h>

static size_t copied;

void *memcpy(void *restrict to, const void *restrict from, size_t bytes) {
    void *start = to;
    copied += bytes;
    __asm__ volatile("rep movsb" : "+D"(to), "+S"(from), "+c"(bytes) : : "memory");
    return start;
}

void *memmove(void *to, const void *from, size_t bytes) {
    char *target = to;
    const char *source = from;
    copied += bytes;
    if (target <= source) {
        for (size_t k = 0; k < bytes; k++) target[k] = source[k];
    } else {
        for (size_t k = bytes; k-- > 0;) target[k] = source[k];
    }
    return to;
}

/* A chain of three jobs, two jobs behind it that come before a fixed one or one of them after it, and two undecided ones. */
static bayboard eight_jobs(void) {
    bayboard board = bayboard_empty();
    for (int job = 0; job < 3; job++) bayboard_addition(&board, 10, 0, 500, BAYBOARD_VALID);
    for (int job = 3; job < 5; job++) bayboard_addition(&board, 10, 0, 208, BAYBOARD_VALID);
    bayboard_addition(&board, 50, 139, 189, BAYBOARD_VALID);
    for (int job = 6; job < 8; job++) bayboard_addition(&board, 10, 0, 500, BAYBOARD_UNDECIDED);
    for (int job = 0; job < 3; job++) bayboard_arc(&board, job, job + 1);
    bayboard_arc(&board, 2, 4);
    return board;
}

static void print(const char *call, size_t unchecked, size_t checked) {
    double boards = sizeof(bayboard);
    printf("| %s | %zu (%.1f) | %zu (%.1f) |\n", call, unchecked, unchecked / boards, checked, checked / boards);
}

/* The bytes of a call on a fresh copy of the board, whose reply must be as expected. */
#define COUNT(bytes, reply_type, expected, function, ...)    \
    do {                                                     \
        bayboard board = kept;                               \
        copied = 0;                                          \
        reply_type reply = function(&board, __VA_ARGS__);    \
        bytes = copied;                                      \
        if (!(expected)) {                                   \
            fprintf(stderr, "the reply of %s\n", #function); \
            return 1;                                        \
        }                                                    \
    } while (0)

/* A line: without check 0 and with it. */
#define LINE(name, reply_type, expected, call, ...)                                     \
    do {                                                                                \
        size_t unchecked, checked;                                                      \
        COUNT(unchecked, reply_type, expected, bayboard_unchecked_##call, __VA_ARGS__); \
        COUNT(checked, reply_type, expected, bayboard_##call, __VA_ARGS__);             \
        print(name, unchecked, checked);                                                \
    } while (0)

#define ACCEPTED(name, ...) LINE(name, bayboard_reply, reply.accepted, __VA_ARGS__)
#define REFUSED(name, refusal, ...) LINE(name, bayboard_reply, !reply.accepted && reply.number == refusal, __VA_ARGS__)

static int entries(bayboard kept) {
    ACCEPTED("addition", addition, 10, 0, 500, BAYBOARD_VALID);
    REFUSED("addition, refused by the gate", BAYBOARD_NO_LENGTH, addition, 0, 0, 500, BAYBOARD_VALID);
    REFUSED("addition, impossible", BAYBOARD_NO_IMPOSSIBLE, addition, 10, 0, 9, BAYBOARD_VALID);
    ACCEPTED("arc", arc, 3, 4);
    ACCEPTED("arc, shown already", arc, 0, 1);
    REFUSED("arc, refused by the gate", BAYBOARD_NO_SAME, arc, 3, 3);
    REFUSED("arc, impossible", BAYBOARD_NO_IMPOSSIBLE, arc, 3, 0);
    ACCEPTED("mark valid", mark, 6, BAYBOARD_VALID);
    ACCEPTED("mark invalid", mark, 6, BAYBOARD_INVALID);
    REFUSED("mark, refused by the gate", BAYBOARD_NO_MARK, mark, 6, 3);
    REFUSED("mark, impossible", BAYBOARD_NO_IMPOSSIBLE, mark, 0, BAYBOARD_INVALID);
    ACCEPTED("cut", cut, 0, 50, 500);
    REFUSED("cut, refused by the gate", BAYBOARD_NO_WINDOW, cut, 0, 50, 49);
    REFUSED("cut, impossible by the job's own window", BAYBOARD_NO_IMPOSSIBLE, cut, 0, 490, 500);
    REFUSED("cut, impossible by what follows", BAYBOARD_NO_IMPOSSIBLE, cut, 0, 100, 500);
    return 0;
}

static int looks(bayboard kept) {
    LINE("row", bayboard_row_reply, reply.accepted, row, 0);
    LINE("pair", bayboard_pair_reply, reply.accepted, pair, 0, 1);
    LINE("plan", bayboard_plan_reply, reply.ending == BAYBOARD_FOUND, plan, 1000);
    return 0;
}

int main(void) {
    bayboard kept = eight_jobs();
    printf("| call, 8 jobs | on a checked board: bytes (boards) | with check 0 |\n|---|---|---|\n");
    return entries(kept) || looks(kept);
}
