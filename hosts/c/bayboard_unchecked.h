/* The calls of bayboard.h without check 0: faster, and on a board that passes it the same replies. These are no calls of the
 * paper. They are for wrappers whose own type keeps a board from being written by anyone else, as `Dock` does in hosts/rust; beside
 * those, only the tests of this header call them.
 *
 * THE HOST OWES a board that passes check 0. Such a board is
 * - what bayboard_empty gave,
 * - one that bayboard_passes said true of, or
 * - what a call, of this header or of bayboard.h, left of such a board, refused or not, if nobody else wrote it since
 * (theorems `empty_board_passes` and `left_passes` in crates/call_exports/specs/LeftPasses.antt).
 *
 * ON ANOTHER BOARD NOTHING IS PROMISED: the calls don't test it, and may read and write past the board.
 *
 * The equations stand in crates/call_exports/src/unchecked.rt. */
#ifndef BAYBOARD_UNCHECKED_H
#define BAYBOARD_UNCHECKED_H

#include "bayboard.h"

#ifdef __cplusplus
extern "C" {
#endif

bayboard_reply bayboard_unchecked_addition(bayboard *board, int32_t length, int32_t earliest, int32_t latest, int32_t mark);
bayboard_reply bayboard_unchecked_arc(bayboard *board, int32_t from, int32_t to);
bayboard_reply bayboard_unchecked_mark(bayboard *board, int32_t job, int32_t mark);
bayboard_reply bayboard_unchecked_cut(bayboard *board, int32_t job, int32_t earliest, int32_t latest);
bayboard_row_reply bayboard_unchecked_row(const bayboard *board, int32_t job);
bayboard_pair_reply bayboard_unchecked_pair(const bayboard *board, int32_t a, int32_t b);
bayboard_plan_reply bayboard_unchecked_plan(const bayboard *board, int32_t budget);

#ifdef __cplusplus
}
#endif

#endif
