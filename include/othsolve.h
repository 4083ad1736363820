/* othsolve.h: the rules of Othello, its solver and its texts, for C and C++.
 *
 * Squares   The number of a square is 8 * (row - 1) + column, with column a as 0: a1 is 0, h1 is 7, a8 is 56, h8 is 63.
 *           A set of squares is a word of 64 bits: bit n is square n.
 * Boards    A board is seen by the side to move: `own` has the mover's discs, `opp` the opponent's. Any two words that
 *           share no bit are a board, whether or not a game reaches it. A mover with no move passes where the other side
 *           has one: `own` and `opp` change places. Where neither side has a move the game is over.
 * Score     What the mover gets if both sides play best, -64 to 64: its discs less the opponent's where the game is over.
 *           By OTH_SCORING_WINNER the squares that stay empty go to the winner, by OTH_SCORING_DISCS to nobody.
 * Answers   Each call but oth_seat_free returns OTH_DONE, which is 0, or the number of a refusal (oth_solve_within and
 *           oth_solve_until also OTH_STOPPED, which is none). A refused call writes nothing, but for `place` of the calls that have it.
 *
 * Proved of each call is the contract beside it in crates/oth_c/src: what it writes is exactly what the rules over single
 * squares say, scores and best moves are those of full minimax, and a refusal comes exactly where it is named here.
 * Nothing checks a C program. It has to keep this:
 *
 * 1. A pointer leads to memory of the named type, which lives until the call returns. It is never null, also where the
 *    length beside it is 0. A text is a pointer and the number of its bytes, which the call reads; a buffer is a pointer
 *    and the number of its bytes, which the call may write, and which hold some value before. No text ends with a NUL.
 * 2. What a call may write, no other pointer of that call leads to, and no other thread reads or writes meanwhile. Boards
 *    and positions go by value: oth_play(x, square, &x) is allowed, and writes the board after the move over x.
 * 3. The program's malloc, realloc and free are of one allocator, which aligns as C asks. Only oth_solve_alone, oth_scores
 *    and the calls of a seat use them.
 * 4. No call is made from a signal handler, or from the forked child of a process with threads.
 * 5. A thread that solves (oth_solve_.., oth_scores, oth_scores_over, oth_null_window) has 1 MB of stack. The other calls need a few kilobytes.
 * 6. An oth_seat is {NULL} before its first call. After that only calls change it, one call at a time; it isn't copied, and
 *    no copy is used. It may be handed to another thread where that comes after the call before (a thread's start or join,
 *    a lock). At last oth_seat_free has each seat.
 *
 * Threads   No call starts a thread, waits, takes a lock or prints, and none but those of a seat keeps anything for a later
 *           call. A program may call from as many threads of its own as it likes, at the same time, each call with memory
 *           of its own. Several threads can search over one table, each from a seat of its own (below).
 * Build     cc -O2 -I. worked.c libothsolve.a -o worked             (x86-64-v2: with SSE4.2 and POPCNT; no other library)
 *           Where `./install PREFIX` put it: cc -O2 worked.c $(pkg-config --cflags --libs othsolve) -o worked, with
 *           PREFIX/lib/pkgconfig in PKG_CONFIG_PATH, or else -I PREFIX/include -L PREFIX/lib -lothsolve. That takes the
 *           shared object, which the program has to find when it runs (ldconfig, LD_LIBRARY_PATH or -Wl,-rpath). For the
 *           archive name the file: PREFIX/lib/libothsolve.a in place of -lothsolve.
 */
#ifndef OTHSOLVE_H
#define OTHSOLVE_H

#include <stddef.h>
#include <stdint.h>

#ifdef __cplusplus
extern "C" {
#endif

/* The version of this header. That of the library is what oth_version prints. */
#define OTHSOLVE_VERSION "0.2.0"

/* What a call returns. */
enum {
    OTH_DONE = 0,
    OTH_OVERLAP = 1, /* a square has discs of both sides */
    OTH_SQUARE = 2,  /* the number of the square is 64 or more */
    OTH_ILLEGAL = 3, /* the move is illegal */
    OTH_SCORING = 4, /* the scoring is neither 0 nor 1 */
    OTH_EMPTIES = 5, /* more than 30 squares are empty */
    OTH_CELLS = 6,   /* the cells are neither 0 nor one of 1, 2, 4 .. 262144 */
    OTH_ROOM = 7,    /* the buffer is too short */
    OTH_MOVER = 8,   /* the mover is neither 0 nor 1 */

    OTH_LINE_LENGTH = 11, /* a board line has 66 bytes */
    OTH_LINE_CELL = 12,   /* byte `place`, 1 to 64, is none of 'X', 'O' and '-'; it is the leftmost such byte */
    OTH_LINE_SPACE = 13,  /* byte 65 is no space */
    OTH_LINE_MOVER = 14,  /* byte 66 is neither 'X' nor 'O' */

    OTH_GAME_LENGTH = 21,  /* the number of bytes is odd */
    OTH_GAME_SQUARE = 22,  /* pair `place`, counted from 1, is no letter from a to h and a digit from 1 to 8 */
    OTH_GAME_ILLEGAL = 23, /* the move of pair `place` is illegal */
    OTH_GAME_OVER = 24,    /* the game is over before pair `place` */

    OTH_NO_SEAT = 31, /* there is no seat */
    OTH_SEATED = 32,  /* there is a seat already */
    OTH_MEMORY = 33   /* there is no memory for the table or the seat */
};

/* What oth_solve_within and oth_solve_until return where their search was ended before it was done: no refusal. */
enum { OTH_STOPPED = 41 };

enum { OTH_SCORING_WINNER = 0, OTH_SCORING_DISCS = 1 };
enum { OTH_KIND_MOVE = 0, OTH_KIND_PASS = 1, OTH_KIND_END = 2 };
enum { OTH_BLACK = 0, OTH_WHITE = 1 };
enum { OTH_BOARD_LINE = 66, OTH_MOVES_LINE = 191, OTH_VERSION_LINE = 64 };
enum { OTH_NO_SCORE = -128, OTH_NO_SQUARE = 64 };

/* The discs of the mover and of the opponent. */
typedef struct {
    uint64_t own;
    uint64_t opp;
} oth_board;

/* A board and who moves: OTH_BLACK or OTH_WHITE. */
typedef struct {
    oth_board board;
    uint8_t mover;
} oth_position;

/* All best moves, none where the mover passes or the game is over; the score for the mover; and what the mover does,
 * OTH_KIND_.. */
typedef struct {
    uint64_t best;
    int8_t score;
    uint8_t kind;
} oth_answer;

/* The answer of a board, its legal squares, and the score of each move at the number of its square: the value of the board
 * after it, for who moves. At a square that is no legal move stands OTH_NO_SCORE, which is less than each score. */
typedef struct {
    oth_answer answer;
    uint64_t moves;
    int8_t scores[64];
} oth_move_scores;

/* Bounds of a board's value for the mover: it is neither less than `lower` nor more than `upper`. */
typedef struct {
    int8_t lower;
    int8_t upper;
} oth_bounds;

/* What is known of a board whose search was ended: bounds of its value; the square to play, OTH_NO_SQUARE exactly where there
 * is no move; its legal squares; and at the number of each of these bounds of what the move gives, for who moves. At the other
 * squares stands OTH_NO_SCORE. The square to play is a legal one, and no `lower` is greater than the one there. Which one of
 * several such squares it is, is not promised: the one that seemed best. */
typedef struct {
    oth_bounds bounds;
    uint8_t first;
    uint64_t moves;
    int8_t lower[64];
    int8_t upper[64];
} oth_known;

/* A seat of a table that several threads share, or none where it is {NULL}. */
typedef struct {
    void *at;
} oth_seat;

/* The mover's legal squares.
 * Refusal: OTH_OVERLAP. */
uint32_t oth_moves(oth_board board, uint64_t *moves);

/* The discs that a move to the square flips: none exactly where the move is illegal.
 * Refusals, the first that holds: OTH_OVERLAP, OTH_SQUARE. */
uint32_t oth_flips(oth_board board, uint8_t square, uint64_t *flips);

/* The board after a move to the square, as the other side sees it.
 * Refusals, the first that holds: OTH_OVERLAP, OTH_SQUARE, OTH_ILLEGAL. */
uint32_t oth_play(oth_board board, uint8_t square, oth_board *next);

/* The score, all best moves and the kind of a board of at most 30 empty squares, by the caller's thread alone. The call
 * makes a transposition table of `cells` cells of 32 bytes, and frees it: 0 for none, or 1, 2, 4 .. 262144. Where there is
 * no memory it does without: neither the table nor its absence changes the answer. A table pays from some 16 empty squares
 * on. The time grows with the empty squares: on boards of games a millisecond at 12, some hundredths of a second at 16,
 * some tenths at 18.
 * Refusals, the first that holds: OTH_OVERLAP, OTH_SCORING, OTH_EMPTIES, OTH_CELLS. */
uint32_t oth_solve_alone(oth_board board, uint8_t scoring, uint32_t cells, oth_answer *answer);

/* As oth_solve_alone, with the score of every move: the best moves are those with the greatest score. It takes longer, since each of
 * them is exact, but less than oth_solve_alone on each board after a move: some 0.8 of it at 14 and 16 empty squares.
 * Refusals, the first that holds: OTH_OVERLAP, OTH_SCORING, OTH_EMPTIES, OTH_CELLS. */
uint32_t oth_scores(oth_board board, uint8_t scoring, uint32_t cells, oth_move_scores *scores);

/* A transposition table for several threads and many boards. Each thread has a seat of it, makes its calls from there, and
 * finds what all threads have stored. Made with one seat, before the threads start:
 *
 *     oth_seat first = {NULL}, second = {NULL};
 *     oth_table_new(65536, OTH_SCORING_WINNER, &first);    the table, and its first seat
 *     oth_seat_new(&first, &second);                       a further one, for another thread
 *     oth_solve_over(&first, board, &answer);              here, while the other thread has its calls of &second
 *     oth_seat_free(&first);                               each seat once; the last one frees the table too
 *     oth_seat_free(&second);
 *
 * oth_table_new makes a table of `cells` cells of 32 bytes, 1, 2, 4 .. 262144, for boards under this scoring, and its first
 * seat.
 * Refusals, the first that holds: OTH_SEATED, OTH_SCORING, OTH_CELLS, OTH_MEMORY. */
uint32_t oth_table_new(uint32_t cells, uint8_t scoring, oth_seat *seat);

/* A further seat of the table of `seat`, in `more`, which is {NULL}: another variable than `seat`.
 * Refusals, the first that holds: OTH_NO_SEAT, OTH_SEATED, OTH_MEMORY. */
uint32_t oth_seat_new(oth_seat *seat, oth_seat *more);

/* The score, all best moves and the kind of a board of at most 30 empty squares, under the table's scoring, by the
 * caller's thread. The answer is exact, whatever other threads do over the table meanwhile, and refused memory doesn't
 * change it.
 * Refusals, the first that holds: OTH_OVERLAP, OTH_EMPTIES, OTH_NO_SEAT. */
uint32_t oth_solve_over(oth_seat *seat, oth_board board, oth_answer *answer);

/* As oth_solve_over, with the score of every move, as oth_scores tells it.
 * Refusals, the first that holds: OTH_OVERLAP, OTH_EMPTIES, OTH_NO_SEAT. */
uint32_t oth_scores_over(oth_seat *seat, oth_board board, oth_move_scores *scores);

/* As oth_solve_over, for a caller who can't wait: once about `most` boards were looked up, in the table and in a memory
 * beside it, the search is ended, and the call returns OTH_STOPPED, writes true bounds of the board's value, and no answer.
 * What it found stays in the table, and a further call from there goes on with it: so `most` may be small, and calls be made,
 * each with more, until there is no more time. It ends a little later than that: at the next board of 11 and more empty
 * squares, or in the guess of the score with which a search begins some milliseconds later. oth_stop_set ends it too, and
 * nothing else does: OTH_STOPPED says that all `most` boards were looked up, or that the flag was set. Where it returns
 * OTH_DONE it has written the answer, and no bounds.
 * Refusals, the first that holds: OTH_OVERLAP, OTH_EMPTIES, OTH_NO_SEAT. */
uint32_t oth_solve_within(oth_seat *seat, oth_board board, uint64_t most, oth_answer *answer, oth_bounds *bounds);

/* As oth_solve_within, for a program that has to move: where it returns OTH_STOPPED it writes what is known of the board and of
 * each move, so that there is one to play, however small `most` was. The best move of an answer is any bit of `best`.
 *
 *     oth_known known;
 *     uint32_t code;
 *     do {
 *         code = oth_solve_until(&seat, board, 100000, &answer, &known);
 *     } while (code == OTH_STOPPED && is_time_left());
 *
 * A further call over the same board goes on where the last one from this seat ended, as far as the table has kept what was
 * found, so `most` may be small: a hundred calls of a hundredth of the look-ups that one call takes looked up at most 1.06 times
 * as many boards (40 boards of 18 and 20 empty squares). For that a seat keeps up to 210 KB more after a call that was ended,
 * until one from it has its answer.
 * Refusals, the first that holds: OTH_OVERLAP, OTH_EMPTIES, OTH_NO_SEAT. */
uint32_t oth_solve_until(oth_seat *seat, oth_board board, uint64_t most, oth_answer *answer, oth_known *known);

/* Whether the value of a board of at most 30 empty squares is above `alpha`, under the table's scoring: true bounds, of which
 * the lower one is above `alpha`, or else the upper one is not. So a value is at least n exactly where `lower` is, with n - 1
 * for `alpha`. That takes less time than the value, and the moves aren't compared. oth_stop_set doesn't end it.
 * Refusals, the first that holds: OTH_OVERLAP, OTH_EMPTIES, OTH_NO_SEAT. */
uint32_t oth_null_window(oth_seat *seat, oth_board board, int8_t alpha, oth_bounds *bounds);

/* Sets the table's flag: each call of oth_solve_within and oth_solve_until over the table ends soon, as if it could look up no
 * more, and each that is made before oth_stop_clear clears the flag ends at once. A board where the game is over is answered
 * all the same, and a call over one of up to 10 empty squares that is under way is done, within some millisecond. The other
 * calls of a seat are not ended. A thread that ends the calls of others has a seat of its own (oth_seat_new), which no call
 * has meanwhile.
 * Refusal: OTH_NO_SEAT. */
uint32_t oth_stop_set(oth_seat *seat);
uint32_t oth_stop_clear(oth_seat *seat);

/* Frees the seat, and with the last seat its table; it is {NULL} then. Nothing is done where it was. */
void oth_seat_free(oth_seat *seat);

/* The position of a board line: 64 cells row by row from a1, each 'X' (black), 'O' (white) or '-', a space, and who moves,
 * 'X' or 'O'. `place` gets the place of the bad cell, and else 0.
 * Refusals, the first that holds: OTH_LINE_LENGTH, OTH_LINE_CELL, OTH_LINE_SPACE, OTH_LINE_MOVER. */
uint32_t oth_read_board(const uint8_t *text, size_t length, oth_position *position, uint8_t *place);

/* The position that moves lead to from the start of a game, as "f5d6c3"; forced passes are not written, and are put in.
 * `place` gets the number of the faulty pair, and else 0.
 * Refusals: OTH_GAME_LENGTH, or else of the first faulty pair the first that holds: OTH_GAME_SQUARE, OTH_GAME_OVER,
 * OTH_GAME_ILLEGAL. */
uint32_t oth_read_transcript(const uint8_t *text, size_t length, oth_position *position, uint8_t *place);

/* As oth_read_transcript, but from any position, whose mover moves first, or passes where it has no move and the other side has one. So the
 * mover of `next` has a move unless the game is over. `next` may be where `position` was taken from, which goes by value.
 * Refusals: OTH_OVERLAP, or else OTH_MOVER, or else those of oth_read_transcript. */
uint32_t oth_play_game(oth_position position, const uint8_t *text, size_t length, oth_position *next, uint8_t *place);

/* Prints the board line of a position, OTH_BOARD_LINE bytes, into the front of a buffer.
 * Refusals, the first that holds: OTH_OVERLAP, OTH_MOVER, OTH_ROOM. */
uint32_t oth_print_board(oth_position position, uint8_t *buffer, size_t size);

/* Prints the names of the legal moves, rising, with a space between them, or "pass", or "end", into the front of a buffer.
 * `written` gets the number of bytes, at most OTH_MOVES_LINE.
 * Refusals, the first that holds: OTH_OVERLAP, OTH_ROOM. */
uint32_t oth_print_moves(oth_board board, uint8_t *buffer, size_t size, size_t *written);

/* Prints the version of the library, and the first 16 digits of the toolchain's logic that its proofs are of, into the
 * front of a buffer, as `othsolve --version` does behind its name: "0.2.0 (rattle logic dac8208d650f15bf)". Its first bytes
 * are those of OTHSOLVE_VERSION where header and library belong together. `written` gets the number of bytes, at most
 * OTH_VERSION_LINE.
 * Refusal: OTH_ROOM. */
uint32_t oth_version(uint8_t *buffer, size_t size, size_t *written);

#ifdef __cplusplus
}
#endif

#endif
