/* Calls the C library as a program would, and prints what `othsolve` prints, so that both can be compared byte by byte.
 *     c_calls refusals                          each refusal by its name; prints the names of those that do not come, or that write something
 *     c_calls version                          what the library says of its version, behind the program's name
 *     c_calls moves | transcript | play         each line of standard input
 *     c_calls solve SCORING CELLS THREADS       this many threads solve all lines at once, with 1 MB of stack each; prints what all of them found
 *     c_calls share SCORING CELLS THREADS       the same over one table, each thread from a seat of its own
 *     c_calls within SCORING CELLS THREADS      the same, each line by calls that may look up 1, 2, 4, .. boards until one is done; 1 where bounds of an ended call
 *                                               do not enclose the score or that of a move, the board's are wider than those of its moves, the move to play is none or
 *                                               another is known to give more, a null window tells otherwise, none was ended, or none of oth_solve_within or none of
 *                                               oth_solve_until knew more than all scores
 *     c_calls scores | share-scores SCORING CELLS THREADS      as solve and share: the moves of each line with their scores, the greatest first; 1 where they
 *                                               do not fit the answer
 * Linked with -Wl,--wrap=malloc it refuses, in each call, the request for memory whose number the environment's REFUSED gives. */
#include "othsolve.h"

#include <pthread.h>
#include <stdio.h>
#include <stdlib.h>
#include <string.h>
#include <unistd.h>

enum { MOST_LINES = 4096, LINE = 256, MOST_THREADS = 16, STACK = 1 << 20 };

void *__real_malloc(size_t);

static long refused;
static _Thread_local long asked;

void *__wrap_malloc(size_t size) {
    asked += 1;
    return asked == refused ? NULL : __real_malloc(size);
}

static char lines[MOST_LINES][LINE];
static int line_count;
static uint8_t scoring;
static uint32_t cells;
/* The seat of this thread, where one table is shared. */
static _Thread_local oth_seat *seat;
/* Whether each answer is asked for by calls that may be ended. */
static int by_parts;
static _Atomic long ended_calls, untrue_bounds;
/* How many ended calls of oth_solve_until, and of oth_solve_within, knew more than all scores. */
static _Atomic long closer_bounds[2];

static void print_squares(FILE *file, uint64_t squares) {
    for (int square = 0; square < 64; square++) {
        if (squares >> square & 1) {
            fprintf(file, " %c%c", 'a' + square % 8, '1' + square / 8);
        }
    }
}

static int empties(oth_board board) {
    return 64 - __builtin_popcountll(board.own | board.opp);
}

/* Whether moves are played on boards: then faults of moves are printed by the numbers of this library. */
static int is_play;

/* The line of a refusal, by the numbers of docs/FORMATS.md. */
static void print_refusal(FILE *file, uint32_t code, uint8_t place, int count) {
    uint32_t number = is_play && code >= OTH_GAME_LENGTH ? code : code % 10;
    if (code == OTH_EMPTIES) {
        fprintf(file, "error 5 %d", count);
    } else if (place != 0) {
        fprintf(file, "error %u at %u", number, place);
    } else {
        fprintf(file, "error %u", number);
    }
}

static int encloses(int lower, int upper, int score) {
    return -64 <= lower && lower <= score && score <= upper && upper <= 64;
}

/* What ended calls knew of a board: a limit is doubled at most 64 times. */
struct ended {
    int count;
    oth_known known[64];
};

/* Whether a call that was ended, which knew this, told the truth of the scores, and a move that is known to give as much as any, and of
 * the board as much as of its moves. */
static int is_true(const oth_known *known, const oth_move_scores *scores) {
    int holds = encloses(known->bounds.lower, known->bounds.upper, scores->answer.score) && known->moves == scores->moves;
    if (known->moves == 0) {
        return holds && known->first == OTH_NO_SQUARE;
    }
    holds = holds && known->first < 64 && (known->moves >> known->first & 1);
    int greatest = -64;
    for (int square = 0; square < 64; square++) {
        int lower = known->lower[square], upper = known->upper[square];
        if (known->moves >> square & 1) {
            holds = holds && encloses(lower, upper, scores->scores[square]) && lower <= known->lower[known->first];
            holds = holds && lower <= known->bounds.lower;
            greatest = upper > greatest ? upper : greatest;
        } else {
            holds = holds && lower == OTH_NO_SCORE && upper == OTH_NO_SCORE;
        }
    }
    return holds && known->bounds.upper <= greatest;
}

/* Whether null windows at a threshold, and around the score, tell what they should. */
static int are_decided(oth_board board, int score) {
    static const int8_t thresholds[] = {-128, -65, -64, -7, 0, 1, 63, 64, 127};
    int holds = 1;
    for (int at = -2; at < (int)sizeof thresholds; at++) {
        int8_t alpha = (int8_t)(at < 0 ? score + at + 1 : thresholds[at]);
        oth_bounds bounds = {7, 7};
        holds = holds && oth_null_window(seat, board, alpha, &bounds) == OTH_DONE && encloses(bounds.lower, bounds.upper, score);
        holds = holds && (bounds.lower > alpha || bounds.upper <= alpha);
    }
    return holds;
}

/* The answer, or bounds, by a call of oth_solve_until, which keeps what it knew where it was ended. */
static uint32_t solved_until(oth_board board, uint64_t most, oth_answer *answer, oth_bounds *bounds, struct ended *ended) {
    oth_known *known = &ended->known[ended->count];
    uint32_t code = oth_solve_until(seat, board, most, answer, known);
    if (code == OTH_STOPPED) {
        *bounds = known->bounds;
        ended->count += 1;
    }
    return code;
}

/* The answer by calls that may look up ever more boards, the first and every second of them by oth_solve_within. */
static uint32_t solved_by_parts(oth_board board, oth_answer *answer) {
    oth_bounds known = {-64, 64}, bounds;
    oth_move_scores scores;
    struct ended ended = {0};
    uint64_t most = 1;
    int is_within = 1;
    uint32_t code = oth_solve_within(seat, board, most, answer, &bounds);
    while (code == OTH_STOPPED) {
        closer_bounds[is_within] += empties(board) > 11 && bounds.upper - bounds.lower < 128;
        known.lower = bounds.lower > known.lower ? bounds.lower : known.lower;
        known.upper = bounds.upper < known.upper ? bounds.upper : known.upper;
        ended_calls += 1;
        most *= 2;
        is_within = !is_within;
        code = is_within ? oth_solve_within(seat, board, most, answer, &bounds) : solved_until(board, most, answer, &bounds, &ended);
    }
    if (code != OTH_DONE) {
        return code;
    }
    untrue_bounds += answer->score < known.lower || answer->score > known.upper;
    if (ended.count != 0 || empties(board) < 8) {
        untrue_bounds += oth_scores_over(seat, board, &scores) != OTH_DONE || !are_decided(board, answer->score);
        for (int at = 0; at < ended.count; at++) {
            untrue_bounds += !is_true(&ended.known[at], &scores);
        }
    }
    return code;
}

static uint32_t solved(oth_board board, oth_answer *answer) {
    if (seat == NULL) {
        return oth_solve_alone(board, scoring, cells, answer);
    }
    return by_parts ? solved_by_parts(board, answer) : oth_solve_over(seat, board, answer);
}

static void solve_line(FILE *file, const char *line) {
    static const char *const words[] = {"", " pass", " end"};
    oth_position position = {{0, 0}, 0};
    oth_answer answer;
    uint8_t place;
    uint32_t code = oth_read_board((const uint8_t *)line, strlen(line), &position, &place);
    asked = 0;
    if (code == OTH_DONE) {
        code = solved(position.board, &answer);
    }
    if (code != OTH_DONE) {
        print_refusal(file, code, place, empties(position.board));
    } else {
        fprintf(file, "%c%d%s", answer.score < 0 ? '-' : '+', abs(answer.score), words[answer.kind]);
        print_squares(file, answer.best);
    }
    fputc('\n', file);
}

static void moves_line(FILE *file, const char *line) {
    uint8_t buffer[OTH_MOVES_LINE], place;
    size_t written;
    oth_position position;
    uint32_t code = oth_read_board((const uint8_t *)line, strlen(line), &position, &place);
    if (code == OTH_DONE) {
        code = oth_print_moves(position.board, buffer, sizeof buffer, &written);
    }
    if (code == OTH_DONE) {
        fwrite(buffer, 1, written, file);
    } else {
        print_refusal(file, code, place, 0);
    }
    fputc('\n', file);
}

/* The line of the board that a call wrote, or of its refusal. */
static void board_or_refusal(FILE *file, uint32_t code, const oth_position *position, uint8_t place) {
    uint8_t buffer[OTH_BOARD_LINE];
    if (code == OTH_DONE) {
        code = oth_print_board(*position, buffer, sizeof buffer);
    }
    if (code == OTH_DONE) {
        fwrite(buffer, 1, sizeof buffer, file);
    } else {
        print_refusal(file, code, place, 0);
    }
    fputc('\n', file);
}

static void transcript_line(FILE *file, const char *line) {
    uint8_t place;
    oth_position position;
    uint32_t code = oth_read_transcript((const uint8_t *)line, strlen(line), &position, &place);
    board_or_refusal(file, code, &position, place);
}

static void play_line(FILE *file, const char *line) {
    uint8_t place;
    size_t length = strlen(line), board = length > OTH_BOARD_LINE && line[OTH_BOARD_LINE] == ' ' ? OTH_BOARD_LINE : length;
    const char *moves = line + (board < length ? board + 1 : length);
    oth_position position;
    uint32_t code = oth_read_board((const uint8_t *)line, board, &position, &place);
    if (code == OTH_DONE) {
        code = oth_play_game(position, (const uint8_t *)moves, strlen(moves), &position, &place);
    }
    board_or_refusal(file, code, &position, place);
}

static _Atomic long unfit_scores;

/* Whether the best moves are those with the greatest score, which is the answer's, and no other square has one. */
static int do_fit(oth_move_scores found) {
    uint64_t best = 0;
    int fit = (found.moves != 0) == (found.answer.kind == OTH_KIND_MOVE);
    for (int square = 0; square < 64; square++) {
        int is_move = found.moves >> square & 1, score = found.scores[square];
        fit = fit && (is_move ? -64 <= score && score <= found.answer.score : score == OTH_NO_SCORE);
        best |= (uint64_t)(is_move && score == found.answer.score) << square;
    }
    return fit && best == found.answer.best;
}

static void print_scores(FILE *file, oth_move_scores found) {
    static const char *const words[] = {"", " pass", " end"};
    const char *space = "";
    if (found.moves == 0) {
        fprintf(file, "%c%d%s", found.answer.score < 0 ? '-' : '+', abs(found.answer.score), words[found.answer.kind]);
    }
    for (int score = 64; score >= -64; score--) {
        for (int square = 0; square < 64; square++) {
            if (found.scores[square] == score) {
                fprintf(file, "%s%c%d %c%c", space, score < 0 ? '-' : '+', abs(score), 'a' + square % 8, '1' + square / 8);
                space = " ";
            }
        }
    }
}

static void scores_line(FILE *file, const char *line) {
    oth_position position = {{0, 0}, 0};
    oth_move_scores found;
    uint8_t place;
    uint32_t code = oth_read_board((const uint8_t *)line, strlen(line), &position, &place);
    asked = 0;
    if (code == OTH_DONE) {
        code = seat == NULL ? oth_scores(position.board, scoring, cells, &found) : oth_scores_over(seat, position.board, &found);
    }
    if (code == OTH_DONE) {
        print_scores(file, found);
        unfit_scores += !do_fit(found);
    } else {
        print_refusal(file, code, place, empties(position.board));
    }
    fputc('\n', file);
}

static void each_line(FILE *file, void (*answer)(FILE *, const char *)) {
    for (int at = 0; at < line_count; at++) {
        answer(file, lines[at]);
    }
}

/* What is answered to each line by threads. */
static void (*reply)(FILE *, const char *) = solve_line;

struct report {
    char *text;
    size_t length;
    oth_seat seat;
};

static void *solve_all(void *given) {
    struct report *report = given;
    seat = report->seat.at == NULL ? NULL : &report->seat;
    FILE *file = open_memstream(&report->text, &report->length);
    each_line(file, reply);
    fclose(file);
    oth_seat_free(&report->seat);
    return NULL;
}

/* Makes a table and a seat for each thread; no request for memory is refused there. */
static int are_seated(int threads, struct report *found) {
    long number = refused;
    refused = 0;
    int all = oth_table_new(cells, scoring, &found[0].seat) == OTH_DONE;
    for (int at = 1; at < threads; at++) {
        all = all && oth_seat_new(&found[at - 1].seat, &found[at].seat) == OTH_DONE;
    }
    refused = number;
    return all;
}

/* Whether all threads found the same; prints it. */
static int solve(int threads, int shares) {
    pthread_t started[MOST_THREADS];
    struct report found[MOST_THREADS] = {{0}};
    pthread_attr_t small;
    int same = !shares || are_seated(threads, found);
    pthread_attr_init(&small);
    pthread_attr_setstacksize(&small, STACK);
    for (int at = 0; at < threads; at++) {
        if (pthread_create(&started[at], &small, solve_all, &found[at]) != 0) {
            abort();
        }
    }
    for (int at = 0; at < threads; at++) {
        pthread_join(started[at], NULL);
        same = same && strcmp(found[at].text, found[0].text) == 0;
    }
    fputs(found[0].text, stdout);
    for (int at = 0; at < threads; at++) {
        free(found[at].text);
    }
    pthread_attr_destroy(&small);
    return same;
}

static int wrong;

static void want(const char *name, int holds) {
    if (!holds) {
        printf("%s\n", name);
        wrong = 1;
    }
}

static const oth_board both = {1, 1}, few = {8, 0xffffffffffffff74}, open_board = {0x0000000810000000, 0x0000001008000000}, full = {~(uint64_t)0, 0};

static void refusals_of_rules(void) {
    uint64_t word = 7;
    oth_board next = {7, 7};
    want("moves: overlap", oth_moves(both, &word) == OTH_OVERLAP && word == 7);
    want("flips: overlap", oth_flips(both, 64, &word) == OTH_OVERLAP && word == 7);
    want("flips: square", oth_flips(open_board, 64, &word) == OTH_SQUARE && word == 7);
    want("play: overlap", oth_play(both, 64, &next) == OTH_OVERLAP && next.own == 7 && next.opp == 7);
    want("play: square", oth_play(open_board, 64, &next) == OTH_SQUARE && next.own == 7 && next.opp == 7);
    want("play: illegal", oth_play(open_board, 0, &next) == OTH_ILLEGAL && next.own == 7 && next.opp == 7);
    want("moves", oth_moves(open_board, &word) == OTH_DONE && word == ((uint64_t)1 << 19 | 1 << 26 | (uint64_t)1 << 37 | (uint64_t)1 << 44));
    want("flips", oth_flips(open_board, 19, &word) == OTH_DONE && word == 1 << 27);
    want("no flips", oth_flips(open_board, 0, &word) == OTH_DONE && word == 0);
    want("play", oth_play(open_board, 19, &next) == OTH_DONE && next.own == (uint64_t)1 << 36 && next.opp == 0x0000000818080000);
}

static int keeps(uint32_t code, uint32_t wanted, oth_answer answer) {
    return code == wanted && answer.best == 7 && answer.score == 7 && answer.kind == 7;
}

static void refusals_of_solving(void) {
    oth_answer answer = {7, 7, 7};
    want("solve: overlap", keeps(oth_solve_alone(both, 2, 3, &answer), OTH_OVERLAP, answer));
    want("solve: scoring", keeps(oth_solve_alone(open_board, 2, 3, &answer), OTH_SCORING, answer));
    want("solve: empties", keeps(oth_solve_alone(open_board, 1, 3, &answer), OTH_EMPTIES, answer));
    want("solve: three cells", keeps(oth_solve_alone(full, 1, 3, &answer), OTH_CELLS, answer));
    want("solve: too many cells", keeps(oth_solve_alone(full, 1, 524288, &answer), OTH_CELLS, answer));
    asked = 0;
    want("solve", oth_solve_alone(full, 1, 262144, &answer) == OTH_DONE && answer.score == 64 && answer.kind == OTH_KIND_END);
    want("solve: the table takes memory", asked > 2);
}

static int keeps_scores(uint32_t code, uint32_t wanted, oth_move_scores scores) {
    return code == wanted && scores.moves == 7 && scores.answer.best == 7 && scores.scores[0] == 7 && scores.scores[63] == 7;
}

static oth_move_scores sevens(void) {
    oth_move_scores scores;
    memset(&scores, 7, sizeof scores);
    scores.moves = scores.answer.best = 7;
    return scores;
}

static void refusals_of_scores(void) {
    oth_move_scores scores = sevens();
    want("scores: overlap", keeps_scores(oth_scores(both, 2, 3, &scores), OTH_OVERLAP, scores));
    want("scores: scoring", keeps_scores(oth_scores(open_board, 2, 3, &scores), OTH_SCORING, scores));
    want("scores: empties", keeps_scores(oth_scores(open_board, 1, 3, &scores), OTH_EMPTIES, scores));
    want("scores: three cells", keeps_scores(oth_scores(full, 1, 3, &scores), OTH_CELLS, scores));
    want("scores: too many cells", keeps_scores(oth_scores(full, 1, 524288, &scores), OTH_CELLS, scores));
    asked = 0;
    want("scores", oth_scores(full, 1, 64, &scores) == OTH_DONE && scores.answer.score == 64 && scores.answer.kind == OTH_KIND_END);
    want("scores: the table takes memory", asked > 2);
    want("scores: no move", scores.moves == 0 && scores.scores[0] == OTH_NO_SCORE && scores.scores[63] == OTH_NO_SCORE);
}

/* Makes a table of 64 cells; where `more` is given, a further seat of the table. */
static uint32_t made(oth_seat *first, oth_seat *more) {
    asked = 0;
    return more == NULL ? oth_table_new(64, 1, first) : oth_seat_new(first, more);
}

/* Refuses each request of the call in turn, until it makes none that is refused: it leaves the seats as they were. */
static int is_made_at_last(oth_seat *first, oth_seat *more) {
    const oth_seat before = *first;
    oth_seat *taken = more == NULL ? first : more;
    uint32_t code = OTH_MEMORY;
    int holds = 1;
    for (refused = 1; code != OTH_DONE && refused < 100; refused++) {
        code = made(first, more);
        holds = holds && first->at == (code == OTH_DONE && more == NULL ? taken->at : before.at);
        holds = holds && (code == OTH_DONE ? taken->at != NULL : code == OTH_MEMORY && taken->at == NULL);
    }
    holds = holds && refused > 3;
    refused = 0;
    return holds && code == OTH_DONE;
}

static void refusals_of_seats(void) {
    oth_answer answer = {7, 7, 7};
    oth_bounds bounds = {7, 7};
    oth_known known = {{7, 7}, 7, 7, {7}, {7}};
    oth_move_scores scores = sevens();
    oth_seat first = {NULL}, more = {NULL};
    want("seat: no table", oth_seat_new(&first, &more) == OTH_NO_SEAT && first.at == NULL && more.at == NULL);
    want("over: overlap", keeps(oth_solve_over(&first, both, &answer), OTH_OVERLAP, answer));
    want("over: empties", keeps(oth_solve_over(&first, open_board, &answer), OTH_EMPTIES, answer));
    want("over: no seat", keeps(oth_solve_over(&first, full, &answer), OTH_NO_SEAT, answer) && first.at == NULL);
    want("within: overlap", keeps(oth_solve_within(&first, both, 0, &answer, &bounds), OTH_OVERLAP, answer) && bounds.lower == 7);
    want("within: empties", keeps(oth_solve_within(&first, open_board, 0, &answer, &bounds), OTH_EMPTIES, answer) && bounds.lower == 7);
    want("within: no seat", keeps(oth_solve_within(&first, full, 0, &answer, &bounds), OTH_NO_SEAT, answer) && bounds.upper == 7);
    want("until: overlap", keeps(oth_solve_until(&first, both, 0, &answer, &known), OTH_OVERLAP, answer) && known.first == 7);
    want("until: empties", keeps(oth_solve_until(&first, open_board, 0, &answer, &known), OTH_EMPTIES, answer) && known.first == 7);
    want("until: no seat", keeps(oth_solve_until(&first, full, 0, &answer, &known), OTH_NO_SEAT, answer) && known.first == 7 && known.lower[0] == 7);
    want("window: overlap", oth_null_window(&first, both, 0, &bounds) == OTH_OVERLAP && bounds.lower == 7);
    want("window: empties", oth_null_window(&first, open_board, 0, &bounds) == OTH_EMPTIES && bounds.lower == 7);
    want("window: no seat", oth_null_window(&first, full, 0, &bounds) == OTH_NO_SEAT && bounds.upper == 7);
    want("scores over: overlap", keeps_scores(oth_scores_over(&first, both, &scores), OTH_OVERLAP, scores));
    want("scores over: empties", keeps_scores(oth_scores_over(&first, open_board, &scores), OTH_EMPTIES, scores));
    want("scores over: no seat", keeps_scores(oth_scores_over(&first, full, &scores), OTH_NO_SEAT, scores) && first.at == NULL);
    want("table: scoring", oth_table_new(3, 2, &first) == OTH_SCORING && first.at == NULL);
    want("table: no cells", oth_table_new(0, 1, &first) == OTH_CELLS && first.at == NULL);
    want("table: three cells", oth_table_new(3, 1, &first) == OTH_CELLS && first.at == NULL);
    want("table: too many cells", oth_table_new(524288, 1, &first) == OTH_CELLS && first.at == NULL);
    want("table: memory", is_made_at_last(&first, NULL));
    want("table: seated", oth_table_new(3, 2, &first) == OTH_SEATED && first.at != NULL);
    want("seat: memory", is_made_at_last(&first, &more));
    want("seat: seated", oth_seat_new(&first, &more) == OTH_SEATED && first.at != NULL && more.at != NULL);
    oth_seat_free(&first);
    want("free: the seat", first.at == NULL);
    want("over: refused", keeps(oth_solve_over(&first, full, &answer), OTH_NO_SEAT, answer));
    want("within: done", oth_solve_within(&more, full, 0, &answer, &bounds) == OTH_DONE && answer.score == 64 && bounds.lower == 7);
    want("until: done", oth_solve_until(&more, full, 0, &answer, &known) == OTH_DONE && answer.score == 64 && known.first == 7);
    want("over: the other", oth_solve_over(&more, full, &answer) == OTH_DONE && answer.score == 64 && answer.kind == OTH_KIND_END);
    want("scores over: the other", oth_scores_over(&more, full, &scores) == OTH_DONE && scores.moves == 0 && scores.answer.score == 64);
    oth_seat_free(&more);
    oth_seat_free(&more);
    want("free: the last", more.at == NULL);
}

/* A board of 30 empty squares. */
static const oth_board deep = {0x8070383c1010001c, 0x080402002f6c3e02};

static void *solve_deep(void *given) {
    oth_answer answer;
    oth_bounds bounds = {7, 7};
    uint32_t code = oth_solve_within(given, deep, UINT64_MAX, &answer, &bounds);
    return code == OTH_STOPPED && -64 <= bounds.lower && bounds.lower <= bounds.upper && bounds.upper <= 64 ? given : NULL;
}

/* Boards of few empty squares, and one that takes hours, ended from another seat; and what is called before the flag is cleared, and then. */
static void ends_by_another_thread(void) {
    oth_answer answer = {7, 7, 7};
    oth_bounds bounds = {7, 7};
    oth_seat first = {NULL}, more = {NULL};
    pthread_t solving;
    void *ended = NULL;
    want("stop: no seat", oth_stop_set(&first) == OTH_NO_SEAT && oth_stop_clear(&first) == OTH_NO_SEAT && first.at == NULL);
    refused = 0;
    want("stop: a table", oth_table_new(4096, 0, &first) == OTH_DONE && oth_seat_new(&first, &more) == OTH_DONE);
    want("stop: set by another seat", oth_stop_set(&more) == OTH_DONE && oth_solve_within(&first, few, UINT64_MAX, &answer, &bounds) == OTH_STOPPED && answer.score == 7);
    want("stop: ends no finished game", oth_solve_within(&first, full, UINT64_MAX, &answer, &bounds) == OTH_DONE && answer.score == 64);
    want("stop: cleared by another seat", oth_stop_clear(&more) == OTH_DONE && oth_solve_within(&first, few, UINT64_MAX, &answer, &bounds) == OTH_DONE && answer.score == -50);
    answer.score = 7;
    if (wrong) {
        return; /* the call below might never end */
    }
    if (pthread_create(&solving, NULL, solve_deep, &first) != 0) {
        abort();
    }
    usleep(300000);
    want("stop: set", oth_stop_set(&more) == OTH_DONE && more.at != NULL);
    pthread_join(solving, &ended);
    want("stop: ends a call", ended == &first);
    want("stop: ends the next call", oth_solve_within(&more, deep, UINT64_MAX, &answer, &bounds) == OTH_STOPPED && bounds.lower <= bounds.upper && answer.score == 7);
    want("stop: no other call", oth_solve_over(&more, full, &answer) == OTH_DONE && answer.score == 64);
    want("stop: cleared", oth_stop_clear(&first) == OTH_DONE && oth_solve_within(&more, few, UINT64_MAX, &answer, &bounds) == OTH_DONE && answer.score == -50);
    oth_seat_free(&first);
    oth_seat_free(&more);
}

static void refusals_of_texts(void) {
    uint8_t buffer[OTH_MOVES_LINE], place = 7;
    size_t written = 7;
    oth_position position = {open_board, OTH_BLACK}, side = {open_board, 2}, shared = {both, 2};
    memset(buffer, 7, sizeof buffer);
    want("print: overlap", oth_print_board(shared, buffer, 0) == OTH_OVERLAP);
    want("print: mover", oth_print_board(side, buffer, 0) == OTH_MOVER);
    want("print: room", oth_print_board(position, buffer, 65) == OTH_ROOM && buffer[0] == 7);
    want("print moves: overlap", oth_print_moves(both, buffer, 0, &written) == OTH_OVERLAP && written == 7);
    want("print moves: room", oth_print_moves(open_board, buffer, 10, &written) == OTH_ROOM && written == 7 && buffer[0] == 7);
    want("print moves", oth_print_moves(open_board, buffer, 11, &written) == OTH_DONE && written == 11 && memcmp(buffer, "d3 c4 f5 e6\7", 12) == 0);
    want("print", oth_print_board(position, buffer, 66) == OTH_DONE && memcmp(buffer + 26, "-OX", 3) == 0 && buffer[66] == 7);
    want("read: length", oth_read_board(buffer, 65, &position, &place) == OTH_LINE_LENGTH && place == 0);
    want("transcript: length", oth_read_transcript(buffer, 3, &position, &place) == OTH_GAME_LENGTH && place == 0);
    want("transcript: empty", oth_read_transcript(buffer, 0, &position, &place) == OTH_DONE && position.board.own == open_board.own);
}

/* The version's text, whatever its length, in a buffer that holds just it and in none that is shorter. */
static void refusals_of_version(void) {
    uint8_t buffer[OTH_VERSION_LINE + 1];
    size_t length = 7, written = 7;
    memset(buffer, 7, sizeof buffer);
    want("version: no room", oth_version(buffer, 0, &written) == OTH_ROOM && written == 7 && buffer[0] == 7);
    want("version", oth_version(buffer, OTH_VERSION_LINE, &length) == OTH_DONE && length <= OTH_VERSION_LINE && buffer[length] == 7);
    want("version: begins as the header's", memcmp(buffer, OTHSOLVE_VERSION " (", sizeof OTHSOLVE_VERSION + 1) == 0);
    memset(buffer, 7, sizeof buffer);
    want("version: room", oth_version(buffer, length - 1, &written) == OTH_ROOM && written == 7 && buffer[0] == 7);
    want("version: just room", oth_version(buffer, length, &written) == OTH_DONE && written == length && buffer[length - 1] == ')');
}

static void print_version(void) {
    uint8_t buffer[OTH_VERSION_LINE];
    size_t written = 0;
    if (oth_version(buffer, sizeof buffer, &written) == OTH_DONE) {
        printf("othsolve %.*s\n", (int)written, (const char *)buffer);
    }
}

static int keeps_position(uint32_t code, uint32_t wanted, oth_position position) {
    return code == wanted && position.board.own == 7 && position.board.opp == 8 && position.mover == 7;
}

static void refusals_of_games(void) {
    const uint8_t *moves = (const uint8_t *)"f5d6a1";
    uint8_t place = 7;
    oth_position start = {open_board, OTH_BLACK}, side = {open_board, 2}, shared = {both, 2}, next = {{7, 8}, 7};
    want("play: overlap", keeps_position(oth_play_game(shared, moves, 3, &next, &place), OTH_OVERLAP, next) && place == 0);
    place = 7;
    want("play: mover", keeps_position(oth_play_game(side, moves, 3, &next, &place), OTH_MOVER, next) && place == 0);
    place = 7;
    want("play: length", keeps_position(oth_play_game(start, moves, 3, &next, &place), OTH_GAME_LENGTH, next) && place == 0);
    want("play: move", keeps_position(oth_play_game(start, moves, 6, &next, &place), OTH_GAME_ILLEGAL, next) && place == 3);
    want("play", oth_play_game(start, moves, 2, &next, &place) == OTH_DONE && place == 0 && next.mover == OTH_WHITE);
    want("play: no move", oth_play_game(start, moves, 0, &start, &place) == OTH_DONE && start.board.own == open_board.own);
}

static void read_lines(void) {
    while (line_count < MOST_LINES && fgets(lines[line_count], LINE, stdin) != NULL) {
        lines[line_count][strcspn(lines[line_count], "\n")] = 0;
        line_count++;
    }
}

int main(int count, char **words) {
    const char *command = count > 1 ? words[1] : "refusals", *number = getenv("REFUSED");
    refused = number == NULL ? 0 : atol(number);
    if (strcmp(command, "refusals") == 0) {
        refusals_of_rules();
        refusals_of_solving();
        refusals_of_scores();
        refusals_of_seats();
        ends_by_another_thread();
        refusals_of_texts();
        refusals_of_games();
        refusals_of_version();
        return wrong;
    }
    if (strcmp(command, "version") == 0) {
        print_version();
        return 0;
    }
    read_lines();
    by_parts = strcmp(command, "within") == 0;
    int shares = by_parts || strncmp(command, "share", 5) == 0;
    reply = strstr(command, "scores") == NULL ? solve_line : scores_line;
    if (count == 5) {
        scoring = strcmp(words[2], "discs") == 0;
        cells = (uint32_t)strtoul(words[3], NULL, 10);
        int same = solve(atoi(words[4]), shares);
        int none_is_closer = line_count > 500 && (closer_bounds[0] == 0 || closer_bounds[1] == 0);
        return !same || unfit_scores != 0 || (by_parts && (untrue_bounds != 0 || ended_calls == 0 || none_is_closer));
    }
    is_play = strcmp(command, "play") == 0;
    each_line(stdout, is_play ? play_line : strcmp(command, "moves") == 0 ? moves_line : transcript_line);
    return 0;
}
