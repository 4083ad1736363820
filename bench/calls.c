/* Prints the microseconds that calls of the C library take on boards of few empty squares.
 *
 *     cc -O2 -I include bench/calls.c FOLDER/libothsolve.a -o calls    (FOLDER as examples/c/library.sh fills it)
 *     ./calls [RUNS] < BOARDS
 *
 * BOARDS are board lines. For each number of empty squares a line has the least microseconds a board of RUNS runs (5 if
 * not given): oth_solve_alone and oth_scores without a table, and oth_solve_over and oth_scores_over with one of 65,536
 * cells that all boards share. The exit status is 1 where a call is refused or two answers differ.
 */
#include <othsolve.h>
#include <stdint.h>
#include <stdio.h>
#include <stdlib.h>
#include <string.h>
#include <time.h>

enum { MOST_EMPTIES = 30, MOST_LINE = 256, CELLS = 65536, WAYS = 4 };

struct boards {
    oth_board *boards;
    oth_answer *answers;
    size_t count;
};

static void fail(const char *why)
{
    fprintf(stderr, "calls: %s\n", why);
    exit(1);
}

static double seconds(void)
{
    struct timespec now;
    clock_gettime(CLOCK_MONOTONIC, &now);
    return (double)now.tv_sec + 1e-9 * (double)now.tv_nsec;
}

static int empties_of(oth_board board)
{
    return 64 - __builtin_popcountll(board.own | board.opp);
}

static void add(struct boards *boards, oth_board board)
{
    size_t count = boards->count;
    if ((count & (count - 1)) == 0) {
        size_t room = count == 0 ? 1 : 2 * count;
        boards->boards = realloc(boards->boards, room * sizeof *boards->boards);
        boards->answers = realloc(boards->answers, room * sizeof *boards->answers);
        if (boards->boards == NULL || boards->answers == NULL)
            fail("no memory");
    }
    boards->boards[boards->count++] = board;
}

static void read_all(struct boards *by_empties)
{
    char line[MOST_LINE];
    while (fgets(line, sizeof line, stdin) != NULL) {
        size_t length = strcspn(line, "\r\n");
        oth_position position;
        uint8_t place;
        if (oth_read_board((const uint8_t *)line, length, &position, &place) != 0)
            fail("a line is no board");
        int empties = empties_of(position.board);
        if (empties <= MOST_EMPTIES)
            add(&by_empties[empties], position.board);
    }
}

/* The answer of a board, and of its scores, by this way. */
static oth_answer answered(int way, oth_seat *seat, oth_board board)
{
    oth_answer answer;
    oth_move_scores scores;
    uint32_t code = 0;
    switch (way) {
    case 0:
        code = oth_solve_alone(board, OTH_SCORING_WINNER, 0, &answer);
        break;
    case 1:
        code = oth_solve_over(seat, board, &answer);
        break;
    case 2:
        code = oth_scores(board, OTH_SCORING_WINNER, 0, &scores);
        answer = scores.answer;
        break;
    default:
        code = oth_scores_over(seat, board, &scores);
        answer = scores.answer;
    }
    if (code != 0)
        fail("a call was refused");
    return answer;
}

/* The seconds that the boards take by this way. The first way's answers are kept, the others' compared with them. */
static double timed(int way, oth_seat *seat, struct boards *boards)
{
    double began = seconds();
    for (size_t number = 0; number < boards->count; number++) {
        oth_answer answer = answered(way, seat, boards->boards[number]);
        oth_answer *kept = &boards->answers[number];
        if (way == 0)
            *kept = answer;
        else if (answer.score != kept->score || answer.best != kept->best || answer.kind != kept->kind)
            fail("two answers differ");
    }
    return seconds() - began;
}

int main(int count, char **words)
{
    int runs = count > 1 ? atoi(words[1]) : 5;
    static struct boards by_empties[MOST_EMPTIES + 1];
    read_all(by_empties);
    oth_seat seat = {NULL};
    if (oth_table_new(CELLS, OTH_SCORING_WINNER, &seat) != 0)
        fail("no table");
    printf("| empty squares | oth_solve_alone | oth_solve_over | oth_scores | oth_scores_over |\n|---|---|---|---|---|\n");
    for (int empties = 0; empties <= MOST_EMPTIES; empties++) {
        struct boards *boards = &by_empties[empties];
        if (boards->count == 0)
            continue;
        double least[WAYS] = {1e9, 1e9, 1e9, 1e9};
        for (int run = 0; run < runs; run++)
            for (int way = 0; way < WAYS; way++) {
                double taken = timed(way, &seat, boards);
                if (taken < least[way])
                    least[way] = taken;
            }
        printf("| %d |", empties);
        for (int way = 0; way < WAYS; way++)
            printf(" %.1f |", 1e6 * least[way] / (double)boards->count);
        printf("\n");
        fflush(stdout);
    }
    oth_seat_free(&seat);
    return 0;
}
