/* Solves the board lines of standard input, each as `othsolve solve` does: the score, a space, and all best moves, `pass` or `end`. The words are the
 * scoring (winner or discs) and the number of cells. Build line: cc -O2 -I. worked.c libothsolve.a -o worked */
#include "othsolve.h"

#include <stdio.h>
#include <stdlib.h>
#include <string.h>

static void print_squares(uint64_t squares) {
    const char *space = "";
    for (int square = 0; square < 64; square++) {
        if (squares >> square & 1) {
            printf("%s%c%c", space, 'a' + square % 8, '1' + square / 8);
            space = " ";
        }
    }
}

static void print_answer(oth_answer answer) {
    printf("%c%d ", answer.score < 0 ? '-' : '+', abs(answer.score));
    if (answer.kind == OTH_KIND_MOVE) {
        print_squares(answer.best);
    } else {
        printf(answer.kind == OTH_KIND_PASS ? "pass" : "end");
    }
    printf("\n");
}

static void solve_line(const char *line, size_t length, uint8_t scoring, uint32_t cells) {
    oth_position position;
    oth_answer answer;
    uint8_t place;
    uint32_t code = oth_read_board((const uint8_t *)line, length, &position, &place);
    if (code == OTH_DONE) {
        code = oth_solve_alone(position.board, scoring, cells, &answer);
    }
    if (code == OTH_DONE) {
        print_answer(answer);
    } else if (code == OTH_LINE_CELL) {
        printf("refused: %u at %u\n", code, place);
    } else {
        printf("refused: %u\n", code);
    }
}

int main(int count, char **words) {
    uint8_t scoring = count > 1 && strcmp(words[1], "discs") == 0 ? OTH_SCORING_DISCS : OTH_SCORING_WINNER;
    uint32_t cells = count > 2 ? (uint32_t)strtoul(words[2], NULL, 10) : 65536;
    char line[256];
    while (fgets(line, sizeof line, stdin) != NULL) {
        solve_line(line, strcspn(line, "\n"), scoring, cells);
    }
    return 0;
}
