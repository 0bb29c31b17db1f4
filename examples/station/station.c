/* A scoring station in small: reads a grid, enters digits, settles, and prints what was done and the verdict.
 *
 *     station [rRcC=DIGIT ..] <GRID
 *
 * GRID is 81 characters or a pasted sheet, rRcC the cell in row R, column C, both counted from 1. At the first refusal, of the grid or of a
 * digit, it prints `refused N P`, the stop and what stands beside it, and ends with status 1.
 */
#include <inttypes.h>
#include <stdio.h>
#include <string.h>

#include "sudoku.h"

struct board {
    int32_t clues[SUDOKU_CELLS];
    int32_t entries[SUDOKU_CELLS];
    uint16_t masks[SUDOKU_CELLS];
};

static int refused(const int64_t answer[SUDOKU_ANSWERS])
{
    if (answer[SUDOKU_ANSWER_STOP] == SUDOKU_STOP_NONE)
        return 0;
    printf("refused %" PRId64 " %" PRId64 "\n", answer[SUDOKU_ANSWER_STOP], answer[SUDOKU_ANSWER_DETAIL]);
    return 1;
}

/* The board of a sheet, without entries. */
static void read_board(struct board *board, int64_t answer[SUDOKU_ANSWERS])
{
    uint8_t sheet[SUDOKU_MOST_SHEET + 1]; /* one byte more, so that a longer sheet is refused */
    size_t length = fread(sheet, 1, sizeof sheet, stdin);
    sudoku_read_sheet(sheet, length, board->clues, answer);
    if (answer[SUDOKU_ANSWER_STOP] != SUDOKU_STOP_NONE)
        return;
    memset(board->entries, 0, sizeof board->entries);
    sudoku_open(board->clues, board->masks, answer);
}

static int among(char character, char first, char last)
{
    return first <= character && character <= last;
}

static int parse_entry(const char *word, uint32_t *cell, int32_t *digit)
{
    if (strlen(word) != 6 || word[0] != 'r' || word[2] != 'c' || word[4] != '=')
        return 0;
    if (!among(word[1], '1', '9') || !among(word[3], '1', '9') || !among(word[5], '0', '9'))
        return 0;
    *cell = 9 * (uint32_t)(word[1] - '1') + (uint32_t)(word[3] - '1');
    *digit = word[5] - '0';
    return 1;
}

static const char *unit_name(int unit)
{
    return unit < 9 ? "row" : unit < 18 ? "column" : "box";
}

static void print_cell(int cell)
{
    printf(" r%dc%d", cell / 9 + 1, cell % 9 + 1);
}

static void print_unit(const char *before, int unit)
{
    printf(" %s %s %d", before, unit_name(unit), unit % 9 + 1);
}

/* Two lines of a kind. */
static void print_lines(const char *before, int first, int second)
{
    printf(" %s %ss %d %d", before, unit_name(first), first % 9 + 1, second % 9 + 1);
}

/* A step in the words of the program explain. */
static void print_step(const uint8_t step[SUDOKU_STEP_BYTES])
{
    switch (step[0]) {
    case SUDOKU_KIND_LONE:
        printf(" Lone");
        print_cell(step[1]);
        printf(" %d", step[2]);
        break;
    case SUDOKU_KIND_PLACE:
        printf(" Place");
        print_cell(step[3]);
        printf(" %d", step[2]);
        print_unit("in", step[1]);
        break;
    case SUDOKU_KIND_PAIR:
        printf(" Pair");
        print_cell(step[2]);
        print_cell(step[3]);
        printf(" {%d,%d}", step[4], step[5]);
        print_unit("in", step[1]);
        break;
    case SUDOKU_KIND_POINTING:
        printf(" Pointing %d", step[2]);
        print_unit("in", step[1]);
        print_unit("along", step[3]);
        break;
    case SUDOKU_KIND_CLAIMING:
        printf(" Claiming %d", step[2]);
        print_unit("in", step[1]);
        print_unit("within", step[3]);
        break;
    case SUDOKU_KIND_CROSS:
    case SUDOKU_KIND_CROSS_EXCHANGED:
        printf(" Cross %d", step[1]);
        print_lines("in", step[2], step[3]);
        print_lines("at", step[4], step[5]);
        break;
    }
}

/* Each cell's only digit, `!` where it has none and `.` where it has several. */
static void print_line(const struct board *board)
{
    int64_t answer[SUDOKU_ANSWERS];
    int cell;

    printf("line ");
    for (cell = 0; cell < SUDOKU_CELLS; cell++) {
        sudoku_set(SUDOKU_SET_SINGLE_CANDIDATE, board->masks[cell], 0, answer);
        if (answer[SUDOKU_ANSWER_DETAIL] == SUDOKU_SINGLE_DIGIT)
            putchar('0' + (int)answer[SUDOKU_ANSWER_VALUE]);
        else
            putchar(answer[SUDOKU_ANSWER_DETAIL] == SUDOKU_SINGLE_EMPTY ? '!' : '.');
    }
    putchar('\n');
}

int main(int count, char **words)
{
    static const char *const verdicts[] = {"dead", "finished", "open"};
    struct board board;
    uint8_t steps[SUDOKU_STEPS];
    uint64_t counts[SUDOKU_PASSES];
    int64_t answer[SUDOKU_ANSWERS];
    int64_t step;
    int word;

    if (sudoku_abi() != SUDOKU_ABI) {
        fprintf(stderr, "station: the archive has the signatures %" PRIu32 ", sudoku.h those of %u\n", sudoku_abi(), SUDOKU_ABI);
        return 2;
    }

    read_board(&board, answer);
    if (refused(answer))
        return 1;
    printf("clues %" PRId64 "\n", answer[SUDOKU_ANSWER_VALUE]);

    for (word = 1; word < count; word++) {
        uint32_t cell;
        int32_t digit;
        if (!parse_entry(words[word], &cell, &digit)) {
            fprintf(stderr, "station: %s is no entry, such as r5c2=7\n", words[word]);
            return 2;
        }
        sudoku_enter(cell, digit, board.clues, board.entries, board.masks, answer);
        if (refused(answer))
            return 1;
        printf("entered %s\n", words[word]);
    }

    sudoku_settle(board.clues, board.entries, board.masks, steps, counts, answer);
    if (refused(answer))
        return 1;
    for (step = 0; step < answer[SUDOKU_ANSWER_DETAIL]; step++) {
        printf("%" PRId64, step + 1);
        print_step(steps + SUDOKU_STEP_BYTES * step);
        putchar('\n');
    }
    printf("sweeps %" PRId64 "\nremoved %" PRId64 "\n", answer[SUDOKU_ANSWER_VALUE], answer[SUDOKU_ANSWER_SECOND]);

    sudoku_ask(SUDOKU_ASK_VERDICT, 0, board.clues, board.entries, board.masks, answer);
    if (refused(answer))
        return 1;
    printf("verdict %s\n", verdicts[answer[SUDOKU_ANSWER_VALUE]]);
    print_line(&board);
    return 0;
}
