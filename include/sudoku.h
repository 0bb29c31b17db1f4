/* The Sudoku step engine for C and C++ (x86-64 Linux): link with target/staticlib/libsudoku.a. host/README.md is the page that this header follows.
 *
 * A board is lent as three arrays of 81, by cell (9 times row + column, both from 0): the printed clues, 0 where a cell has none; the
 * player's entries, 0 where a cell has none; and the masks, where bit d - 1 says that digit d is a candidate. Entries count as clues.
 * Clues and no entries (81 zeros) are made a board by sudoku_open; whoever keeps boards keeps the three arrays.
 *
 * A caller owes what it lends: each pointer leads to as many elements as its parameter says, and no two arrays overlap. Nothing else is
 * owed: numbers and bytes may be any, and what is wrong with them is answered. Every call ends. Nothing is allocated or kept, so calls on
 * different arrays may run at the same time.
 *
 * A call that can be refused, or that has more than one result, fills `answer`:
 *   answer[SUDOKU_ANSWER_STOP]    the stop; 0 where the call answered
 *   answer[SUDOKU_ANSWER_DETAIL]  what stands beside the stop; else 0, but where a call below says otherwise
 *   answer[SUDOKU_ANSWER_VALUE]   the call's value, 0 beside a stop
 *   answer[SUDOKU_ANSWER_SECOND]  its second value, 0 beside a stop, but where a call below says otherwise
 * Beside a stop only `answer` is written: everything else that was lent keeps its contents.
 *
 * "The board's stops" below are those of a board that does not fit together, in this order: 3 with the first cell whose clue is outside
 * 0 to 9; 8 with the first cell that has an entry beside a clue, or an entry outside 0 to 9; 9 with the first cell whose mask holds what
 * the fresh one lacks, or that has a clue or an entry and another mask than that digit alone.
 */
#ifndef SUDOKU_H
#define SUDOKU_H

#include <stdint.h>

#ifdef __cplusplus
extern "C" {
typedef bool sudoku_bool;
#else
typedef _Bool sudoku_bool;
#endif

/* The number of the signatures below. Where sudoku_abi() gives another one, nothing else may be called. */
#define SUDOKU_ABI 5u

/* How many elements arrays have, and how many bytes suffice. */
enum sudoku_size {
    SUDOKU_CELLS = 81,
    SUDOKU_ANSWERS = 4,
    SUDOKU_REPORTS = 648,     /* bytes of sudoku_step's reports: room for 324, two bytes each */
    SUDOKU_STEP_BYTES = 6,    /* bytes of one step of a list */
    SUDOKU_MOST_STEPS = 729,  /* steps of a list */
    SUDOKU_STEPS = 4374,      /* bytes of sudoku_settle's steps: room for 729, six bytes each */
    SUDOKU_PASSES = 6,        /* the wide passes in a sweep's order: Lone, Place, Pair, Pointing, Claiming, Cross */
    SUDOKU_TEXT = 81,         /* bytes of a text */
    SUDOKU_SHEET = 90,        /* bytes of a canonical sheet */
    SUDOKU_MOST_SHEET = 4096, /* bytes of a pasted sheet */
    SUDOKU_RECORD = 1786,     /* bytes in which every record has room */
    SUDOKU_CARD = 256         /* bytes of sudoku_card's card */
};

/* What the four numbers of an answer are. */
enum sudoku_answer {
    SUDOKU_ANSWER_STOP = 0,
    SUDOKU_ANSWER_DETAIL = 1,
    SUDOKU_ANSWER_VALUE = 2,
    SUDOKU_ANSWER_SECOND = 3
};

/* The stops, and what stands beside each. */
enum sudoku_stop {
    SUDOKU_STOP_NO_NUMBER = -1,      /* a call, question or step number that stands for nothing: the number */
    SUDOKU_STOP_NONE = 0,            /* the call answered */
    SUDOKU_STOP_TEXT_LENGTH = 1,     /* a text is not of 81 bytes: its length */
    SUDOKU_STOP_OTHER_BYTE = 2,      /* a text or sheet has another byte: the first one's index */
    SUDOKU_STOP_BAD_CLUE = 3,        /* a clue is outside 0 to 9: the first such cell */
    SUDOKU_STOP_BAD_DIGIT = 4,       /* a digit is outside 1 to 9: the digit */
    SUDOKU_STOP_NO_CELL = 5,         /* a cell is above 80: the cell */
    SUDOKU_STOP_TOO_FEW_BYTES = 6,   /* too few bytes are lent: their number */
    SUDOKU_STOP_RECORD_BYTES = 7,    /* a record's bytes are missing or left over: the offset of the first (of missing ones the length) */
    SUDOKU_STOP_BAD_ENTRY = 8,       /* an entry beside a clue or outside 0 to 9: the first such cell. In a record, a cell above 80, a digit
                                        outside 1 to 9, cells or candidates that do not rise, an entry on a clue: the offset */
    SUDOKU_STOP_BAD_MASK = 9,        /* a mask that does not fit: the first such cell. In a record, the removal of a candidate that is not
                                        fresh, or from a cell with a clue or an entry: the offset */
    SUDOKU_STOP_SHEET_LENGTH = 10,   /* a sheet is longer than 4,096 bytes: its length */
    SUDOKU_STOP_SHEET_CELLS = 11,    /* a sheet has not 81 cells: their number */
    SUDOKU_STOP_CLUE_CELL = 12,      /* the cell has a clue: the cell */
    SUDOKU_STOP_ENTERED = 13,        /* the cell is already entered or, in rubbing out, is not: the cell */
    SUDOKU_STOP_RECORD_ENTRIES = 14, /* a record with entries has no old form: the offset of its entry count */
    SUDOKU_STOP_BAD_STEP = 15,       /* a step names no instance, its condition does not hold, or it removes nothing: the first such step's index */
    SUDOKU_STOP_TOO_MANY_STEPS = 16, /* a list has more than 729 steps: their number */
    SUDOKU_STOP_BAD_PERCENTAGE = 17, /* a percentage is above 100: the percentage */
    SUDOKU_STOP_BAD_SOLUTION = 18,   /* a solution does not pass the verifier: 0 */
    SUDOKU_STOP_NO_OPEN_CELL = 19,   /* no cell is open without an entry, so there is no figure: 0 */
    SUDOKU_STOP_NO_STEP = 20         /* sudoku_run: a byte of the list is no step number: the first one's index */
};

/* Verdicts: some cell has no candidate, or all have one and the verifier does not pass them; all have one and it does; else. */
enum sudoku_verdict {
    SUDOKU_VERDICT_DEAD = 0,
    SUDOKU_VERDICT_FINISHED = 1,
    SUDOKU_VERDICT_OPEN = 2
};

/* The questions of sudoku_ask, and their values. */
enum sudoku_question {
    SUDOKU_ASK_CLUE_COUNT = 0, /* how many printed clues there are */
    SUDOKU_ASK_VERDICT = 1,    /* a verdict */
    SUDOKU_ASK_CELL_MASK = 2   /* the mask of one cell */
};

/* The step numbers of sudoku_step and sudoku_run. */
enum sudoku_step_number {
    SUDOKU_STEP_UPDATE_CANDIDATES = 0,
    SUDOKU_STEP_NAKED_PAIRS = 1,
    SUDOKU_STEP_BOX_LINE = 2,
    SUDOKU_STEP_X_WING = 3,
    SUDOKU_STEP_NAKED_SINGLES = 4,
    SUDOKU_STEP_HIDDEN_SINGLES = 5,
    SUDOKU_STEP_APPLY_ADVANCED_TECHNIQUES = 6,
    SUDOKU_STEP_LONE = 7,
    SUDOKU_STEP_PLACE = 8,
    SUDOKU_STEP_PAIR = 9,
    SUDOKU_STEP_POINTING = 10,
    SUDOKU_STEP_CROSS = 11,
    SUDOKU_STEP_SETTLING = 12,
    SUDOKU_STEP_CHAIN = 13, /* the ported chain pass, which can cost a correct filling */
    SUDOKU_STEP_CLAIMING = 14,
    SUDOKU_STEP_X_CHAIN = 15
};

/* The kinds of a step of a list (sudoku_settle, sudoku_check_steps): the first of its six bytes. The parts follow, then zeros. Cells are 0 to
 * 80, digits 1 to 9, and rows, columns and boxes go by unit number: rows 0 to 8, columns 9 to 17, boxes 18 to 26. */
enum sudoku_kind {
    SUDOKU_KIND_LONE = 0,           /* cell, digit */
    SUDOKU_KIND_PLACE = 1,          /* unit, digit, cell */
    SUDOKU_KIND_PAIR = 2,           /* unit, two cells of it, rising, two digits, rising */
    SUDOKU_KIND_POINTING = 3,       /* box, digit, row or column */
    SUDOKU_KIND_CLAIMING = 4,       /* row or column, digit, box */
    SUDOKU_KIND_CROSS = 5,          /* digit, two rows, rising, two columns, rising */
    SUDOKU_KIND_CROSS_EXCHANGED = 6 /* digit, two columns, rising, two rows, rising */
};

/* The calls of sudoku_set, and their values. */
enum sudoku_set_call {
    SUDOKU_SET_NEW = 0,              /* 0; leaves the empty set */
    SUDOKU_SET_FULL = 1,             /* 0; leaves all nine digits */
    SUDOKU_SET_SINGLE = 2,           /* 0; leaves the digit alone. Stop 4, which leaves mask 0 */
    SUDOKU_SET_CONTAINS = 3,         /* 1 for yes, 0 for no. Stop 4 */
    SUDOKU_SET_INSERT = 4,           /* 0. Stop 4 */
    SUDOKU_SET_REMOVE = 5,           /* 1 where the digit was there, else 0. Stop 4 */
    SUDOKU_SET_CLEAR = 6,            /* 0; leaves the empty set */
    SUDOKU_SET_LEN = 7,              /* the number of digits */
    SUDOKU_SET_IS_EMPTY = 8,         /* 1 for yes, 0 for no */
    SUDOKU_SET_SINGLE_CANDIDATE = 9, /* the digit, or 0 where it is not one; the detail says which, below */
    SUDOKU_SET_ITER = 10             /* 0; leaves the mask to hand to sudoku_next, with place 0 */
};

/* The detail of SUDOKU_SET_SINGLE_CANDIDATE. */
enum sudoku_single {
    SUDOKU_SINGLE_EMPTY = 0,
    SUDOKU_SINGLE_DIGIT = 1,
    SUDOKU_SINGLE_SEVERAL = 2
};

/* ---- the archive */

/* The number of the archive's signatures, to be compared with SUDOKU_ABI before any other call. */
uint32_t sudoku_abi(void);

/* ---- filled grids */

/* Whether 81 numbers are a correct filling: all from 1 to 9, none twice in a row, column or box. Never refuses. */
sudoku_bool sudoku_verify(const int32_t grid[SUDOKU_CELLS]);

/* ---- candidate sets: masks by themselves */

/* A call of the candidate set (sudoku_set_call) on a mask and a digit; one that takes no mask or no digit does not look at it.
 * Value: the call's, above. Second value: the mask that it leaves; beside stop 4 the mask as it came, or 0 for SUDOKU_SET_SINGLE.
 * Stops: 4; -1 with the call where it is none. */
void sudoku_set(uint8_t call, uint16_t mask, int32_t digit, int64_t answer[SUDOKU_ANSWERS]);

/* One step of a walk over a mask's digits, rising: begin with place 0, and go on with the place and the mask that come back.
 * Value: the first digit at the place or above, 0 where there is none. Detail: the place to go on with. Second value: the mask.
 * Never refuses. */
void sudoku_next(uint16_t mask, uint8_t place, int64_t answer[SUDOKU_ANSWERS]);

/* ---- grids as text */

/* Reads a text: 81 bytes, `1` to `9` for a clue, `0` or `.` for an open cell. Writes the clues. Value: how many there are.
 * Stops: 1, 2; the clues then keep their contents. */
void sudoku_read(const uint8_t *text, uint64_t length, int32_t clues[SUDOKU_CELLS], int64_t answer[SUDOKU_ANSWERS]);

/* Writes the text of 81 clues, `.` for an open cell, into the first SUDOKU_TEXT bytes; later ones keep. No byte 0 is put after it. Value: 81.
 * Stops: 6, 3; the bytes then keep their contents. */
void sudoku_write_text(const int32_t clues[SUDOKU_CELLS], uint8_t *text, uint64_t length, int64_t answer[SUDOKU_ANSWERS]);

/* Reads a grid as it was pasted, with rulings: space, `|`, `-`, `+`, carriage return and line feed are passed over, and the other bytes
 * are read as sudoku_read reads them. Writes the clues. Value: how many there are.
 * Stops: 10, 2, 11; the clues then keep their contents. */
void sudoku_read_sheet(const uint8_t *sheet, uint64_t length, int32_t clues[SUDOKU_CELLS], int64_t answer[SUDOKU_ANSWERS]);

/* Writes the canonical sheet of 81 clues, nine lines of nine characters, `.` for an open cell, each ended by a line feed, into the first
 * SUDOKU_SHEET bytes; later ones keep. Value: 90.
 * Stops: 6, 3; the bytes then keep their contents. */
void sudoku_write_sheet(const int32_t clues[SUDOKU_CELLS], uint8_t *sheet, uint64_t length, int64_t answer[SUDOKU_ANSWERS]);

/* ---- boards: opened, entered, asked */

/* Opens a board without entries: writes the fresh masks of 81 clues. Clues that contradict each other are taken. Value: how many clues there
 * are.
 * Stops: 3; the masks then keep their contents. */
void sudoku_open(const int32_t clues[SUDOKU_CELLS], uint16_t masks[SUDOKU_CELLS], int64_t answer[SUDOKU_ANSWERS]);

/* Enters a digit in a cell that has neither clue nor entry: writes the entry and the masks of the board worked out afresh, so that what steps
 * had removed is back. The digit may contradict a clue or another entry.
 * Stops: the board's, 5, 4, 12, 13; entries and masks then keep their contents. */
void sudoku_enter(uint32_t cell, int32_t digit, const int32_t clues[SUDOKU_CELLS], int32_t entries[SUDOKU_CELLS], uint16_t masks[SUDOKU_CELLS],
                  int64_t answer[SUDOKU_ANSWERS]);

/* Rubs a cell's entry out: writes 0 for it, and the masks of the board worked out afresh.
 * Stops: the board's, 5, 12, 13; entries and masks then keep their contents. */
void sudoku_rub_out(uint32_t cell, const int32_t clues[SUDOKU_CELLS], int32_t entries[SUDOKU_CELLS], uint16_t masks[SUDOKU_CELLS],
                    int64_t answer[SUDOKU_ANSWERS]);

/* A question (sudoku_question) to a board; `cell` is looked at by SUDOKU_ASK_CELL_MASK alone. Value: above.
 * Stops: the board's, then 5; -1 with the question where it is none, before the board is looked at. */
void sudoku_ask(uint8_t question, uint32_t cell, const int32_t clues[SUDOKU_CELLS], const int32_t entries[SUDOKU_CELLS],
                const uint16_t masks[SUDOKU_CELLS], int64_t answer[SUDOKU_ANSWERS]);

/* Writes the printed clues of a board into `puzzle`.
 * Stops: the board's; `puzzle` then keeps its contents. */
void sudoku_original_puzzle(const int32_t clues[SUDOKU_CELLS], const int32_t entries[SUDOKU_CELLS], const uint16_t masks[SUDOKU_CELLS],
                            int32_t puzzle[SUDOKU_CELLS], int64_t answer[SUDOKU_ANSWERS]);

/* Writes the masks of a board into `candidates`.
 * Stops: the board's; `candidates` then keep their contents. */
void sudoku_get_candidates(const int32_t clues[SUDOKU_CELLS], const int32_t entries[SUDOKU_CELLS], const uint16_t masks[SUDOKU_CELLS],
                           uint16_t candidates[SUDOKU_CELLS], int64_t answer[SUDOKU_ANSWERS]);

/* ---- boards: steps */

/* A board call by its step number (sudoku_step_number). Writes the masks, and the reports: report i is the bytes 2i (cell) and 2i + 1 (digit),
 * zeros after the last; a step without reports writes zeros.
 * Value: 1 where there was progress, else 0 (of SUDOKU_STEP_UPDATE_CANDIDATES 0). Second value: the number of reports. Of
 * SUDOKU_STEP_SETTLING the two are the sweeps and the removed candidates.
 * Stops: the board's; -1 with the step where it is none, before the board is looked at. Masks and reports then keep their contents. */
void sudoku_step(uint8_t step, const int32_t clues[SUDOKU_CELLS], const int32_t entries[SUDOKU_CELLS], uint16_t masks[SUDOKU_CELLS],
                 uint8_t reports[SUDOKU_REPORTS], int64_t answer[SUDOKU_ANSWERS]);

/* Runs a list of step numbers from the fresh board of clues and entries: writes the masks that it leaves. The masks that are lent are not
 * looked at, so that the empty list is how the fresh masks of clues and entries are got.
 * Stops: 3, 8, then 20; nothing is run then, and the masks keep their contents. */
void sudoku_run(const uint8_t *steps, uint64_t length, const int32_t clues[SUDOKU_CELLS], const int32_t entries[SUDOKU_CELLS],
                uint16_t masks[SUDOKU_CELLS], int64_t answer[SUDOKU_ANSWERS]);

/* Settles a board: sweeps of the six wide passes until one removes nothing. Writes the masks, and the steps that removed something, in the
 * order done: step i is the bytes 6i to 6i + 5 (sudoku_kind), zeros after the last; and the candidates that each wide pass removed.
 * Value: the sweeps, that last one too. Second value: the removed candidates. Detail: the number of steps, at most SUDOKU_MOST_STEPS.
 * Stops: the board's; masks, steps and counts then keep their contents. */
void sudoku_settle(const int32_t clues[SUDOKU_CELLS], const int32_t entries[SUDOKU_CELLS], uint16_t masks[SUDOKU_CELLS],
                   uint8_t steps[SUDOKU_STEPS], uint64_t counts[SUDOKU_PASSES], int64_t answer[SUDOKU_ANSWERS]);

/* The difficulty figure of the fresh board of clues and entries; the masks that are lent are checked and play no other part. Points for each
 * candidate that settling removes (Lone 1, Place 2, Pair 4, Pointing 3, Claiming 3, Cross 6) are divided by the cells with neither clue nor
 * entry.
 * Value: the whole quotient. Second value: the remainder. Detail: the number of those cells.
 * Stops: the board's, then 19. Nothing else is written. */
void sudoku_difficulty(const int32_t clues[SUDOKU_CELLS], const int32_t entries[SUDOKU_CELLS], const uint16_t masks[SUDOKU_CELLS],
                       int64_t answer[SUDOKU_ANSWERS]);

/* Checks a list of steps, six bytes each (sudoku_kind), from the fresh board of clues and entries; the masks that are lent are checked and
 * play no other part. Where each step's condition holds at its turn and it removes something, writes the masks of the final board. What
 * sudoku_settle did to fresh masks is accepted and gives the masks that it left.
 * `length` is in bytes; a shorter last piece counts as a step, and is a bad one.
 * Stops: the board's, 16, 15; the masks then keep their contents. */
void sudoku_check_steps(const uint8_t *steps, uint64_t length, const int32_t clues[SUDOKU_CELLS], const int32_t entries[SUDOKU_CELLS],
                        uint16_t masks[SUDOKU_CELLS], int64_t answer[SUDOKU_ANSWERS]);

/* ---- records: boards as bytes, to be kept */

/* Writes the record of a board into the first bytes; later ones keep. SUDOKU_RECORD bytes have room for every record. Value: how many bytes
 * were written.
 * Stops: the board's, 6; the bytes then keep their contents. */
void sudoku_write_record(const int32_t clues[SUDOKU_CELLS], const int32_t entries[SUDOKU_CELLS], const uint16_t masks[SUDOKU_CELLS],
                         uint8_t *record, uint64_t length, int64_t answer[SUDOKU_ANSWERS]);

/* Reads a record: writes clues, entries and masks of the board that it was written of. Value: how many clues there are.
 * Stops: 7, 8, 9 with an offset, the record read front to back; clues, entries and masks then keep their contents. */
void sudoku_read_record(const uint8_t *record, uint64_t length, int32_t clues[SUDOKU_CELLS], int32_t entries[SUDOKU_CELLS],
                        uint16_t masks[SUDOKU_CELLS], int64_t answer[SUDOKU_ANSWERS]);

/* Moves a record between its two forms, into the first bytes of `moved`; later ones keep. With `back` 0 an old record, without an entry
 * section, comes out in the new form, one byte longer; with `back` 1 a new one without entries comes out in the old form. The other calls
 * know the new form alone. `lent` is the number of bytes of `moved`. Value: how many bytes were written.
 * Stops: 7, 8, 9 with an offset in `record`; back, then 14; then 6. `moved` then keeps its contents. */
void sudoku_move_record(sudoku_bool back, const uint8_t *record, uint64_t length, uint8_t *moved, uint64_t lent, int64_t answer[SUDOKU_ANSWERS]);

/* ---- rounds and cards */

/* Makes a trial round: writes as clues the digits of a solution that a generator of numbers, begun with `start`, keeps, about `percentage` in a
 * hundred. The same three make the same round everywhere. Value: how many clues there are.
 * Stops: 17, 18; the clues then keep their contents. */
void sudoku_trial_round(uint32_t start, uint32_t percentage, const int32_t solution[SUDOKU_CELLS], int32_t clues[SUDOKU_CELLS],
                        int64_t answer[SUDOKU_ANSWERS]);

/* Writes the card of a text, with or without one final line feed, into the first bytes of `card`; later ones keep. Its lines, each ended by a
 * line feed, are what the program scorecard prints. Value: how many bytes were written.
 * Stops: 1, 2, where the program prints `refused`; the card then keeps its contents. */
void sudoku_card(const uint8_t *input, uint64_t length, uint8_t card[SUDOKU_CARD], int64_t answer[SUDOKU_ANSWERS]);

#ifdef __cplusplus
}
#endif

#endif
