/* What a host program does: it checks the ROM with its sheet before anything runs, then runs the board a little at a time and
 * shows the stored port nibbles, P0A to P0E, after each run. At a refusal it takes the lamps away and stops with status 1. */
#include "pollwezen.h"

#include <stdio.h>

/* P0A is made an output, and its bit 0 is a lamp. Between two changes of it the board idles until a counter has gone round. */
static const uint16_t rom[] = {
    0xEF8F, /* 000  MOV 78,#F */
    0x3B25, /* 001  POKE 35,WR */
    0xAF01, /* 002  XOR 70,#1 */
    0xE90D, /* 003  MOV 10,#D */
    0x8101, /* 004  ADD 10,#1 */
    0x4900, /* 005  SKE 10,#0 */
    0x6004, /* 006  BR 004 */
    0x6002, /* 007  BR 002 */
};
enum { WORDS = sizeof rom / sizeof rom[0], MODEL = POLLWEZEN_17132 };

/* The board's sheet, an old one with one level a word: no call is open anywhere. */
static const uint8_t levels[WORDS] = {0};

static int stop(const char *what, unsigned number) {
    printf("lamps -----\n");
    fprintf(stderr, "host: %s: %u; the lamps are not known\n", what, number);
    return 1;
}

int main(void) {
    uint8_t sheet[2 * WORDS];
    pollwezen_output_reply made = pollwezen_widen(levels, WORDS, sheet, sizeof sheet);
    if (made.number != POLLWEZEN_DONE) {
        return stop("no room for the sheet", made.number);
    }
    pollwezen_verdict_reply verdict = pollwezen_verify(MODEL, rom, WORDS, sheet, made.length);
    if (verdict.number != POLLWEZEN_DONE) {
        return stop("the ROM does not pass with its sheet", verdict.number);
    }
    pollwezen_machine board;
    uint8_t ready = pollwezen_reset(MODEL, &board);
    if (ready != POLLWEZEN_DONE) {
        return stop("no such model", ready);
    }
    pollwezen_input input = {{0}, {0}, 0};
    uint8_t pulse = 0; /* nothing drives the INT pin */
    for (int refresh = 0; refresh < 8; refresh++) {
        pollwezen_run_reply ran = pollwezen_run(MODEL, rom, WORDS, &board, input, pulse, 5);
        if (ran.number != POLLWEZEN_DONE) {
            return stop("refused", ran.number);
        }
        printf("lamps %X%X%X%X%X after %u steps, %u cycles\n", board.cells[0x70], board.cells[0x71], board.cells[0x72],
               board.cells[0x73], board.cells[0x6F], ran.steps, ran.cycles);
    }
    return 0;
}
