/* Tests include/pollwezen.h against the library: the layout of its structs (layout.c), and each entry with good and bad input,
 * those for words in codes.c and for files in files.c; then what else it says: the names of the rows (rows.c), the sizes
 * (sizes.c), a file's bytes as an input (records.c), the timer (timers.c), the models (models.c), NULL (nulls.c) and the stack that an entry needs (stack.c). It prints each
 * line that fails and ends with how many did; the exit status is 0 where none did. */
#include "header.h"

#include <stdio.h>
#include <string.h>

static int failed;

void expect(int holds, const char *what) {
    if (!holds) {
        printf("header: FAILED: %s\n", what);
        failed++;
    }
}

int same(const pollwezen_machine *a, const pollwezen_machine *b) {
    return memcmp(a->cells, b->cells, sizeof a->cells) == 0 && memcmp(a->stack, b->stack, sizeof a->stack) == 0
        && memcmp(a->registers, b->registers, sizeof a->registers) == 0 && a->modulo == b->modulo
        && a->counter == b->counter && a->divider == b->divider && a->pc == b->pc && a->levels == b->levels && a->skip == b->skip && a->standby == b->standby;
}

pollwezen_machine fresh(void) {
    pollwezen_machine r;
    memset(&r, 0xA5, sizeof r);
    expect(pollwezen_reset(POLLWEZEN_17132, &r) == POLLWEZEN_DONE, "reset");
    return r;
}

static void reset(void) {
    pollwezen_machine r = fresh(), zero;
    memset(&zero, 0, sizeof zero);
    zero.registers[0] = 8;
    zero.modulo = 0xFF;
    expect(same(&r, &zero), "reset gives zeros, TMEN and a modulo of FFH");
}

/* MOV 10H,#5; SKE 10H,#5; CALL 004; HALT; RET */
static const uint16_t program[] = {0xE905, 0x4905, 0xE004, 0x3BF8, 0x38E0};
static const pollwezen_input none = {{0}, {0}, 0};

static void steps(void) {
    pollwezen_machine r = fresh(), before;
    expect(pollwezen_step(POLLWEZEN_17132, program, 5, &r, none, 0) == POLLWEZEN_DONE && r.cells[0x10] == 5 && r.pc == 1, "MOV 10H,#5");
    expect(pollwezen_step(POLLWEZEN_17132, program, 5, &r, none, 0) == POLLWEZEN_DONE && r.skip == 1, "SKE sets the mark");
    expect(pollwezen_step(POLLWEZEN_17132, program, 5, &r, none, 0) == POLLWEZEN_DONE && r.skip == 0 && r.pc == 3, "a skipped word");
    expect(pollwezen_step(POLLWEZEN_17132, program, 5, &r, none, 0) == POLLWEZEN_DONE && r.standby == POLLWEZEN_HALT, "HALT sets the mark");
    before = r;
    before.divider++;
    expect(pollwezen_step(POLLWEZEN_17132, program, 5, &r, none, 0) == POLLWEZEN_STANDBY && same(&r, &before), "it stands by, and the timer moves");
    r.standby = POLLWEZEN_STOP;
    before = r;
    expect(pollwezen_step(POLLWEZEN_17132, program, 5, &r, none, 0) == POLLWEZEN_STANDBY && same(&r, &before), "in STOP nothing moves");
    r.standby = 0;
    before = r;
    expect(pollwezen_step(POLLWEZEN_17132, program, 5, &r, none, 0) == 7 && same(&r, &before), "RET with an empty stack");
    r.pc = 2;
    expect(pollwezen_step(POLLWEZEN_17132, program, 5, &r, none, 0) == POLLWEZEN_DONE && r.levels == 1 && r.stack[0] == 3 && r.pc == 4, "CALL");
    expect(pollwezen_step(POLLWEZEN_17132, program, 5, &r, none, 0) == POLLWEZEN_DONE && r.levels == 0 && r.stack[0] == 0 && r.pc == 3, "RET");
    r.pc = 5;
    before = r;
    expect(pollwezen_step(POLLWEZEN_17132, program, 5, &r, none, 0) == 2 && same(&r, &before), "past the last word");
}

/* Each record and input out of range is refused with 1, and the record stays. */
static void out_of_range(void) {
    for (int fault = 0; fault < 14; fault++) {
        pollwezen_machine r = fresh(), before;
        pollwezen_input in = none;
        uint8_t pulse = 0;
        switch (fault) {
        case 0: r.skip = 2; break;
        case 1: r.standby = 255; break;
        case 2: r.pc = 1024; break;
        case 3: r.levels = 6; break;
        case 4: r.stack[4] = 1; break;
        case 5: r.cells[0x74] = 1; break;
        case 6: in.pins[4] = 16; break;
        case 7: in.directions[0] = 16; break;
        case 8: in.release = 2; break;
        case 9: pulse = 2; break;
        case 10: r.standby = 3; break;
        case 11: r.registers[0] = 12; break; /* TMRES */
        case 12: r.registers[3] = 4; break;
        case 13: r.divider = 128; break;
        }
        before = r;
        pollwezen_run_reply ran;
        expect(pollwezen_step(POLLWEZEN_17132, program, 5, &r, in, pulse) == 1 && same(&r, &before), "a step out of range");
        ran = pollwezen_run(POLLWEZEN_17132, program, 5, &r, in, pulse, 3);
        expect(ran.number == 1 && ran.steps == 0 && ran.cycles == 0 && same(&r, &before), "a run out of range");
    }
    pollwezen_machine r = fresh(), before = r;
    expect(pollwezen_step(POLLWEZEN_17132, program, 0, &r, none, 0) == 1 && same(&r, &before), "a step in a ROM of no words");
    pollwezen_run_reply ran = pollwezen_run(POLLWEZEN_17132, program, 0, &r, none, 0, 3);
    expect(ran.number == 1 && ran.steps == 0 && ran.cycles == 0 && same(&r, &before), "a run in a ROM of no words");
    ran = pollwezen_run(POLLWEZEN_17132, program, 5, &r, none, 0, 65536);
    expect(ran.number == 1 && ran.steps == 0 && ran.cycles == 0 && same(&r, &before), "a budget too large");
}

static void runs(void) {
    pollwezen_machine r = fresh();
    pollwezen_run_reply ran = pollwezen_run(POLLWEZEN_17132, program, 5, &r, none, 0, 65535);
    expect(ran.steps == 4 && ran.cycles == 4 && ran.number == POLLWEZEN_DONE && r.standby == POLLWEZEN_HALT, "a run up to HALT");
    pollwezen_machine before = r;
    pollwezen_input release = none;
    release.release = 1;
    ran = pollwezen_run(POLLWEZEN_17132, program, 5, &r, release, 0, 65535);
    expect(ran.steps == 0 && ran.cycles == 0 && ran.number == 7 && same(&r, &before), "a run refused at its first step");
    r = fresh();
    expect(pollwezen_run(POLLWEZEN_17132, program, 5, &r, none, 0, 2).steps == 2 && r.pc == 2, "a run up to its budget");
}

/* MOVT DBF,@AR; SKT 10H,#0; MOVT, skipped; MOV 77H,#7; MOVT, of a word past the ROM; HALT; MOVT */
static const uint16_t tables[] = {0x3810, 0xF100, 0x3810, 0xEF77, 0x3810, 0x3BF0, 0x3810};

/* What a run reports, from reset at a PC. */
static void counts(uint16_t pc, uint32_t budget, uint32_t steps, uint32_t cycles, uint8_t number, const char *what) {
    pollwezen_machine r = fresh();
    r.pc = pc;
    pollwezen_run_reply ran = pollwezen_run(POLLWEZEN_17132, tables, 7, &r, none, 0, budget);
    expect(ran.steps == steps && ran.cycles == cycles && ran.number == number, what);
}

static void cycles(void) {
    counts(0, 0, 0, 0, POLLWEZEN_DONE, "no step takes no cycle");
    counts(0, 1, 1, 2, POLLWEZEN_DONE, "MOVT takes two cycles");
    counts(0, 2, 2, 3, POLLWEZEN_DONE, "the budget counts steps");
    counts(1, 2, 2, 2, POLLWEZEN_DONE, "a skipped MOVT takes one cycle");
    counts(0, 65535, 4, 5, 8, "a refused run reports the cycles of its completed steps");
    counts(4, 65535, 2, 3, POLLWEZEN_DONE, "HALT takes one cycle");
    counts(6, 65535, 1, 2, 2, "a MOVT in the last word");
    static uint16_t all[POLLWEZEN_WORDS];
    for (unsigned i = 0; i < POLLWEZEN_WORDS; i++) {
        all[i] = 0x3810;
    }
    pollwezen_machine r = fresh();
    pollwezen_run_reply ran = pollwezen_run(POLLWEZEN_17132, all, POLLWEZEN_WORDS, &r, none, 0, 65535);
    expect(ran.steps == 65535 && ran.cycles == 131070 && ran.number == POLLWEZEN_DONE, "the most cycles of a run");
}

/* Ports: 6FH is P0E, 70H to 73H are P0A to P0D. LD 0,7xH reads the pin where the direction is 0, and the direction is the control
 * register's: 35H, 24H for all of P0B, 34H, 33H, 32H. */
static void ports(void) {
    static const unsigned place[5] = {6, 2, 5, 4, 3}, outputs[5] = {15, 1, 15, 15, 3};
    for (unsigned port = 0; port < 5; port++) {
        uint16_t at = port == 4 ? 0x6F : (uint16_t)(0x70 + port);
        uint16_t word = (uint16_t)(0x4000 | at << 4);
        pollwezen_machine r = fresh();
        pollwezen_input in = none;
        in.pins[port] = 3;
        expect(pollwezen_step(POLLWEZEN_17132, &word, 1, &r, in, 0) == POLLWEZEN_DONE && r.cells[0] == 3, "a pin");
        in.directions[port] = 15;
        r.pc = 0;
        expect(pollwezen_step(POLLWEZEN_17132, &word, 1, &r, in, 0) == POLLWEZEN_DONE && r.cells[0] == 3, "the input record's direction is not read");
        r.registers[place[port]] = (uint8_t)outputs[port];
        r.pc = 0;
        expect(pollwezen_step(POLLWEZEN_17132, &word, 1, &r, in, 0) == POLLWEZEN_DONE && r.cells[0] == 0, "a stored bit");
    }
}

static void verdicts(void) {
    static const uint16_t rom[] = {0xE003, 0x6000, 0x38F0, 0x38E0}, skipping[] = {0xE003, 0x6000, 0x38F0, 0x39E0};
    static const uint8_t sheet[] = {0, 0, 0, 0, 15, 15, 1, 1};
    pollwezen_verdict_reply c = pollwezen_verify(POLLWEZEN_17132, rom, 4, sheet, 8);
    expect(c.number == POLLWEZEN_DONE && c.word == 0 && c.rule == 0, "a sheet that passes");
    c = pollwezen_verify(POLLWEZEN_17132, skipping, 4, sheet, 8);
    expect(c.number == POLLWEZEN_FAIL && c.word == 0 && c.rule == 5, "a sheet that fails");
    static const uint8_t level[] = {0, 0, 15, 15, 0, 0};
    c = pollwezen_verify(POLLWEZEN_17132, rom + 1, 3, level, 6);
    expect(c.number == POLLWEZEN_FAIL && c.word == 2 && c.rule == 6, "a RET at level 0");
    for (size_t bytes = 0; bytes < 8; bytes++) {
        c = pollwezen_verify(POLLWEZEN_17132, rom, 4, sheet, bytes);
        expect(c.number == 9 && c.word == 0 && c.rule == 0, "a sheet of another length");
    }
    static const uint8_t wide[] = {0, 0, 0, 0, 15, 15, 1, 5}, half[] = {0, 0, 0, 0, 15, 0, 1, 1}, first[] = {0, 15, 0, 0, 15, 15, 1, 1};
    expect(pollwezen_verify(POLLWEZEN_17132, rom, 4, wide, 8).number == POLLWEZEN_DONE, "a range that passes");
    c = pollwezen_verify(POLLWEZEN_17132, rom, 4, half, 8);
    expect(c.number == POLLWEZEN_FAIL && c.word == 2 && c.rule == 2, "15 for one half breaks rule 2");
    c = pollwezen_verify(POLLWEZEN_17132, rom, 4, first, 8);
    expect(c.number == POLLWEZEN_FAIL && c.word == 0 && c.rule == 1, "and at word 0 rule 1");
    expect(pollwezen_verify(POLLWEZEN_17132, rom, 0, sheet, 0).number == 1, "a ROM of no words");
}

int main(void) {
    layout();
    reset();
    steps();
    out_of_range();
    runs();
    cycles();
    ports();
    timers();
    models();
    verdicts();
    codes();
    row_names();
    files();
    sizes();
    records();
    nulls();
    stack_needs();
    printf("header: %d failed\n", failed);
    return failed != 0;
}
