/* The models: document 02, E1, through the header. */
#include "header.h"

#include <string.h>

static const pollwezen_input none = {{0}, {0}, 0};

/* ADD 3FH,#1; ADD 40H,#1; BR 0 */
static const uint16_t reaching[] = {0x83F1, 0x8401, 0x6000};

/* A missing cell is refused on the 17120 and no other, and the record stays. */
static void missing(void) {
    pollwezen_machine r = fresh(), before;
    expect(pollwezen_step(POLLWEZEN_17120, reaching, 3, &r, none, 0) == POLLWEZEN_DONE && r.cells[0x3F] == 1, "3FH is installed");
    before = r;
    expect(pollwezen_step(POLLWEZEN_17120, reaching, 3, &r, none, 0) == 31 && same(&r, &before), "40H is not");
    expect(pollwezen_step(POLLWEZEN_17132, reaching, 3, &r, none, 0) == POLLWEZEN_DONE && r.cells[0x40] == 1, "on the 17132 it is");
    r = fresh();
    pollwezen_run_reply ran = pollwezen_run(POLLWEZEN_17120, reaching, 3, &r, none, 0, 10);
    expect(ran.number == 31 && ran.steps == 1 && ran.cycles == 1 && same(&r, &before), "a refused run keeps its completed steps");
    before.cells[0x6E] = r.cells[0x6E] = 1;
    expect(pollwezen_step(POLLWEZEN_17120, reaching, 3, &r, none, 0) == 1 && same(&r, &before), "a missing cell that is not 0");
    r.cells[0x6E] = 0;
    r.cells[0x6F] = 1;
    expect(pollwezen_step(POLLWEZEN_17120, reaching, 3, &r, none, 0) == 31, "6FH is installed");
}

/* 768 words at most; a PC from 768 on is in range, and past the ROM. */
static void words(void) {
    static uint16_t rom[769];
    static uint8_t sheet[2 * 769];
    for (unsigned i = 0; i < 769; i++) {
        rom[i] = 0x6000;
    }
    pollwezen_machine r = fresh(), before = r;
    expect(pollwezen_step(POLLWEZEN_17120, rom, 769, &r, none, 0) == 1 && same(&r, &before), "769 words");
    expect(pollwezen_verify(POLLWEZEN_17120, rom, 769, sheet, 2 * 769).number == 1, "the check of 769 words");
    expect(pollwezen_verify(POLLWEZEN_17120, rom, 768, sheet, 2 * 768).number == POLLWEZEN_DONE, "the check of 768 words");
    expect(pollwezen_verify(POLLWEZEN_17132, rom, 769, sheet, 2 * 769).number == POLLWEZEN_DONE, "769 words on the 17132");
    r.pc = 768;
    expect(pollwezen_step(POLLWEZEN_17120, rom, 768, &r, none, 0) == 2, "PC 768");
    r.pc = 1024;
    expect(pollwezen_step(POLLWEZEN_17120, rom, 768, &r, none, 0) == 1, "PC 1,024");
}

/* A number that is no model's. */
static void no_model(void) {
    static const uint8_t sheet[6] = {0};
    for (unsigned number = 2; number < 256; number++) {
        pollwezen_machine r = fresh(), before;
        r.cells[0] = 200; /* out of range: nothing looks at it */
        before = r;
        expect(pollwezen_reset((uint8_t)number, &r) == 1 && same(&r, &before), "reset of no model");
        expect(pollwezen_step((uint8_t)number, reaching, 3, &r, none, 0) == 1 && same(&r, &before), "a step of no model");
        pollwezen_run_reply ran = pollwezen_run((uint8_t)number, reaching, 3, &r, none, 0, 3);
        expect(ran.number == 1 && ran.steps == 0 && ran.cycles == 0 && same(&r, &before), "a run of no model");
        pollwezen_verdict_reply c = pollwezen_verify((uint8_t)number, reaching, 3, sheet, 6);
        expect(c.number == 1 && c.word == 0 && c.rule == 0, "the check of no model");
    }
    pollwezen_machine r = fresh(), other;
    memset(&other, 0xA5, sizeof other);
    expect(pollwezen_reset(POLLWEZEN_17120, &other) == POLLWEZEN_DONE && same(&r, &other), "reset is the same on both");
}

void models(void) {
    missing();
    words();
    no_model();
}
