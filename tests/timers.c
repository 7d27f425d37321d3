/* The timer and the register file: what the header says of the pulse, of HALT and STOP, and of refusal 30. */
#include "header.h"

static const pollwezen_input none = {{0}, {0}, 0};

/* MOV 0FH,#1; MOV 0EH,#0; PUT 03H,DBF; MOV 78H,#D; POKE 11H,WR; GET DBF,02H; BR 005: the counter runs with fx/32 and modulo 1. */
static const uint16_t polled[] = {0xE8F1, 0xE8E0, 0x38A3, 0xEF8D, 0x3921, 0x38B2, 0x6005};

static void poll(void) {
    static const uint8_t found[] = {0, 1, 0, 1};
    pollwezen_machine r = fresh();
    expect(pollwezen_run(POLLWEZEN_17132, polled, 7, &r, none, 0, 5).steps == 5 && r.modulo == 1 && r.registers[0] == 9, "PUT and POKE set the timer");
    for (unsigned k = 0; k < 4; k++) {
        expect(pollwezen_step(POLLWEZEN_17132, polled, 7, &r, none, 0) == POLLWEZEN_DONE && r.cells[0x0F] == found[k] && r.cells[0x0E] == 0,
               "GET reads the counter");
        expect(pollwezen_step(POLLWEZEN_17132, polled, 7, &r, none, 0) == POLLWEZEN_DONE, "BR");
    }
}

/* NOP; BR 000. */
static const uint16_t idle[] = {0x3CF0, 0x6000};

static void pulses(void) {
    pollwezen_machine r = fresh();
    expect(pollwezen_run(POLLWEZEN_17132, idle, 2, &r, none, 1, 16).steps == 16 && r.counter == 1, "with fx/256 the pulse bit is not counted");
    r = fresh();
    r.registers[0] = 11; /* TMEN and TMCK 11 */
    expect(pollwezen_run(POLLWEZEN_17132, idle, 2, &r, none, 1, 16).steps == 16 && r.counter == 16, "with the INT clock each step has its pulse");
    expect(pollwezen_run(POLLWEZEN_17132, idle, 2, &r, none, 0, 16).steps == 16 && r.counter == 16, "without a pulse it stays");
    expect(r.divider == 32, "and the divider runs");
}

/* A run that begins in standby at release 0 reports nothing; in HALT it moves the timer, unless its budget is 0. */
static void standing(void) {
    static const struct {
        uint8_t standby;
        uint32_t budget;
        uint8_t moved;
    } runs[] = {{POLLWEZEN_HALT, 0, 0}, {POLLWEZEN_HALT, 1, 1}, {POLLWEZEN_HALT, 65535, 1}, {POLLWEZEN_STOP, 65535, 0}};
    for (unsigned k = 0; k < 4; k++) {
        pollwezen_machine r = fresh(), before;
        r.standby = runs[k].standby;
        before = r;
        before.divider = runs[k].moved;
        pollwezen_run_reply ran = pollwezen_run(POLLWEZEN_17132, idle, 2, &r, none, 0, runs[k].budget);
        expect(ran.number == POLLWEZEN_DONE && ran.steps == 0 && ran.cycles == 0 && same(&r, &before), "a run that begins in standby");
    }
}

/* PEEK of 00H, POKE of 23H, GET of 03H and of AR, PUT to 02H. */
static void refused(void) {
    static const uint16_t words[] = {0x3830, 0x3A23, 0x38B3, 0x3CB0, 0x38A2};
    for (unsigned k = 0; k < 5; k++) {
        pollwezen_machine r = fresh(), before = r;
        expect(pollwezen_step(POLLWEZEN_17132, &words[k], 1, &r, none, 0) == 30 && same(&r, &before), "no such register or peripheral");
        r.skip = 1;
        expect(pollwezen_step(POLLWEZEN_17132, &words[k], 1, &r, none, 0) == POLLWEZEN_DONE, "a skipped word is not looked at");
    }
}

void timers(void) {
    poll();
    pulses();
    standing();
    refused();
}
