/* How much stack each entry needs, with every word and with the largest station. The entry runs on a stack of its own that was
 * painted before, and the paint that is gone tells; so the frame of its caller here counts too. The work of the linker at a
 * first call does not: each has been called before on the usual stack. */
#define _XOPEN_SOURCE 700
#include "header.h"

#include <stdio.h>
#include <string.h>
#include <ucontext.h>

/* As the header says. */
enum { MOST = 1200, MOST_OF_TRANSCRIPT = 51000 };

enum { ROOM = 1 << 18, PAINT = 0xA5 };
static _Alignas(16) unsigned char painted[ROOM];
static ucontext_t usual, own;

static size_t used_by(void (*call)(void)) {
    call();
    memset(painted, PAINT, sizeof painted);
    getcontext(&own);
    own.uc_stack.ss_sp = painted;
    own.uc_stack.ss_size = sizeof painted;
    own.uc_link = &usual;
    makecontext(&own, call, 0);
    swapcontext(&usual, &own);
    size_t left = 0;
    while (left < sizeof painted && painted[left] == PAINT) {
        left++;
    }
    return sizeof painted - left;
}

static void need(const char *name, void (*call)(void), size_t most) {
    size_t bytes = used_by(call);
    printf("header: %s: %zu bytes of stack\n", name, bytes);
    expect(bytes <= most, name);
}

/* The largest station: BR 000 everywhere, at level 0 or 1, so that its file has form 2. */
static uint16_t rom[POLLWEZEN_WORDS];
static uint8_t sheet[POLLWEZEN_SHEET_BYTES], inputs[POLLWEZEN_INPUT_BYTES], file[POLLWEZEN_FILE_BYTES], text[POLLWEZEN_TEXT_BYTES];

/* Two open levels; then also CY, Z, IXE, MPE and BCD set. */
static pollwezen_machine states[2], machine;
static const pollwezen_input none = {{0}, {0}, 0};

/* Other than 0 where the largest station was refused somewhere. */
static uint8_t refused;

static void prepare(void) {
    for (unsigned i = 0; i < POLLWEZEN_WORDS; i++) {
        rom[i] = 0x6000;
        sheet[2 * i + 1] = 1;
    }
    states[0] = fresh();
    states[0].levels = 2;
    states[1] = states[0];
    states[1].cells[0x7A] = 8;
    states[1].cells[0x7E] = 1;
    states[1].cells[0x7F] = 7;
}

static void of_reset(void) {
    pollwezen_reset(POLLWEZEN_17132, &machine);
    pollwezen_reset(POLLWEZEN_17120, &machine);
}

static void of_step(void) {
    static uint16_t word;
    for (unsigned i = 0; i < 2 * 65536; i++) {
        word = (uint16_t)i;
        machine = states[i >> 16];
        pollwezen_step(POLLWEZEN_17132, &word, 1, &machine, none, 0);
        machine = states[i >> 16];
        pollwezen_step(POLLWEZEN_17120, &word, 1, &machine, none, 0);
    }
}

static void of_run(void) {
    static uint16_t word;
    for (unsigned i = 0; i < 2 * 65536; i++) {
        word = (uint16_t)i;
        machine = states[i >> 16];
        pollwezen_run(POLLWEZEN_17132, &word, 1, &machine, none, 0, 2);
        machine = states[i >> 16];
        pollwezen_run(POLLWEZEN_17120, &word, 1, &machine, none, 0, 2);
    }
}

static void of_verify(void) {
    refused |= pollwezen_verify(POLLWEZEN_17132, rom, POLLWEZEN_WORDS, sheet, sizeof sheet).number;
    for (unsigned i = 0; i < 65536; i++) {
        uint16_t word = (uint16_t)i;
        pollwezen_verify(POLLWEZEN_17132, &word, 1, sheet, 2);
    }
}

static void of_decode(void) {
    for (unsigned i = 0; i < 65536; i++) {
        pollwezen_decode((uint16_t)i);
    }
}

static void of_encode(void) {
    for (unsigned i = 0; i < 65536; i++) {
        pollwezen_decoded_row d = pollwezen_decode((uint16_t)i);
        pollwezen_encode(d.row, d.first, d.second, d.addr);
    }
}

static void of_widen(void) {
    static uint8_t wide[POLLWEZEN_SHEET_BYTES];
    refused |= pollwezen_widen(sheet, POLLWEZEN_WORDS, wide, sizeof wide).number;
}

static void of_write(void) {
    refused |= pollwezen_write(rom, POLLWEZEN_WORDS, sheet, sizeof sheet, inputs, sizeof inputs, file, sizeof file).number;
}

static void of_read(void) {
    refused |= pollwezen_read(file, sizeof file, rom, POLLWEZEN_WORDS, sheet, sizeof sheet, inputs, sizeof inputs).number;
}

/* The largest file, and for each word a file that sets BCD, with MOV 7EH,#1, and then has that word. */
static void of_transcript(void) {
    static uint8_t small[14 + 22] = {0, 1, 0, 2, 0xEF, 0xE1, 0, 0, 0, 2, 0, 0, 0, 2};
    refused |= pollwezen_transcript(file, sizeof file, text, sizeof text).number;
    refused |= pollwezen_transcript(file, sizeof file, text, sizeof text - 1).number;
    for (unsigned i = 0; i < 65536; i++) {
        small[6] = (uint8_t)(i >> 8);
        small[7] = (uint8_t)i;
        pollwezen_transcript(small, sizeof small, text, sizeof text);
    }
}

/* The measure itself: a function that needs some more than 4,096 bytes. */
static void known(void) {
    volatile unsigned char local[4096];
    for (unsigned i = 0; i < sizeof local; i++) {
        local[i] = 0;
    }
}

void stack_needs(void) {
    size_t bytes = used_by(known);
    expect(bytes >= 4096 && bytes <= 4096 + MOST, "the measure of a stack");
    prepare();
    need("pollwezen_reset", of_reset, MOST);
    need("pollwezen_step", of_step, MOST);
    need("pollwezen_run", of_run, MOST);
    need("pollwezen_verify", of_verify, MOST);
    need("pollwezen_decode", of_decode, MOST);
    need("pollwezen_encode", of_encode, MOST);
    need("pollwezen_widen", of_widen, MOST);
    need("pollwezen_write", of_write, MOST);
    need("pollwezen_read", of_read, MOST);
    need("pollwezen_transcript", of_transcript, MOST_OF_TRANSCRIPT);
    expect(refused == 0, "the largest station on a painted stack");
}
