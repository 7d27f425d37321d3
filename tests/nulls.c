/* NULL where the length is 0, at each pointer that has a length: the entry answers as for any other pointer. */
#include "header.h"

#include <string.h>

/* One BR 000 with no sheet and no input; the same with a sheet and an input. */
static const uint8_t bare[] = {0, 1, 0, 1, 0x60, 0x00, 0, 0, 0, 0};
static const uint8_t full[] = {0, 1, 0, 1, 0x60, 0x00, 0, 1, 0, 0, 1, 0, 0, 0, 0, 0, 0, 0, 0, 0, 0, 0};
static const uint16_t rom[] = {0x6000};
static const uint8_t sheet[] = {0, 0}, inputs[11] = {0};

static void machines(void) {
    static const pollwezen_input none = {{0}, {0}, 0};
    pollwezen_machine r = fresh(), before = r;
    expect(pollwezen_step(POLLWEZEN_17132, NULL, 0, &r, none, 0) == 1 && same(&r, &before), "a step with a NULL ROM");
    pollwezen_run_reply ran = pollwezen_run(POLLWEZEN_17132, NULL, 0, &r, none, 0, 3);
    expect(ran.number == 1 && ran.steps == 0 && ran.cycles == 0 && same(&r, &before), "a run with a NULL ROM");
    expect(pollwezen_verify(POLLWEZEN_17132, NULL, 0, NULL, 0).number == 1, "the check with NULL for both");
    expect(pollwezen_verify(POLLWEZEN_17132, NULL, 0, sheet, 2).number == 1, "the check with a NULL ROM");
    expect(pollwezen_verify(POLLWEZEN_17132, rom, 1, NULL, 0).number == 9, "the check with a NULL sheet");
}

static void reads(void) {
    uint16_t words[1];
    uint8_t entries[2], bytes[11];
    expect(pollwezen_read(NULL, 0, NULL, 0, NULL, 0, NULL, 0).number == 21, "a NULL file into NULL");
    expect(pollwezen_read(NULL, 0, words, 1, entries, 2, bytes, 11).number == 21, "a NULL file");
    expect(pollwezen_read(full, sizeof full, NULL, 0, entries, 2, bytes, 11).number == 25, "words into NULL");
    expect(pollwezen_read(full, sizeof full, words, 1, NULL, 0, bytes, 11).number == 25, "entries into NULL");
    expect(pollwezen_read(full, sizeof full, words, 1, entries, 2, NULL, 0).number == 25, "inputs into NULL");
    pollwezen_read_reply c = pollwezen_read(bare, sizeof bare, words, 1, NULL, 0, NULL, 0);
    expect(c.number == POLLWEZEN_DONE && c.words == 1 && c.entries == 0 && c.records == 0 && words[0] == 0x6000,
           "no entries and no inputs into NULL");
}

static void writes(void) {
    uint8_t out[sizeof full];
    expect(pollwezen_write(NULL, 0, NULL, 0, NULL, 0, NULL, 0).number == 22, "NULL written into NULL");
    expect(pollwezen_write(NULL, 0, sheet, 2, inputs, 11, out, sizeof out).number == 22, "NULL words");
    expect(pollwezen_write(rom, 1, sheet, 2, inputs, 11, NULL, 0).number == 25, "a station written into NULL");
    pollwezen_output_reply o = pollwezen_write(rom, 1, NULL, 0, NULL, 0, out, sizeof bare);
    expect(o.number == POLLWEZEN_DONE && o.length == sizeof bare && memcmp(out, bare, sizeof bare) == 0,
           "a NULL sheet and NULL inputs");
}

static void widens(void) {
    pollwezen_output_reply o = pollwezen_widen(NULL, 0, NULL, 0);
    expect(o.number == POLLWEZEN_DONE && o.length == 0, "no level into NULL");
    expect(pollwezen_widen(sheet, 1, NULL, 0).number == 25, "a level into NULL");
}

static void transcripts(void) {
    uint8_t out[8];
    expect(pollwezen_transcript(NULL, 0, NULL, 0).number == 25, "the text of a NULL file into NULL");
    expect(pollwezen_transcript(full, sizeof full, NULL, 0).number == 25, "a text into NULL");
    pollwezen_output_reply o = pollwezen_transcript(NULL, 0, out, sizeof out);
    expect(o.number == POLLWEZEN_DONE && o.length == 8 && memcmp(out, "FILE 21\n", 8) == 0, "the text of a NULL file");
}

void nulls(void) {
    machines();
    reads();
    writes();
    widens();
    transcripts();
}
