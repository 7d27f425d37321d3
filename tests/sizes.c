/* The sizes that the header names: for the largest station a buffer of that size suffices, and one place less does not. */
#include "header.h"

#include <string.h>

/* Document 01, "Station file": the most words, entries and input records. */
enum { WORDS = 1024, RECORDS = 4095, RECORD = 11 };

/* The longest text. It has a line for each of 4,095 records, and so no refusal: a refused record has none. A line has its
 * record's number and 18 bytes, as in " 000 6000 000 0 0\n"; the numbers 1 to 4,095 have 9 * 1 + 90 * 2 + 900 * 3 + 3,096 * 4
 * digits. The first line is longest with FAIL and the last with four digits of steps and of cycles, at most 8,190, whatever
 * the rule and the refusal, each one digit. A bad file has 8 bytes. */
static const char first[] = "SHEET FAIL 000 1\n", last[] = "\n4095 000 6000 000 0 0\nEND 4095 4095 0\n";
enum { LONGEST = 17 + 15273 + 4095 * 18 + 16 };

/* Room for one word, entry or record too many. */
static uint16_t rom[WORDS + 1];
static uint8_t sheet[2 * (WORDS + 1)], inputs[RECORD * (RECORDS + 1)];

static uint16_t rom_read[POLLWEZEN_WORDS];
static uint8_t sheet_read[POLLWEZEN_SHEET_BYTES], inputs_read[POLLWEZEN_INPUT_BYTES], file[POLLWEZEN_FILE_BYTES];
static uint8_t longest[LONGEST], text[POLLWEZEN_TEXT_BYTES];

/* Each word is a BR to itself, so every record completes a step; word 0 at level 1 and more breaks rule 1. Levels 1 to 2 are no
 * single level, so the file has form 2. */
static void fill(void) {
    for (unsigned i = 0; i <= WORDS; i++) {
        rom[i] = (uint16_t)(0x6000 + i);
        sheet[2 * i] = 1;
        sheet[2 * i + 1] = 2;
    }
    for (unsigned i = 0; i < sizeof inputs; i++) {
        inputs[i] = i % 2;
    }
}

static uint8_t written(size_t words, size_t records, size_t room) {
    return pollwezen_write(rom, words, sheet, 2 * words, inputs, RECORD * records, file, room).number;
}

static void writes(void) {
    expect(written(WORDS + 1, RECORDS, sizeof file) == 22, "1,025 words are too many");
    expect(written(WORDS, RECORDS + 1, sizeof file) == 22, "4,096 records are too many");
    expect(written(WORDS, RECORDS, POLLWEZEN_FILE_BYTES - 1) == 25, "a byte less than POLLWEZEN_FILE_BYTES");
    pollwezen_output_reply o = pollwezen_write(rom, WORDS, sheet, 2 * WORDS, inputs, RECORD * RECORDS, file, POLLWEZEN_FILE_BYTES);
    expect(o.number == POLLWEZEN_DONE && o.length == POLLWEZEN_FILE_BYTES, "POLLWEZEN_FILE_BYTES");
}

static pollwezen_read_reply into(size_t words, size_t sheet_bytes, size_t bytes) {
    return pollwezen_read(file, sizeof file, rom_read, words, sheet_read, sheet_bytes, inputs_read, bytes);
}

static void reads(void) {
    const size_t words = POLLWEZEN_WORDS, halves = POLLWEZEN_SHEET_BYTES, bytes = POLLWEZEN_INPUT_BYTES;
    expect(into(words - 1, halves, bytes).number == 25, "a word less than POLLWEZEN_WORDS");
    expect(into(words, halves - 1, bytes).number == 25, "a byte less than POLLWEZEN_SHEET_BYTES");
    expect(into(words, halves, bytes - 1).number == 25, "a byte less than POLLWEZEN_INPUT_BYTES");
    pollwezen_read_reply c = into(words, halves, bytes);
    expect(c.number == POLLWEZEN_DONE && c.words == WORDS && c.entries == WORDS && c.records == RECORDS, "the largest station");
    expect(c.words == words && memcmp(rom, rom_read, sizeof rom_read) == 0, "its words");
    expect(2 * c.entries == halves && memcmp(sheet, sheet_read, sizeof sheet_read) == 0, "its entries");
    expect(RECORD * c.records == bytes && memcmp(inputs, inputs_read, sizeof inputs_read) == 0, "its inputs");
}

static void texts(void) {
    expect(pollwezen_transcript(file, sizeof file, longest, LONGEST - 1).number == 25, "a byte less than the longest text");
    pollwezen_output_reply o = pollwezen_transcript(file, sizeof file, longest, LONGEST);
    expect(o.number == POLLWEZEN_DONE && o.length == LONGEST && LONGEST == 89016, "the longest text has 89,016 bytes");
    expect(memcmp(longest, first, sizeof first - 1) == 0, "its first line");
    expect(memcmp(longest + LONGEST - (sizeof last - 1), last, sizeof last - 1) == 0, "its last two lines");
    o = pollwezen_transcript(file, sizeof file, text, POLLWEZEN_TEXT_BYTES);
    expect(o.number == POLLWEZEN_DONE && o.length == LONGEST, "POLLWEZEN_TEXT_BYTES are enough");
    expect(POLLWEZEN_TEXT_BYTES == 100000, "POLLWEZEN_TEXT_BYTES is the bound in the contract of pollwezen_transcript");
}

void sizes(void) {
    fill();
    writes();
    reads();
    texts();
}
