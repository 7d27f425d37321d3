/* The entries for the station file and its text, with good and bad input. */
#include "header.h"

#include <string.h>

#define UNTOUCHED 0x5A

/* Document 01's example: two words, a sheet, two input records. */
static const uint8_t example[] = {0, 1, 0, 2, 0xE8, 0x05, 0x60, 0x01, 0, 2, 0, 0, 0, 2,
                                  0, 0, 0, 0, 0, 0, 0, 0, 0, 0, 0,
                                  0, 0, 0, 0, 0, 0, 0, 0, 0, 0, 0};
/* The same two words with form 2, both at levels 0 to 5, and no input; and with form 2 where form 1 would do, and without a sheet. */
static const uint8_t ranges[] = {0, 2, 0, 2, 0xE8, 0x05, 0x60, 0x01, 0, 2, 0, 5, 0, 5, 0, 0};
static const uint8_t equal[] = {0, 2, 0, 2, 0xE8, 0x05, 0x60, 0x01, 0, 2, 0, 0, 15, 15, 0, 0};
static const uint8_t lower[] = {0, 1, 0, 2, 0xE8, 0x05, 0x60, 0x01, 0, 2, 0, 15, 0, 0};
static const uint8_t bare[] = {0, 2, 0, 2, 0xE8, 0x05, 0x60, 0x01, 0, 0, 0, 0};
static const char text[] = "SHEET PASS\n1 000 E805 001 0 0\n2 001 6001 001 0 0\nEND 2 2 0\n";

static uint16_t rom[POLLWEZEN_WORDS];
static uint8_t sheet[POLLWEZEN_SHEET_BYTES], inputs[POLLWEZEN_INPUT_BYTES], out[POLLWEZEN_TEXT_BYTES];

static void clear(void) {
    memset(rom, UNTOUCHED, sizeof rom);
    memset(sheet, UNTOUCHED, sizeof sheet);
    memset(inputs, UNTOUCHED, sizeof inputs);
    memset(out, UNTOUCHED, sizeof out);
}

static int untouched(const void *from, size_t bytes) {
    const uint8_t *at = from;
    for (size_t i = 0; i < bytes; i++) {
        if (at[i] != UNTOUCHED) {
            return 0;
        }
    }
    return 1;
}

static pollwezen_read_reply read_into(const uint8_t *file, size_t bytes, size_t words, size_t sheet_bytes, size_t input_bytes) {
    clear();
    return pollwezen_read(file, bytes, rom, words, sheet, sheet_bytes, inputs, input_bytes);
}

static pollwezen_read_reply read_all(const uint8_t *file, size_t bytes) {
    return read_into(file, bytes, POLLWEZEN_WORDS, POLLWEZEN_SHEET_BYTES, POLLWEZEN_INPUT_BYTES);
}

/* A refused file: its number, zeros, and nothing written. */
static void none(pollwezen_read_reply c, uint8_t number, const char *what) {
    expect(c.number == number && c.words == 0 && c.entries == 0 && c.records == 0, what);
    expect(untouched(rom, sizeof rom) && untouched(sheet, sizeof sheet) && untouched(inputs, sizeof inputs), what);
}

static void reads(void) {
    pollwezen_read_reply c = read_into(example, sizeof example, 2, 4, 22);
    expect(c.number == POLLWEZEN_DONE && c.words == 2 && c.entries == 2 && c.records == 2, "the example is read");
    expect(rom[0] == 0xE805 && rom[1] == 0x6001 && untouched(rom + 2, sizeof rom - 4), "its words");
    expect(memcmp(sheet, "\0\0\0\0", 4) == 0 && untouched(sheet + 4, sizeof sheet - 4), "its sheet");
    expect(inputs[0] == 0 && inputs[21] == 0 && untouched(inputs + 22, sizeof inputs - 22), "its inputs");

    uint8_t bad[sizeof example + 1];
    memcpy(bad, example, sizeof example);
    bad[sizeof example] = 0;
    none(read_all(bad, sizeof bad), 24, "a byte after the end is 24");
    none(read_all(bad, 0), 21, "no byte is 21");
    none(read_all(bad, sizeof example - 1), 21, "an early end is 21");
    bad[sizeof example - 1] = 2;
    none(read_all(bad, sizeof example), 23, "a release of 2 is 23");
    bad[9] = 1;
    none(read_all(bad, sizeof example), 22, "a sheet of another count is 22");
    bad[1] = 3;
    none(read_all(bad, sizeof example), 20, "form 3 is 20");
    none(read_into(example, sizeof example, 1, 4, 22), 25, "room for one word is 25");
    none(read_into(example, sizeof example, 2, 3, 22), 25, "room for one entry and a half is 25");
    none(read_into(example, sizeof example, 2, 4, 21), 25, "room for 21 input bytes is 25");
}

/* Form 2, and what is no range. */
static void reads_ranges(void) {
    pollwezen_read_reply c = read_into(ranges, sizeof ranges, 2, 4, 0);
    expect(c.number == POLLWEZEN_DONE && c.words == 2 && c.entries == 2 && c.records == 0, "form 2 is read");
    expect(memcmp(sheet, ranges + 10, 4) == 0 && untouched(sheet + 4, sizeof sheet - 4), "its ranges");
    none(read_into(ranges, sizeof ranges, 2, 3, 0), 25, "room for one range and a half is 25");
    uint8_t bad[sizeof ranges];
    memcpy(bad, ranges, sizeof ranges);
    bad[10] = 5, bad[11] = 4;
    none(read_all(bad, sizeof bad), 23, "a lowest above the highest is 23");
    bad[10] = 0, bad[11] = 15;
    none(read_all(bad, sizeof bad), 23, "15 for one half is 23");
    none(read_all(bad, 11), 21, "an entry cut after a good half is 21");
    bad[10] = 6;
    none(read_all(bad, 11), 23, "an entry cut after a bad half is 23");
}

static void widens(void) {
    static const uint8_t levels[] = {0, 15, 200}, both[] = {0, 0, 15, 15, 200, 200};
    clear();
    pollwezen_output_reply o = pollwezen_widen(levels, 3, out, 5);
    expect(o.number == 25 && o.length == 0 && untouched(out, sizeof out), "room for five bytes is 25");
    o = pollwezen_widen(levels, 3, out, 6);
    expect(o.number == POLLWEZEN_DONE && o.length == 6 && memcmp(out, both, 6) == 0, "any bytes are widened");
    expect(untouched(out + 6, sizeof out - 6), "no byte after them");
}

static void writes(void) {
    static const uint16_t words[] = {0xE805, 0x6001};
    static const uint8_t levels[] = {0, 0, 0, 0}, wrong[] = {0, 0, 0, 6}, records[22] = {0};
    clear();
    pollwezen_output_reply o = pollwezen_write(words, 2, levels, 4, records, 22, out, sizeof example);
    expect(o.number == POLLWEZEN_DONE && o.length == sizeof example, "the example is written");
    expect(memcmp(out, example, sizeof example) == 0, "its bytes");
    expect(untouched(out + sizeof example, sizeof out - sizeof example), "no byte after them");
    clear();
    o = pollwezen_write(words, 2, levels, 4, records, 22, out, sizeof example - 1);
    expect(o.number == 25 && o.length == 0 && untouched(out, sizeof out), "room for one byte less is 25");
    o = pollwezen_write(words, 0, levels, 4, records, 22, out, sizeof out);
    expect(o.number == 22 && o.length == 0 && untouched(out, sizeof out), "no words is 22");
    o = pollwezen_write(words, 2, wrong, 4, records, 22, out, sizeof out);
    expect(o.number == 23 && o.length == 0 && untouched(out, sizeof out), "a level of 6 is 23");
    o = pollwezen_write(words, 2, levels, 4, records, 21, out, sizeof out);
    expect(o.number == 22 && o.length == 0 && untouched(out, sizeof out), "a part of a record is 22");
    o = pollwezen_write(words, 2, levels, 2, records, 22, out, sizeof out);
    expect(o.number == 22 && o.length == 0 && untouched(out, sizeof out), "one byte an entry is 22");
    o = pollwezen_write(words, 2, ranges + 10, 4, NULL, 0, out, sizeof out);
    expect(o.number == POLLWEZEN_DONE && o.length == sizeof ranges && memcmp(out, ranges, sizeof ranges) == 0, "form 2 is written");
    pollwezen_read_reply c = read_all(equal, sizeof equal);
    expect(c.number == POLLWEZEN_DONE && c.entries == 2 && memcmp(sheet, equal + 10, 4) == 0, "form 2 where form 1 would do is read");
    o = pollwezen_write(rom, c.words, sheet, 2 * c.entries, inputs, 11 * c.records, out, sizeof out);
    expect(o.length == sizeof lower && memcmp(out, lower, sizeof lower) == 0, "and written as form 1");
    c = read_all(bare, sizeof bare);
    expect(c.number == POLLWEZEN_DONE && c.words == 2 && c.entries == 0 && c.records == 0, "form 2 without a sheet");
}

static void transcripts(void) {
    size_t length = sizeof text - 1;
    clear();
    pollwezen_output_reply o = pollwezen_transcript(example, sizeof example, out, length);
    expect(o.number == POLLWEZEN_DONE && o.length == length && memcmp(out, text, length) == 0, "the example's text");
    expect(untouched(out + length, sizeof out - length), "no byte after it");
    clear();
    o = pollwezen_transcript(example, sizeof example, out, length - 1);
    expect(o.number == 25 && o.length == 0 && untouched(out, sizeof out), "room for one byte less is 25");
    o = pollwezen_transcript(example, 1, out, sizeof out);
    expect(o.number == POLLWEZEN_DONE && o.length == 8 && memcmp(out, "FILE 21\n", 8) == 0, "a bad file has a text");
}

void files(void) {
    reads();
    reads_ranges();
    widens();
    writes();
    transcripts();
}
