/* The eleven bytes of a record in a file are a pollwezen_input as they are: a step takes them as it takes the same numbers put
 * field by field. */
#include "header.h"

#include <string.h>

/* Any word, no sheet, and two records: pins P0A to P0E, directions, release. */
static const uint8_t file[] = {0, 1, 0, 1, 0x60, 0x00, 0, 0, 0, 2,
                               1, 2, 12, 8, 3, 0, 0, 0, 0, 0, 0,
                               6, 5, 14, 9, 3, 4, 1, 15, 8, 2, 1};

/* LD 0,m of each port, P0A to P0E. */
static const uint16_t loads[] = {0x4700, 0x4710, 0x4720, 0x4730, 0x46F0};

static pollwezen_input by_field(const uint8_t *bytes) {
    pollwezen_input in;
    for (unsigned port = 0; port < 5; port++) {
        in.pins[port] = bytes[port];
        in.directions[port] = bytes[5 + port];
    }
    in.release = bytes[10];
    return in;
}

static void laid_out(void) {
    expect(sizeof(pollwezen_input) == 11 && _Alignof(pollwezen_input) == 1, "an input is eleven bytes, at any address");
    expect(offsetof(pollwezen_input, pins) == 0, "the pins come first");
    expect(offsetof(pollwezen_input, directions) == 5, "then the directions");
    expect(offsetof(pollwezen_input, release) == 10, "then release");
}

/* At reset every port is an input and reads its pin, whatever the record says of directions; P0E has two. */
static void stepped(const uint8_t *bytes) {
    pollwezen_input in;
    memcpy(&in, bytes, sizeof in);
    for (unsigned port = 0; port < 5; port++) {
        pollwezen_machine a = fresh(), b = a;
        expect(pollwezen_step(POLLWEZEN_17132, &loads[port], 1, &a, in, 0) == POLLWEZEN_DONE, "a step with the bytes");
        expect(pollwezen_step(POLLWEZEN_17132, &loads[port], 1, &b, by_field(bytes), 0) == POLLWEZEN_DONE, "a step with the fields");
        expect(same(&a, &b) && a.cells[0] == bytes[port], "both read the pin");
        a.standby = b.standby = 1;
        a.pc = b.pc = 0;
        uint8_t number = bytes[10] == 1 ? POLLWEZEN_DONE : POLLWEZEN_STANDBY;
        expect(pollwezen_step(POLLWEZEN_17132, &loads[port], 1, &a, in, 0) == number, "release with the bytes");
        expect(pollwezen_step(POLLWEZEN_17132, &loads[port], 1, &b, by_field(bytes), 0) == number && same(&a, &b), "release with the fields");
    }
}

void records(void) {
    uint16_t rom[1];
    uint8_t inputs[22];
    laid_out();
    pollwezen_read_reply c = pollwezen_read(file, sizeof file, rom, 1, NULL, 0, inputs, sizeof inputs);
    expect(c.number == POLLWEZEN_DONE && c.records == 2, "two records");
    stepped(inputs);
    stepped(inputs + 11);
}
