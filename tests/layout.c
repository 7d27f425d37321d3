/* Where the library puts each field, against the header: the number that it wrote there is looked for in raw bytes.
 * `layout_fill` of crates/layout is linked for this test alone. */
#include "header.h"

#include <string.h>

/* Two of each struct, as in crates/layout/src/lib.rt. */
typedef struct {
    pollwezen_machine machines[2];
    pollwezen_input inputs[2];
    pollwezen_run_reply runs[2];
    pollwezen_verdict_reply verdicts[2];
    pollwezen_read_reply reads[2];
    pollwezen_output_reply outputs[2];
    pollwezen_decoded_row decoded[2];
    pollwezen_encoded_row encoded[2];
} laid;

void layout_fill(laid *lent);

#define GUARD 0xA5

static union {
    laid lent;
    unsigned char bytes[sizeof(laid) + 4096];
} room;

/* The fields count down from the largest number of their width, and in the second struct from half of it. So a field that is
 * wider or narrower in the header shows another number, whatever stands in the padding. */
static void field(const char *name, size_t at, size_t width, unsigned index, uint64_t down) {
    uint64_t most = UINT64_MAX >> (64 - 8 * width) >> index, found = 0;
    for (size_t i = 0; i < width; i++) {
        found |= (uint64_t)room.bytes[at + i] << (8 * i);
    }
    expect(found == most - down, name);
}

#define SIZE(type, name) sizeof(((type *)0)->name)
#define COUNT(type, name) (SIZE(type, name) / SIZE(type, name[0]))
#define AT(array, type, name) (offsetof(laid, array) + i * sizeof(type) + offsetof(type, name))
#define FIELD(array, type, name, down) field(#type "." #name, AT(array, type, name), SIZE(type, name), i, down)
#define PLACE(array, type, name, n, down) \
    field(#type "." #name, AT(array, type, name) + (n) * SIZE(type, name[0]), SIZE(type, name[0]), i, down)

static void fields(unsigned i) {
    size_t cells = COUNT(pollwezen_machine, cells);
    for (size_t n = 0; n < cells; n++) {
        PLACE(machines, pollwezen_machine, cells, n, n == 0 ? 2 : n + 1 == cells ? 3 : 1);
    }
    for (size_t n = 0; n < COUNT(pollwezen_machine, registers); n++) {
        PLACE(machines, pollwezen_machine, registers, n, 13 + n);
    }
    FIELD(machines, pollwezen_machine, modulo, 20);
    FIELD(machines, pollwezen_machine, counter, 21);
    FIELD(machines, pollwezen_machine, divider, 22);
    FIELD(machines, pollwezen_machine, pc, 4);
    for (size_t n = 0; n < COUNT(pollwezen_machine, stack); n++) {
        PLACE(machines, pollwezen_machine, stack, n, 5 + n);
    }
    FIELD(machines, pollwezen_machine, levels, 10);
    FIELD(machines, pollwezen_machine, skip, 11);
    FIELD(machines, pollwezen_machine, standby, 12);
    for (size_t n = 0; n < COUNT(pollwezen_input, pins); n++) {
        PLACE(inputs, pollwezen_input, pins, n, 1 + n);
    }
    for (size_t n = 0; n < COUNT(pollwezen_input, directions); n++) {
        PLACE(inputs, pollwezen_input, directions, n, 6 + n);
    }
    FIELD(inputs, pollwezen_input, release, 11);
    FIELD(runs, pollwezen_run_reply, steps, 1);
    FIELD(runs, pollwezen_run_reply, cycles, 2);
    FIELD(runs, pollwezen_run_reply, number, 3);
    FIELD(verdicts, pollwezen_verdict_reply, number, 1);
    FIELD(verdicts, pollwezen_verdict_reply, word, 2);
    FIELD(verdicts, pollwezen_verdict_reply, rule, 3);
    FIELD(reads, pollwezen_read_reply, number, 1);
    FIELD(reads, pollwezen_read_reply, words, 2);
    FIELD(reads, pollwezen_read_reply, entries, 3);
    FIELD(reads, pollwezen_read_reply, records, 4);
    FIELD(outputs, pollwezen_output_reply, number, 1);
    FIELD(outputs, pollwezen_output_reply, length, 2);
    FIELD(decoded, pollwezen_decoded_row, number, 1);
    FIELD(decoded, pollwezen_decoded_row, row, 2);
    FIELD(decoded, pollwezen_decoded_row, first, 3);
    FIELD(decoded, pollwezen_decoded_row, second, 4);
    FIELD(decoded, pollwezen_decoded_row, addr, 5);
    FIELD(encoded, pollwezen_encoded_row, number, 1);
    FIELD(encoded, pollwezen_encoded_row, word, 2);
}

void layout(void) {
    memset(&room, GUARD, sizeof room);
    layout_fill(&room.lent);
    fields(0);
    fields(1);
    for (size_t at = sizeof(laid); at < sizeof room; at++) {
        expect(room.bytes[at] == GUARD, "a byte after the last struct");
    }
}
