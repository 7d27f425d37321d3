/* The entries for words, with good and bad input. */
#include "header.h"

#include <string.h>

static int is_listed(uint16_t word, const char *name, uint8_t first, uint8_t second, uint16_t addr) {
    static const char *const rows[] = POLLWEZEN_ROWS;
    pollwezen_decoded_row l = pollwezen_decode(word);
    return l.number == POLLWEZEN_DONE && l.row < sizeof rows / sizeof rows[0] && strcmp(rows[l.row], name) == 0
        && l.first == first && l.second == second && l.addr == addr;
}

static int is_coded(pollwezen_encoded_row c, uint8_t number, uint16_t word) {
    return c.number == number && c.word == word;
}

/* Document 01, "Numbers to check by", 1 to 4, and "Words". */
static void words(void) {
    expect(is_listed(0x02F3, "ADD r,m", 3, 0x2F, 0), "1. ADD 3,2FH");
    expect(is_listed(0x82F5, "ADD m,#n4", 0x2F, 5, 0), "2. ADD 2FH,#5");
    expect(is_listed(0x4908, "SKE m,#n4", 0x10, 8, 0), "3. SKE 10H,#8");
    expect(is_listed(0xE010, "CALL addr", 0, 0, 0x010), "4. CALL 010H");
    expect(is_coded(pollwezen_encode(0, 3, 0x2F, 0), 0, 0x02F3), "1. the word of ADD 3,2FH");
    expect(is_coded(pollwezen_encode(1, 0x2F, 5, 0), 0, 0x82F5), "2. the word of ADD 2FH,#5");
    expect(is_coded(pollwezen_encode(18, 0x10, 8, 0), 0, 0x4908), "3. the word of SKE 10H,#8");
    expect(is_coded(pollwezen_encode(37, 0, 0, 0x010), 0, 0xE010), "4. the word of CALL 010H");
    expect(is_listed(0x0234, "ADD r,m", 4, 0x23, 0), "ADD 4,23H");
    expect(is_listed(0xE905, "MOV m,#n4", 0x10, 5, 0), "MOV 10H,#5");
    expect(is_listed(0x6401, "BR addr", 0, 0, 0x401), "BR 401");
    expect(is_listed(0xE7FF, "CALL addr", 0, 0, 0x7FF), "CALL 7FF");
    expect(is_listed(0x3F2A, "POKE rf,WR", 0x7A, 0, 0), "POKE 7AH");
    expect(is_listed(0x387C, "RORC r", 12, 0, 0), "RORC 12");
    expect(is_listed(0x3CF0, "NOP", 0, 0, 0), "NOP");
    pollwezen_decoded_row l = pollwezen_decode(0x3CF1);
    expect(l.number == 3 && l.row == 0 && l.first == 0 && l.second == 0 && l.addr == 0, "no instruction");
}

/* Every word comes back, and the rows have as many words as there are instructions. */
static void back(void) {
    unsigned instructions = 0;
    for (unsigned word = 0; word < 65536; word++) {
        pollwezen_decoded_row l = pollwezen_decode((uint16_t)word);
        if (l.number == POLLWEZEN_DONE) {
            instructions++;
            expect(is_coded(pollwezen_encode(l.row, l.first, l.second, l.addr), 0, (uint16_t)word), "a word comes back");
        }
    }
    expect(instructions == 55869, "55,869 words are instructions");
}

static void refusals(void) {
    expect(is_coded(pollwezen_encode(47, 0, 0, 0), 1, 0), "a row past the list");
    expect(is_coded(pollwezen_encode(255, 255, 255, 65535), 1, 0), "any other row");
    expect(is_coded(pollwezen_encode(0, 16, 0, 0), 10, 0), "r of 16");
    expect(is_coded(pollwezen_encode(0, 15, 128, 0), 10, 0), "m of 80H");
    expect(is_coded(pollwezen_encode(1, 127, 16, 0), 10, 0), "n4 of 16");
    expect(is_coded(pollwezen_encode(35, 0, 0, 2048), 10, 0), "an address of 800H");
    expect(is_coded(pollwezen_encode(35, 1, 0, 5), 10, 0), "BR with an operand too many");
    expect(is_coded(pollwezen_encode(22, 3, 1, 0), 10, 0), "RORC with two");
    expect(is_coded(pollwezen_encode(46, 0, 0, 1), 10, 0), "NOP with an address");
}

void codes(void) {
    words();
    back();
    refusals();
}
