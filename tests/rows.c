/* Each name in POLLWEZEN_ROWS beside its word, in the order of the list. */
#include "header.h"

#include <string.h>

/* The machine code as source 000 prints it: the box of each instruction in 18.5, with the operands' bits for their names. The
 * text of that paper lacks the boxes of ADD r,m, SKE, SKLT, LD, PEEK, GET and CALL @AR; theirs are the lines of the list, 18.3.
 * The operands are r 3, m 2FH, n and n4 3, rf and p 2FH, s and h 3, and a program address of 2F3H. */
static const struct {
    const char *name, *code;
    uint8_t first, second;
    uint16_t addr;
} printed[] = {
    {"ADD r,m", "00000 010 1111 0011", 3, 0x2F, 0},
    {"ADD m,#n4", "10000 010 1111 0011", 0x2F, 3, 0},
    {"ADDC r,m", "00010 010 1111 0011", 3, 0x2F, 0},
    {"ADDC m,#n4", "10010 010 1111 0011", 0x2F, 3, 0},
    {"INC AR", "00111 000 1001 0000", 0, 0, 0},
    {"INC IX", "00111 000 1000 0000", 0, 0, 0},
    {"SUB r,m", "00001 010 1111 0011", 3, 0x2F, 0},
    {"SUB m,#n4", "10001 010 1111 0011", 0x2F, 3, 0},
    {"SUBC r,m", "00011 010 1111 0011", 3, 0x2F, 0},
    {"SUBC m,#n4", "10011 010 1111 0011", 0x2F, 3, 0},
    {"OR r,m", "00110 010 1111 0011", 3, 0x2F, 0},
    {"OR m,#n4", "10110 010 1111 0011", 0x2F, 3, 0},
    {"AND r,m", "00100 010 1111 0011", 3, 0x2F, 0},
    {"AND m,#n4", "10100 010 1111 0011", 0x2F, 3, 0},
    {"XOR r,m", "00101 010 1111 0011", 3, 0x2F, 0},
    {"XOR m,#n4", "10101 010 1111 0011", 0x2F, 3, 0},
    {"SKT m,#n", "11110 010 1111 0011", 0x2F, 3, 0},
    {"SKF m,#n", "11111 010 1111 0011", 0x2F, 3, 0},
    {"SKE m,#n4", "01001 010 1111 0011", 0x2F, 3, 0},
    {"SKNE m,#n4", "01011 010 1111 0011", 0x2F, 3, 0},
    {"SKGE m,#n4", "11001 010 1111 0011", 0x2F, 3, 0},
    {"SKLT m,#n4", "11011 010 1111 0011", 0x2F, 3, 0},
    {"RORC r", "00111 000 0111 0011", 3, 0, 0},
    {"LD r,m", "01000 010 1111 0011", 3, 0x2F, 0},
    {"ST m,r", "11000 010 1111 0011", 0x2F, 3, 0},
    {"MOV @r,m", "01010 010 1111 0011", 3, 0x2F, 0},
    {"MOV m,@r", "11010 010 1111 0011", 0x2F, 3, 0},
    {"MOV m,#n4", "11101 010 1111 0011", 0x2F, 3, 0},
    {"MOVT DBF,@AR", "00111 000 0001 0000", 0, 0, 0},
    {"PUSH AR", "00111 000 1101 0000", 0, 0, 0},
    {"POP AR", "00111 000 1100 0000", 0, 0, 0},
    {"PEEK WR,rf", "00111 010 0011 1111", 0x2F, 0, 0},
    {"POKE rf,WR", "00111 010 0010 1111", 0x2F, 0, 0},
    {"GET DBF,p", "00111 010 1011 1111", 0x2F, 0, 0},
    {"PUT p,DBF", "00111 010 1010 1111", 0x2F, 0, 0},
    {"BR addr", "01100 010 1111 0011", 0, 0, 0x2F3},
    {"BR @AR", "00111 000 0100 0000", 0, 0, 0},
    {"CALL addr", "11100 010 1111 0011", 0, 0, 0x2F3},
    {"CALL @AR", "00111 000 0101 0000", 0, 0, 0},
    {"RET", "00111 000 1110 0000", 0, 0, 0},
    {"RETSK", "00111 001 1110 0000", 0, 0, 0},
    {"RETI", "00111 100 1110 0000", 0, 0, 0},
    {"EI", "00111 000 1111 0000", 0, 0, 0},
    {"DI", "00111 001 1111 0000", 0, 0, 0},
    {"STOP s", "00111 010 1111 0011", 3, 0, 0},
    {"HALT h", "00111 011 1111 0011", 3, 0, 0},
    {"NOP", "00111 100 1111 0000", 0, 0, 0},
};

static uint16_t word_of(const char *code) {
    unsigned word = 0;
    for (; *code != 0; code++) {
        word = *code == ' ' ? word : word << 1 | (*code == '1');
    }
    return (uint16_t)word;
}

void row_names(void) {
    static const char *const rows[] = POLLWEZEN_ROWS;
    size_t count = sizeof printed / sizeof printed[0];
    expect(count == 47 && sizeof rows / sizeof rows[0] == count, "47 rows");
    for (size_t i = 0; i < count && i < sizeof rows / sizeof rows[0]; i++) {
        uint16_t word = word_of(printed[i].code);
        pollwezen_decoded_row d = pollwezen_decode(word);
        pollwezen_encoded_row e = pollwezen_encode((uint8_t)i, printed[i].first, printed[i].second, printed[i].addr);
        expect(strcmp(rows[i], printed[i].name) == 0, printed[i].name);
        expect(d.number == POLLWEZEN_DONE && d.row == i, printed[i].name);
        expect(d.first == printed[i].first && d.second == printed[i].second && d.addr == printed[i].addr, printed[i].name);
        expect(e.number == POLLWEZEN_DONE && e.word == word, printed[i].name);
    }
}
