/* Pollwezen: the uPD17132 and the uPD17120 for a host program in C. Link libpollwezen.a, which tools/staticlib writes.
 * The contracts are in crates/pollwezen_c/src/lib.rt; the definitions that they cite in the folders specs of crates/memory,
 * crates/peripherals, crates/machine and crates/cpu (record, step, run), crates/sheet, crates/clearance and crates/verifier (the
 * check), crates/listing (words), crates/station_file, crates/transcript and crates/pollwezen.
 * The caller keeps what C asks of any call: pointers to as many elements as said, and a lent record or buffer that no other
 * argument overlaps. Where a length is 0 its pointer may be NULL, as tested; that of a lent record may not. Whatever stands in
 * them is answered or refused. No buffer is written past its length, and none is kept.
 * The library allocates nothing. As measured, pollwezen_transcript needs at most 51,000 bytes of stack and every other entry
 * 1,200, beside what the system's linker takes at a first call of memcpy or memset. */
#ifndef POLLWEZEN_H
#define POLLWEZEN_H

#include <stddef.h>
#include <stdint.h>

#ifdef __cplusplus
extern "C" {
#endif

/* A record is live while every entry on it has answered POLLWEZEN_DONE or POLLWEZEN_STANDBY. After any other number it is not:
 * a refused step leaves it as it came, so its port nibbles are old, and a refused run has stopped where it was. Take the lamps
 * away then, and do not draw them from that record again. */

/* Numbers that are no refusal. */
#define POLLWEZEN_DONE 0      /* a completed step, a run without a refusal, a sheet that passes, a word decoded or encoded, what
                                 was read or written, a text */
#define POLLWEZEN_FAIL 254    /* a sheet that fails */
#define POLLWEZEN_STANDBY 255 /* the machine stays in standby (a step only) */

/* Every other number is a refusal of documents 01 and 02:
 *    1  record, mark, input or pulse out of range, ROM of no word or of more than the model allows, budget too large, a missing
 *       cell that is not 0, row past the list, a number that is no model's
 *    2  PC at or past the number of ROM words
 *    3  the word is no instruction
 *    4  EI, DI or RETI
 *   30  PEEK, POKE, GET or PUT of a control register or peripheral that there is not (after 4, before 5)
 *    5  BR or CALL to 1,024 or more
 *    6  stack full
 *    7  stack empty
 *    8  MOVT past the ROM
 *   31  a missing cell read or written: on the 17120 one of 40H to 6EH (after 8)
 *    9  the sheet has not two bytes for each word of the ROM
 *   10  an operand too large for its field, or one that the row does not have
 *   20  form number of a file other than 1 and 2
 *   21  the file ends too early
 *   22  a count that is not allowed
 *   23  an entry or input out of range, or an entry that is no range
 *   24  bytes after the end
 *   25  the lent buffer is too short */

/* The models. The 17120 has at most 768 ROM words, and the cells 40H to 6EH are not installed; all else is the 17132's. Every entry
 * that works a board takes the number of its model, the same one as long as a record lives. A number that is none is refused with
 * 1, and what is lent stays as it is. Station files are those of the 17132, and so are pollwezen_read, _write and _transcript. */
#define POLLWEZEN_17132 0
#define POLLWEZEN_17120 1

/* The level sheet has an entry for each word of the ROM: two bytes, the lowest and then the highest number of calls that may be open
 * there, 0 to 5 each and the lowest not above the highest, or POLLWEZEN_UNREACHED twice for a word that is never reached. Every
 * function below takes and gives a sheet so, with its length in bytes. Two counts are in entries: that in pollwezen_read's reply, and
 * that of pollwezen_widen, whose levels are one byte each. A sheet of one level a word goes through it first. */
#define POLLWEZEN_UNREACHED 15

/* The most that a station file has, and what its text never exceeds. Buffers of these sizes are never too short. */
#define POLLWEZEN_WORDS 1024        /* ROM words, and sheet entries */
#define POLLWEZEN_SHEET_BYTES 2048  /* two bytes an entry */
#define POLLWEZEN_INPUT_BYTES 45045 /* 4,095 input records of eleven bytes */
#define POLLWEZEN_FILE_BYTES 49149
#define POLLWEZEN_TEXT_BYTES 100000 /* the longest text has 89,016 */

/* The machine's record. The skip mark is 0 or 1; the standby mark is 0, or tells HALT and STOP apart. A record from
 * pollwezen_reset runs its timer with fx/256, and all its ports are inputs. */
#define POLLWEZEN_HALT 1
#define POLLWEZEN_STOP 2

typedef struct {
    uint8_t cells[128];
    uint8_t registers[7]; /* the control registers 11H, 12H, 24H, 32H, 33H, 34H and 35H, in that order */
    uint8_t modulo;       /* the timer's modulo register */
    uint8_t counter;      /* the timer's counter */
    uint8_t divider;      /* instruction cycles since reset, modulo 128: the timer's clock */
    uint16_t pc;
    uint16_t stack[5];
    uint8_t levels;
    uint8_t skip;
    uint8_t standby;
} pollwezen_machine;

/* Lamps and timer. A port's lamps are its stored nibble (cells[0x70] to [0x73] for P0A to P0D, cells[0x6F] for P0E), whatever its
 * direction is; the program sets directions by POKE of 24H and 32H to 35H, and they decide what it reads. The timer moves with every
 * completed step, by its cycles, and by one cycle with every step that stays in HALT: so a board that blinks by the timer blinks in
 * the time of its steps, 16 clocks a cycle. Not modelled, so that a page must not count on it:
 * - TMOUT: a lamp that is wired to the timer's output is not shown. TMOSEL makes P0D's bit 3 an output, and no more;
 * - the count that source 000, 13.1.6 (2), may lose or gain when the timer is started, and STOP's reset of the count (table 15-1);
 * - 23H and the registers of the comparator, the serial port and the interrupts: a program that touches them is refused with 30. */

/* The input record: P0A to P0E, a nibble each, and the release bit. Its directions must be nibbles, and are not read: directions come
 * from the control registers. It is the eleven bytes of a record in a station file, in their order and with nothing between or after
 * them: a record that was read may be copied to it as it is. */
typedef struct {
    uint8_t pins[5];
    uint8_t directions[5];
    uint8_t release;
} pollwezen_input;

/* The steps that a run completed, the cycles that these took, and its refusal or POLLWEZEN_DONE. A MOVT that is run takes
 * two cycles, every other step one, a skipped MOVT among them. */
typedef struct {
    uint32_t steps;
    uint32_t cycles;
    uint8_t number;
} pollwezen_run_reply;

/* What the check answers. The word and the rule are those of POLLWEZEN_FAIL, else 0. */
typedef struct {
    uint8_t number;
    uint16_t word;
    uint8_t rule;
} pollwezen_verdict_reply;

/* What the reader answers: how many ROM words, sheet entries (of two bytes) and input records (of eleven) it wrote, or a refusal with
 * zeros. */
typedef struct {
    uint8_t number;
    size_t words;
    size_t entries;
    size_t records;
} pollwezen_read_reply;

/* What the writer, pollwezen_widen and the transcript answer: how many bytes they wrote, or a refusal with 0. */
typedef struct {
    uint8_t number;
    size_t length;
} pollwezen_output_reply;

/* What a word is: its row in the list of the instruction set (POLLWEZEN_ROWS below) and its operands in the list's order, a
 * program address in `addr` and any other in `first` and `second`; those that the row lacks are 0. Or refusal 3 and zeros. */
typedef struct {
    uint8_t number;
    uint8_t row;
    uint8_t first;
    uint8_t second;
    uint16_t addr;
} pollwezen_decoded_row;

/* The word of a row with its operands, or a refusal with word 0. */
typedef struct {
    uint8_t number;
    uint16_t word;
} pollwezen_encoded_row;

/* The rows, from 0 on, in the order of the manual's list (source 000, 18.3). */
#define POLLWEZEN_ROWS \
    { \
        "ADD r,m", "ADD m,#n4", "ADDC r,m", "ADDC m,#n4", "INC AR", "INC IX", "SUB r,m", "SUB m,#n4", "SUBC r,m", \
        "SUBC m,#n4", "OR r,m", "OR m,#n4", "AND r,m", "AND m,#n4", "XOR r,m", "XOR m,#n4", "SKT m,#n", "SKF m,#n", \
        "SKE m,#n4", "SKNE m,#n4", "SKGE m,#n4", "SKLT m,#n4", "RORC r", "LD r,m", "ST m,r", "MOV @r,m", "MOV m,@r", \
        "MOV m,#n4", "MOVT DBF,@AR", "PUSH AR", "POP AR", "PEEK WR,rf", "POKE rf,WR", "GET DBF,p", "PUT p,DBF", \
        "BR addr", "BR @AR", "CALL addr", "CALL @AR", "RET", "RETSK", "RETI", "EI", "DI", "STOP s", "HALT h", "NOP" \
    }

/* Writes a model's reset record over the lent one, whatever that holds. Refusal: 1, for the model; then the record stays. */
uint8_t pollwezen_reset(uint8_t model, pollwezen_machine *machine);

/* One step on the lent record. The pulse, 0 or 1, is the INT clock's: where the program chose that clock (TMCK 11), 1 is one pulse of
 * the step. A refusal leaves the record as it came; a step that stays in STOP too, and one that stays in HALT moves the timer alone. A
 * run with a budget of 1 tells the step's cycles too. */
uint8_t pollwezen_step(uint8_t model, const uint16_t *rom, size_t words, pollwezen_machine *machine, pollwezen_input input,
                       uint8_t pulse);

/* A counted run on the lent record, of 0 to 65,535 steps, with one input and one pulse for all of them. It ends at a refusal, in
 * standby or at the budget. A refused run keeps the state of its completed steps and reports these. A run that begins in standby at
 * release 0 ends with one step that stays there, if its budget is not 0: it reports no steps, and in HALT the timer has moved. */
pollwezen_run_reply pollwezen_run(uint8_t model, const uint16_t *rom, size_t words, pollwezen_machine *machine,
                                  pollwezen_input input, uint8_t pulse, uint32_t budget);

/* The check of a ROM and its sheet, two bytes a word, for one model: a ROM that passes is run on that model. Refusals: 1 for the model
 * or the ROM's length, 9 for the sheet's. On the 17132 a ROM that passed is never refused but with 1, for what the host gives. On
 * the 17120 a step of it may also be refused with 31, since which cell an operand names is known only when it runs; PC is then still
 * in the ROM, and the open levels in the range of its entry. */
pollwezen_verdict_reply pollwezen_verify(uint8_t model, const uint16_t *rom, size_t words, const uint8_t *sheet,
                                         size_t sheet_bytes);

/* The instruction that a word is. Refusal: 3. */
pollwezen_decoded_row pollwezen_decode(uint16_t word);

/* The word of an instruction. Refusals: 1 for a row past the list, 10 for an operand that is too large for its field or that
 * the row does not have. */
pollwezen_encoded_row pollwezen_encode(uint8_t row, uint8_t first, uint8_t second, uint16_t addr);

/* Reads a station file, of form 1 or 2, to the front of three lent buffers; a sheet of no entries is none. The sheet takes two bytes
 * an entry, from form 1 too, where lowest and highest are the one level of the file. An input record is eleven bytes: five pins, five
 * directions, release. rom_room is in words, the other rooms are in bytes. Refusals: 20 to 25, the last where a buffer is too short. A
 * refused file writes nothing. */
pollwezen_read_reply pollwezen_read(const uint8_t *file, size_t bytes, uint16_t *rom, size_t rom_room, uint8_t *sheet,
                                    size_t sheet_room, uint8_t *inputs, size_t inputs_room);

/* Writes a station's file to the front of the lent buffer: form 1 where every entry is one level, or there is no sheet, else form 2. So
 * a file of form 2 that form 1 could hold is not written back as it was. Refusals: 22 (a sheet of other than 0 or twice `words` bytes
 * among them), 23 and 25. A refused station writes nothing. */
pollwezen_output_reply pollwezen_write(const uint16_t *rom, size_t words, const uint8_t *sheet, size_t sheet_bytes,
                                       const uint8_t *inputs, size_t input_bytes, uint8_t *out, size_t room);

/* Makes a sheet of single levels, one byte a word, into one of ranges at the front of the lent buffer, each byte twice, whatever it
 * is. Refusal: 25, where the room is less than two bytes an entry; then nothing is written. */
pollwezen_output_reply pollwezen_widen(const uint8_t *levels, size_t entries, uint8_t *out, size_t room);

/* Puts what the program `station` prints for a file to the front of the lent buffer, with no closing 0. A bad file has a text
 * too, so the one refusal is 25, and then nothing is written. A buffer of POLLWEZEN_TEXT_BYTES, 100,000, is enough for every
 * text, and quickest: before it is put into a shorter one the text is measured. */
pollwezen_output_reply pollwezen_transcript(const uint8_t *file, size_t bytes, uint8_t *out, size_t room);

#ifdef __cplusplus
}
#endif

#endif
