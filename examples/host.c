/* Reads document 01's example sheet, decodes the example and three inputs near it on the lists that it gave, then two blank frames, clear
   leader among them, a frame that stalls and the same frame with lifting, and writes the sheet back, as a scanner's host would. Then a sheet
   that is refused, with its line. Then a block sheet: its graph row by row, the same sheet written from its numbers, and one that is refused.
   Last, as a film writer would, codewords that hold given bits, one of them decoded after noise, and bits that no codeword holds. */
#include <stdio.h>
#include <string.h>

#include "frame.h"

enum { VARIABLES = 3, CHECKS = 2, ENTRIES = 4 };

/* Check 0 has variables 0 and 1, check 1 has 1 and 2. */
static const char sheet[] = "variables checks\n3 2\ncheck variable\n0 0\n0 1\n1 1\n1 2\n";
/* Its fifth line is not after its fourth. */
static const char turned[] = "variables checks\n3 2\ncheck variable\n0 1\n0 0\n1 1\n1 2\n";

/* Just long enough for the example; for every sheet it would be 4,000,000 bytes of degrees, 4,000,004 of starts and 16,000,000 of
   columns. Then how much of it the sheet took. */
static uint8_t degrees[4 * VARIABLES], starts[4 * (CHECKS + 1)], columns[4 * ENTRIES];
static size_t variables, starts_length, columns_length;

/* 2.5, -0.5, 1.5 */
static const uint8_t example[] = {0, 0, 0x20, 0x40, 0, 0, 0, 0xbf, 0, 0, 0xc0, 0x3f};
static const uint8_t negated[] = {0, 0, 0x20, 0xc0, 0, 0, 0, 0x3f, 0, 0, 0xc0, 0xbf};
/* 2.5, NaN, 1.5 */
static const uint8_t damaged[] = {0, 0, 0x20, 0x40, 0, 0, 0xc0, 0x7f, 0, 0, 0xc0, 0x3f};
/* Clear leader, which is unexposed film: +0.0 throughout. Then -0.0, 1.0 and -1.0: with a gain of 1 none is above the first threshold. */
static const uint8_t leader[4 * VARIABLES] = {0};
static const uint8_t unexposed[] = {0, 0, 0, 0x80, 0, 0, 0x80, 0x3f, 0, 0, 0x80, 0xbf};

/* 3.5, -3.5, -3.5: levels +3, -3, -3. Variable 0 hears -3 in every iteration, which just balances its own level, so it keeps its sign and
   check 0 stays odd. Lifted to 4 the message outweighs the level. */
static const uint8_t stalled[] = {0, 0, 0x60, 0x40, 0, 0, 0x60, 0xc0, 0, 0, 0x60, 0xc0};

/* Blocks of 3, in one row of two columns, shifted by 1 and by 2. */
enum { SIZE = 3, ROWS = 1, COLUMNS = 2, BLOCKS = 2 };
static const char block_sheet[] = "size rows columns\n3 1 2\nrow column shift\n0 0 1\n0 1 2\n";
/* Its fourth line has a shift that is not below the size. */
static const char too_far[] = "size rows columns\n3 1 2\nrow column shift\n0 0 3\n0 1 2\n";
/* Row, column and shift of each block. */
static const uint8_t blocks[] = {0, 0, 0, 0, 0, 0, 0, 0, 1, 0, 0, 0, 0, 0, 0, 0, 1, 0, 0, 0, 2, 0, 0, 0};

/* The code of 7 bits in which 4 may be chosen: check 0 has variables 0, 2, 4 and 6, check 1 has 1, 2, 5 and 6, check 2 has 3 to 6. */
enum { CODE_VARIABLES = 7, CODE_CHECKS = 3, CODE_ENTRIES = 12, WORK = CODE_CHECKS * (CODE_VARIABLES / 8 + 1) };
static const uint8_t code_starts[] = {0, 0, 0, 0, 4, 0, 0, 0, 8, 0, 0, 0, 12, 0, 0, 0};
static const uint8_t code_columns[] = {0, 0, 0, 0, 2, 0, 0, 0, 4, 0, 0, 0, 6, 0, 0, 0, 1, 0, 0, 0, 2, 0, 0, 0,
                                       5, 0, 0, 0, 6, 0, 0, 0, 3, 0, 0, 0, 4, 0, 0, 0, 5, 0, 0, 0, 6, 0, 0, 0};

/* Positions are 2 bytes each, with a byte for each one's bit. Four bits settle the other three; of the codewords with bit 2 set the one comes
   that has 0 at the first place where they differ; the four of check 0 cannot be 1, 0, 0, 0; and 2 is no bit. */
static const uint8_t chosen[] = {2, 0, 4, 0, 5, 0, 6, 0}, chosen_bits[] = {1, 0, 1, 1};
static const uint8_t lone[] = {2, 0}, lone_bit[] = {1};
static const uint8_t whole[] = {0, 0, 2, 0, 4, 0, 6, 0}, odd_bits[] = {1, 0, 0, 0}, no_bits[] = {1, 0, 2, 0};

static void refused(uint64_t answer, size_t place)
{
    printf("refusal place\n%u %lu\n", frame_refusal(answer), (unsigned long)place);
}

static void read_sheet(const char *given)
{
    const uint8_t *text = (const uint8_t *)given;
    size_t length = strlen(given);

    uint64_t answer = frame_read_sheet(text, length, degrees, sizeof degrees, starts, sizeof starts, columns, sizeof columns);
    if (frame_refusal(answer) != 0) {
        refused(answer, frame_read_sheet_place(text, length, degrees, sizeof degrees, sizeof starts, sizeof columns));
        return;
    }
    unsigned checks = frame_checks(answer), entries = frame_entries(answer, starts);
    variables = frame_variables(answer);
    starts_length = 4 * ((size_t)checks + 1);
    columns_length = 4 * (size_t)entries;
    printf("variables checks entries\n%u %u %u\n", frame_variables(answer), checks, entries);
}

static void write_sheet(void)
{
    uint8_t text[48 + 14 * ENTRIES];

    uint64_t answer = frame_write_sheet(variables, starts, starts_length, columns, columns_length, degrees, sizeof degrees, text,
                                        sizeof text);
    if (frame_refusal(answer) != 0) {
        refused(answer, frame_write_sheet_place(variables, starts, starts_length, columns, columns_length, degrees, sizeof degrees,
                                                sizeof text));
        return;
    }
    size_t length = frame_text_length(answer);
    int same = length == strlen(sheet) && memcmp(text, sheet, length) == 0;
    printf("sheet written\n%lu bytes, %s\n", (unsigned long)length, same ? "the same" : "another");
}

/* From iteration lift_from on a check message of magnitude 3, the largest that 3 bits have, counts as magnitude lift_to. */
static void decode_lifted(const uint8_t *values, uint32_t limit, uint32_t lift_from, uint32_t lift_to)
{
    uint8_t levels[VARIABLES], variable_messages[ENTRIES], check_messages[ENTRIES], sums[4 * VARIABLES], bits[VARIABLES];

    uint64_t answer = frame_decode(variables, starts, starts_length, columns, columns_length, values, 4 * VARIABLES, FRAME_PLAIN, 1.0f,
                                   0.0f, 3, 3, 1, 1, 0, limit, lift_from, lift_to, degrees, sizeof degrees, levels, sizeof levels,
                                   variable_messages, sizeof variable_messages, check_messages, sizeof check_messages, sums, sizeof sums,
                                   bits, sizeof bits);
    if (frame_refusal(answer) != 0) {
        refused(answer, frame_decode_place(variables, starts, starts_length, columns, columns_length, values, 4 * VARIABLES,
                                           frame_refusal(answer), degrees, sizeof degrees));
        return;
    }
    printf("verdict iterations unsatisfied\n%s %u %u\nbits\n", frame_is_codeword(answer) ? "codeword" : "stopped",
           frame_iterations(answer), frame_unsatisfied(answer));
    for (int v = 0; v < VARIABLES; v++) {
        putchar('0' + bits[v]);
    }
    putchar('\n');
}

/* Nothing is lifted; 15 is admitted with every message precision. */
static void decode(const uint8_t *values, uint32_t limit)
{
    decode_lifted(values, limit, FRAME_NEVER, 15);
}

static unsigned number(const uint8_t *list, size_t i)
{
    const uint8_t *bytes = list + 4 * i;
    return (unsigned)bytes[0] | (unsigned)bytes[1] << 8 | (unsigned)bytes[2] << 16 | (unsigned)bytes[3] << 24;
}

/* Prints the variables of each check on a line. */
static void read_blocks(const char *given)
{
    uint8_t degrees[4 * COLUMNS * SIZE], starts[4 * (ROWS * SIZE + 1)], columns[4 * BLOCKS * SIZE];
    const uint8_t *text = (const uint8_t *)given;
    size_t length = strlen(given);

    uint64_t answer = frame_read_blocks(text, length, degrees, sizeof degrees, starts, sizeof starts, columns, sizeof columns);
    if (frame_refusal(answer) != 0) {
        refused(answer, frame_read_blocks_place(text, length, degrees, sizeof degrees, sizeof starts, sizeof columns));
        return;
    }
    printf("variables checks entries\n%u %u %u\n", frame_variables(answer), frame_checks(answer), frame_entries(answer, starts));
    for (unsigned check = 0; check < frame_checks(answer); check++) {
        for (unsigned entry = number(starts, check); entry < number(starts, check + 1); entry++) {
            printf("%s%u", entry == number(starts, check) ? "" : " ", number(columns, entry));
        }
        putchar('\n');
    }
}

static void write_blocks(void)
{
    uint8_t degrees[4 * COLUMNS * SIZE], text[59 + 21 * BLOCKS];

    uint64_t answer = frame_write_blocks(SIZE, ROWS, COLUMNS, blocks, sizeof blocks, degrees, sizeof degrees, text, sizeof text);
    if (frame_refusal(answer) != 0) {
        refused(answer, frame_write_blocks_place(SIZE, ROWS, COLUMNS, blocks, sizeof blocks, degrees, sizeof degrees, sizeof text));
        return;
    }
    fwrite(text, 1, frame_text_length(answer), stdout);
}

/* Whether there is a codeword; it is printed, or the refusal. */
static int encode(const uint8_t *positions, size_t positions_length, const uint8_t *given, size_t given_length,
                  uint8_t codeword[CODE_VARIABLES])
{
    uint8_t degrees[4 * CODE_VARIABLES], work[WORK];

    uint64_t answer = frame_encode(CODE_VARIABLES, code_starts, sizeof code_starts, code_columns, sizeof code_columns, positions,
                                   positions_length, given, given_length, degrees, sizeof degrees, codeword, CODE_VARIABLES, work,
                                   sizeof work);
    if (frame_refusal(answer) != 0) {
        refused(answer, frame_encode_place(CODE_VARIABLES, code_starts, sizeof code_starts, code_columns, sizeof code_columns, positions,
                                           positions_length, given, given_length, degrees, sizeof degrees));
        return 0;
    }
    printf("encoded\n");
    for (int v = 0; v < CODE_VARIABLES; v++) {
        putchar('0' + codeword[v]);
    }
    putchar('\n');
    return 1;
}

/* A codeword written as 2.5 for 0 and -2.5 for 1, read back with the last value as 0.5, which is its wrong sign, decoded and compared. */
static void write_and_read(const uint8_t codeword[CODE_VARIABLES])
{
    uint8_t degrees[4 * CODE_VARIABLES], values[4 * CODE_VARIABLES] = {0}, levels[CODE_VARIABLES], variable_messages[CODE_ENTRIES],
        check_messages[CODE_ENTRIES], sums[4 * CODE_VARIABLES], bits[CODE_VARIABLES];

    for (size_t v = 0; v < CODE_VARIABLES; v++) {
        values[4 * v + 2] = 0x20;
        values[4 * v + 3] = codeword[v] ? 0xc0 : 0x40;
    }
    values[4 * CODE_VARIABLES - 2] = 0;
    values[4 * CODE_VARIABLES - 1] = 0x3f;
    uint64_t answer = frame_decode(CODE_VARIABLES, code_starts, sizeof code_starts, code_columns, sizeof code_columns, values, sizeof values,
                                   FRAME_PLAIN, 1.0f, 0.0f, 3, 3, 1, 1, 0, 5, FRAME_NEVER, 15, degrees, sizeof degrees, levels,
                                   sizeof levels, variable_messages, sizeof variable_messages, check_messages, sizeof check_messages, sums,
                                   sizeof sums, bits, sizeof bits);
    if (frame_refusal(answer) != 0) {
        refused(answer, frame_decode_place(CODE_VARIABLES, code_starts, sizeof code_starts, code_columns, sizeof code_columns, values,
                                           sizeof values, frame_refusal(answer), degrees, sizeof degrees));
        return;
    }
    int same = memcmp(bits, codeword, CODE_VARIABLES) == 0;
    printf("verdict iterations unsatisfied\n%s %u %u\n%s\n", frame_is_codeword(answer) ? "codeword" : "stopped",
           frame_iterations(answer), frame_unsatisfied(answer), same ? "the codeword that was written" : "other bits");
}

int main(void)
{
    uint8_t codeword[CODE_VARIABLES];

    read_sheet(sheet);
    decode(example, 5);
    decode(negated, 5);
    decode(example, 0);
    decode(damaged, 5);
    decode(leader, 5);
    decode(unexposed, 5);
    decode(stalled, 5);
    decode_lifted(stalled, 5, 3, 4);
    write_sheet();
    read_sheet(turned);
    read_blocks(block_sheet);
    write_blocks();
    read_blocks(too_far);
    if (encode(chosen, sizeof chosen, chosen_bits, sizeof chosen_bits, codeword)) {
        write_and_read(codeword);
    }
    encode(lone, sizeof lone, lone_bit, sizeof lone_bit, codeword);
    encode(whole, sizeof whole, odd_bits, sizeof odd_bits, codeword);
    encode(whole, sizeof whole, no_bits, sizeof no_bits, codeword);
    return 0;
}
