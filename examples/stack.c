/* How much stack each call of the library takes, on a graph of 1,000,000 variables and checks and 4,000,000 entries, on a block sheet of
   as many and, where a codeword is asked for, on a graph of 2,048 variables and 512 checks: the call is made on a stack that is painted
   before it, and what is no longer painted after it is counted. Prints a line for each call, with what frame.h says it takes at most; the
   status is 1 where a call takes more. Link with -z now, so that no call waits for the loader. */
#include "frame.h"

#include <pthread.h>
#include <stdio.h>
#include <stdlib.h>
#include <string.h>

enum { VARIABLES = 1000000, CHECKS = 1000000, ENTRIES = 4000000, LIMIT = 3, STACK = 1 << 20, PAINT = 0xa5 };

static uint8_t starts[4 * (CHECKS + 1)], columns[4 * ENTRIES], values[4 * VARIABLES], text[48 + 14 * ENTRIES], degrees[4 * VARIABLES];
static uint8_t levels[VARIABLES], variable_messages[ENTRIES], check_messages[ENTRIES], sums[4 * VARIABLES], bits[VARIABLES];
static uint8_t second_levels[VARIABLES], second_variable_messages[ENTRIES], second_check_messages[ENTRIES], second_sums[4 * VARIABLES],
    second_bits[VARIABLES], reports[16];
static uint8_t read_starts[sizeof starts], read_columns[sizeof columns];
static size_t text_length;
static uint64_t answer, record;

/* Every block of four rows and four columns, each shifted in its own way. */
enum { SIZE = 250000, ROWS = 4, COLUMNS = 4, BLOCKS = ROWS * COLUMNS };
static uint8_t blocks[12 * BLOCKS], block_text[59 + 21 * BLOCKS];

/* The largest graph that codewords are given of, with a bit for a fourth of its variables. */
enum { CODE_VARIABLES = 2048, CODE_CHECKS = 512, CODE_DEGREE = 5, GIVEN = CODE_CHECKS };
static uint8_t code_starts[4 * (CODE_CHECKS + 1)], code_columns[4 * CODE_DEGREE * CODE_CHECKS], positions[2 * GIVEN], given[GIVEN];
static uint8_t codeword[CODE_VARIABLES], work[CODE_CHECKS * (CODE_VARIABLES / 8 + 1)];

static int rising(const void *a, const void *b) { return *(const int *)a - *(const int *)b; }

static void put32(uint8_t *list, size_t i, unsigned x) {
  for (size_t k = 0; k < 4; k++) list[4 * i + k] = (uint8_t)(x >> 8 * k);
}

/* Check i has the variables i, i + 1, i + 5 and i + 77, counted round the end; the values are +1 and, at every fifth variable, -1. */
static void make_frame(void) {
  const float one = 1;
  for (int i = 0; i <= CHECKS; i++) put32(starts, (size_t)i, 4U * (unsigned)i);
  for (int i = 0; i < CHECKS; i++) {
    int row[4] = {i, (i + 1) % VARIABLES, (i + 5) % VARIABLES, (i + 77) % VARIABLES};
    qsort(row, 4, sizeof row[0], rising);
    for (int k = 0; k < 4; k++) put32(columns, 4 * (size_t)i + (size_t)k, (unsigned)row[k]);
  }
  for (int v = 0; v < VARIABLES; v++) {
    float y = v % 5 == 0 ? -one : one;
    memcpy(values + 4 * (size_t)v, &y, 4);
  }
}

static void make_blocks(void) {
  for (unsigned i = 0; i < BLOCKS; i++) {
    put32(blocks, 3 * i, i / COLUMNS);
    put32(blocks, 3 * i + 1, i % COLUMNS);
    put32(blocks, 3 * i + 2, SIZE - 1 - 7 * i);
  }
}

/* Check i has the variables 4i to 4i + 4, counted round the end; the variables 4i + 1 are given as 1. */
static void make_code(void) {
  for (int i = 0; i <= CODE_CHECKS; i++) put32(code_starts, (size_t)i, CODE_DEGREE * (unsigned)i);
  for (int i = 0; i < CODE_CHECKS; i++) {
    int row[CODE_DEGREE];
    for (int k = 0; k < CODE_DEGREE; k++) row[k] = (4 * i + k) % CODE_VARIABLES;
    qsort(row, CODE_DEGREE, sizeof row[0], rising);
    for (int k = 0; k < CODE_DEGREE; k++) put32(code_columns, CODE_DEGREE * (size_t)i + (size_t)k, (unsigned)row[k]);
    positions[2 * i] = (uint8_t)(4 * i + 1);
    positions[2 * i + 1] = (uint8_t)((4 * i + 1) >> 8);
    given[i] = 1;
  }
}

static void *nothing(void *none) { return none; }

static void *decode(void *none) {
  answer = frame_decode(VARIABLES, starts, sizeof starts, columns, sizeof columns, values, sizeof values, FRAME_PLAIN, 2, 0, 4, 4, 1, 1, 0,
                        LIMIT, FRAME_NEVER, 15, degrees, sizeof degrees, levels, sizeof levels, variable_messages, sizeof variable_messages,
                        check_messages, sizeof check_messages, sums, sizeof sums, bits, sizeof bits);
  return none;
}

static void *decode_lifted(void *none) {
  answer = frame_decode(VARIABLES, starts, sizeof starts, columns, sizeof columns, values, sizeof values, FRAME_PLAIN, 2, 0, 4, 4, 1, 1, 0,
                        LIMIT, 2, 9, degrees, sizeof degrees, levels, sizeof levels, variable_messages, sizeof variable_messages,
                        check_messages, sizeof check_messages, sums, sizeof sums, bits, sizeof bits);
  return none;
}

static void *decode_place(void *none) {
  answer = frame_decode_place(VARIABLES, starts, sizeof starts, columns, sizeof columns, values, sizeof values, 12, degrees,
                              sizeof degrees);
  return none;
}

static void *begin(void *none) {
  answer = frame_begin(VARIABLES, starts, sizeof starts, columns, sizeof columns, values, sizeof values, FRAME_PLAIN, 2, 0, 4, 4, 1, 1, 0,
                       LIMIT, 2, 9, degrees, sizeof degrees, levels, sizeof levels, variable_messages, sizeof variable_messages,
                       check_messages, sizeof check_messages, sums, sizeof sums, bits, sizeof bits);
  record = answer;
  return none;
}

static void *begin_place(void *none) {
  answer = frame_begin_place(VARIABLES, starts, sizeof starts, columns, sizeof columns, values, sizeof values, 12, degrees,
                             sizeof degrees);
  return none;
}

/* By one: first from iteration 0, then from 1, whose last step was left. */
static void *advance(void *none) {
  answer = frame_advance(record, VARIABLES, starts, sizeof starts, columns, sizeof columns, 4, 4, 1, 1, 0, LIMIT, 2, 9, 1, degrees,
                         sizeof degrees, levels, sizeof levels, variable_messages, sizeof variable_messages, check_messages,
                         sizeof check_messages, sums, sizeof sums, bits, sizeof bits);
  record = answer;
  return none;
}

static void *advance_place(void *none) {
  answer = frame_advance_place(VARIABLES, starts, sizeof starts, columns, sizeof columns, degrees, sizeof degrees);
  return none;
}

/* The first head stops at its limit, 0; the second goes on past its half, 2, to its limit, 3. */
static void *decode_pair(void *none) {
  answer = frame_decode_pair(VARIABLES, starts, sizeof starts, columns, sizeof columns, 4, values, sizeof values, FRAME_PLAIN, 2, 0, 4, 4, 1, 1,
                             0, 0, 2, 9, values, sizeof values, FRAME_PLAIN, 2, 0, 4, 4, 1, 1, 0, LIMIT, 2, 9, degrees, sizeof degrees,
                             levels, sizeof levels, variable_messages, sizeof variable_messages, check_messages, sizeof check_messages,
                             sums, sizeof sums, bits, sizeof bits, second_levels, sizeof second_levels, second_variable_messages,
                             sizeof second_variable_messages, second_check_messages, sizeof second_check_messages, second_sums,
                             sizeof second_sums, second_bits, sizeof second_bits, reports, sizeof reports);
  return none;
}

static void *decode_pair_place(void *none) {
  answer = frame_decode_pair_place(VARIABLES, starts, sizeof starts, columns, sizeof columns, values, sizeof values, values, sizeof values,
                                   524, degrees, sizeof degrees);
  return none;
}

static void *write_sheet(void *none) {
  answer = frame_write_sheet(VARIABLES, starts, sizeof starts, columns, sizeof columns, degrees, sizeof degrees, text, sizeof text);
  return none;
}

static void *write_sheet_place(void *none) {
  answer = frame_write_sheet_place(VARIABLES, starts, sizeof starts, columns, sizeof columns, degrees, sizeof degrees, sizeof text);
  return none;
}

static void *read_sheet(void *none) {
  answer = frame_read_sheet(text, text_length, degrees, sizeof degrees, read_starts, sizeof read_starts, read_columns,
                            sizeof read_columns);
  return none;
}

static void *read_sheet_place(void *none) {
  answer = frame_read_sheet_place(text, text_length, degrees, sizeof degrees, sizeof read_starts, sizeof read_columns);
  return none;
}

static void *write_blocks(void *none) {
  answer = frame_write_blocks(SIZE, ROWS, COLUMNS, blocks, sizeof blocks, degrees, sizeof degrees, block_text, sizeof block_text);
  return none;
}

static void *write_blocks_place(void *none) {
  answer = frame_write_blocks_place(SIZE, ROWS, COLUMNS, blocks, sizeof blocks, degrees, sizeof degrees, sizeof block_text);
  return none;
}

static void *read_blocks(void *none) {
  answer = frame_read_blocks(block_text, text_length, degrees, sizeof degrees, read_starts, sizeof read_starts, read_columns,
                             sizeof read_columns);
  return none;
}

static void *read_blocks_place(void *none) {
  answer = frame_read_blocks_place(block_text, text_length, degrees, sizeof degrees, sizeof read_starts, sizeof read_columns);
  return none;
}

static void *encode(void *none) {
  answer = frame_encode(CODE_VARIABLES, code_starts, sizeof code_starts, code_columns, sizeof code_columns, positions, sizeof positions,
                        given, sizeof given, degrees, sizeof degrees, codeword, sizeof codeword, work, sizeof work);
  return none;
}

static void *encode_place(void *none) {
  answer = frame_encode_place(CODE_VARIABLES, code_starts, sizeof code_starts, code_columns, sizeof code_columns, positions,
                              sizeof positions, given, sizeof given, degrees, sizeof degrees);
  return none;
}

/* How many bytes of a painted stack a call leaves changed. */
static size_t taken(void *(*call)(void *)) {
  static _Alignas(4096) uint8_t stack[STACK];
  pthread_attr_t attributes;
  pthread_t thread;
  memset(stack, PAINT, sizeof stack);
  if (pthread_attr_init(&attributes) != 0 || pthread_attr_setstack(&attributes, stack, sizeof stack) != 0 ||
      pthread_create(&thread, &attributes, call, NULL) != 0 || pthread_join(thread, NULL) != 0) {
    fputs("stack: no thread could be run\n", stderr);
    exit(2);
  }
  pthread_attr_destroy(&attributes);
  size_t low = 0;
  while (low < sizeof stack && stack[low] == PAINT) low++;
  return sizeof stack - low;
}

static size_t own;
static int too_many;

static void measure(const char *name, void *(*call)(void *), size_t most) {
  answer = 255;
  size_t bytes = taken(call) - own;
  if (frame_refusal(answer) != 0) {
    fprintf(stderr, "stack: %s is refused with %u\n", name, frame_refusal(answer));
    exit(2);
  }
  printf("%s %zu of %zu\n", name, bytes, most);
  too_many |= most < bytes;
}

int main(void) {
  make_frame();
  make_blocks();
  make_code();
  own = taken(nothing);
  measure("frame_decode", decode, FRAME_DECODE_STACK);
  measure("frame_decode, lifted", decode_lifted, FRAME_DECODE_STACK);
  measure("frame_decode_place", decode_place, FRAME_DECODE_STACK);
  measure("frame_begin", begin, FRAME_DECODE_STACK);
  measure("frame_begin_place", begin_place, FRAME_DECODE_STACK);
  measure("frame_advance", advance, FRAME_DECODE_STACK);
  measure("frame_advance, resumed", advance, FRAME_DECODE_STACK);
  measure("frame_advance_place", advance_place, FRAME_DECODE_STACK);
  measure("frame_decode_pair", decode_pair, FRAME_DECODE_STACK);
  measure("frame_decode_pair_place", decode_pair_place, FRAME_DECODE_STACK);
  measure("frame_write_sheet", write_sheet, FRAME_WRITE_SHEET_STACK);
  text_length = frame_text_length(answer);
  measure("frame_write_sheet_place", write_sheet_place, FRAME_WRITE_SHEET_STACK);
  measure("frame_read_sheet", read_sheet, FRAME_READ_SHEET_STACK);
  measure("frame_read_sheet_place", read_sheet_place, FRAME_READ_SHEET_STACK);
  measure("frame_write_blocks", write_blocks, FRAME_WRITE_BLOCKS_STACK);
  text_length = frame_text_length(answer);
  measure("frame_write_blocks_place", write_blocks_place, FRAME_WRITE_BLOCKS_STACK);
  measure("frame_read_blocks", read_blocks, FRAME_READ_BLOCKS_STACK);
  measure("frame_read_blocks_place", read_blocks_place, FRAME_READ_BLOCKS_STACK);
  measure("frame_encode", encode, FRAME_ENCODE_STACK);
  measure("frame_encode_place", encode_place, FRAME_ENCODE_STACK);
  return too_many;
}
