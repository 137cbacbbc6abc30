/* The film frame decoder, for C. `make lib` leaves this header, libframe.a and libframe.so in target/lib; link with -lframe.

   Every list is bytes, lowest byte first, at any address: an element is 4 bytes (u32, i32 or f32), and a list's count is its length
   divided by 4 and rounded down; frame_encode's positions are 2 bytes each (u16), and count likewise; levels, messages and bits are 1
   byte each. Every length is in bytes; where it is 0 the pointer is not looked at. What is lent may not overlap anything else that is
   given. Nothing needs to be checked beforehand: any numbers and bytes get a result or a numbered refusal.

   A graph has n variables, 2 to 1,000,000, m checks, 1 to 1,000,000, and E entries, at most 4,000,000: m + 1 `starts` (u32) and E
   `columns` (u32), the variables of check i, rising, at starts[i] to starts[i + 1]. A check has 2 to 64 entries, a variable 1 to 32.

   Every call counts the variables' degrees in a list that it is lent, `degrees`, 4n bytes (u32). A shorter one gets 6, directly before 5
   is looked for. After every call that came as far as 5, refused or not, its first n numbers are the degrees; after every other it is as it
   was. Bytes past 4n never change. It is the only lent memory that a refused call may have changed, but for frame_encode's work after a 19. */
#ifndef FRAME_H
#define FRAME_H

#include <stddef.h>
#include <stdint.h>

#ifdef __cplusplus
extern "C" {
#endif

/* How many bytes of stack a call or its companion takes at most, beside its caller's. Measured on x86-64 on a graph of the most variables, checks
   and entries: decode 1,960, begin 808, advance 1,896 and a pair 2,744, which FRAME_DECODE_STACK is for too, reading a sheet 552, writing one 408,
   reading a block sheet 968, writing one 256, encode 584. No list of a call grows with the graph: the compiled calls have frames of fixed size, and recurse
   only for the seven digits of a count of 1,000,000. Not counted is what a loader takes where it looks up memcpy or memset at their first call,
   some 3,000 bytes; link with -z now to have them looked up beforehand. */
enum { FRAME_DECODE_STACK = 4096, FRAME_READ_SHEET_STACK = 2048, FRAME_WRITE_SHEET_STACK = 2048, FRAME_READ_BLOCKS_STACK = 2048,
       FRAME_WRITE_BLOCKS_STACK = 2048, FRAME_ENCODE_STACK = 2048 };

/* The kind of scaling: a gain alone (the variance is not looked at), or a gain with a noise variance. */
enum { FRAME_PLAIN = 0, FRAME_NOISE = 1 };

/* lift_from of a run in which nothing is lifted. */
enum { FRAME_NEVER = 256 };

/* Decodes the frame `values`, f32 for each variable, on a graph. `channel` and `message` are the precisions in bits, the offsets are 0
   or 1, `limit` is 0 to 255.

   From iteration `lift_from` on, 1 to 256, a check message of the largest magnitude, Nq (1, 3 or 7 for 2, 3 or 4 bits of `message`), counts
   as magnitude `lift_to`, Nq + 1 to 15, in its variable's sums; where lift_from is FRAME_NEVER no message does, and any such lift_to gives the
   same run. The lists of messages hold what was sent.

   A frame whose channel magnitudes are all 0, whatever the signs, is blank: unexposed film. It is not decoded; it gets 20.

   Lent: degrees, 4n bytes, as above; levels, n bytes; both message lists, E bytes each, in the columns' order; sums, 4n bytes (i32 in
   halves); bits, n bytes. A level or message is its magnitude, plus 128 when its sign is minus. Afterwards they hold those of the
   iteration where the run stopped, and bytes past these lengths are as they were. After a refusal every byte but the degrees' is as it was.

   The answer is taken apart by the functions below. */
uint64_t frame_decode(size_t n, const uint8_t *starts, size_t starts_length, const uint8_t *columns, size_t columns_length,
                      const uint8_t *values, size_t values_length, uint32_t kind, float gain, float variance, uint32_t channel,
                      uint32_t message, uint32_t phi_s, uint32_t phi_a, uint32_t phi_0, uint32_t limit, uint32_t lift_from,
                      uint32_t lift_to, uint8_t *degrees, size_t degrees_length, uint8_t *levels, size_t levels_length,
                      uint8_t *variable_messages, size_t variable_messages_length, uint8_t *check_messages,
                      size_t check_messages_length, uint8_t *sums, size_t sums_length, uint8_t *bits, size_t bits_length);

/* The place of the refusal that frame_decode gave for the same graph, values and length of `degrees`; `refusal` is its number,
   frame_refusal(answer). 0 where that is 0. No place depends on the other numbers or on the other lent memory. The list of degrees is left
   as frame_decode leaves it. */
size_t frame_decode_place(size_t n, const uint8_t *starts, size_t starts_length, const uint8_t *columns, size_t columns_length,
                          const uint8_t *values, size_t values_length, uint32_t refusal, uint8_t *degrees, size_t degrees_length);

/* Begins a run: as frame_decode, with the same lists and numbers and the same refusals, but halted at iteration 0. The lent memory holds iteration 0
   afterwards, and the answer is the run's record: frame_is_open, or finished at once, as a codeword or, where the limit is 0, stopped; the
   iteration, 0; and its unsatisfied checks. */
uint64_t frame_begin(size_t n, const uint8_t *starts, size_t starts_length, const uint8_t *columns, size_t columns_length,
                     const uint8_t *values, size_t values_length, uint32_t kind, float gain, float variance, uint32_t channel,
                     uint32_t message, uint32_t phi_s, uint32_t phi_a, uint32_t phi_0, uint32_t limit, uint32_t lift_from,
                     uint32_t lift_to, uint8_t *degrees, size_t degrees_length, uint8_t *levels, size_t levels_length,
                     uint8_t *variable_messages, size_t variable_messages_length, uint8_t *check_messages,
                     size_t check_messages_length, uint8_t *sums, size_t sums_length, uint8_t *bits, size_t bits_length);

/* As frame_decode_place, of the refusal that frame_begin gave. */
size_t frame_begin_place(size_t n, const uint8_t *starts, size_t starts_length, const uint8_t *columns, size_t columns_length,
                         const uint8_t *values, size_t values_length, uint32_t refusal, uint8_t *degrees, size_t degrees_length);

/* Advances a run by up to `count` iterations, 0 to `limit`: it halts there, at the limit, or at the first iteration whose bits are a codeword.
   `record` is what frame_begin or frame_advance answered last, and the lists are those of the run, as that call left them. The answer is the record
   that now holds; where it is refused, the record that was given holds still. Begun and advanced on the same graph, numbers and memory, by whatever
   counts, a run comes to where one run halts at the sum of the accepted counts; by `limit` at once it comes to where frame_decode ends.

   Neither values nor scaling are looked at, nor what the lent sums and bits hold: the run goes on from the levels and messages, whoever made them, as
   those of the record's iteration. Halted while open, the last step of that iteration is still to be done from 1 on: the variable messages are those
   sent in the iteration before, and the next advance makes them anew from levels and check messages. A count of 0 changes nothing.

   Lent: as for frame_decode; the levels are only read. After a refusal every byte but the degrees' is as it was. */
uint64_t frame_advance(uint64_t record, size_t n, const uint8_t *starts, size_t starts_length, const uint8_t *columns,
                       size_t columns_length, uint32_t channel, uint32_t message, uint32_t phi_s, uint32_t phi_a, uint32_t phi_0,
                       uint32_t limit, uint32_t lift_from, uint32_t lift_to, uint32_t count, uint8_t *degrees, size_t degrees_length,
                       const uint8_t *levels, size_t levels_length, uint8_t *variable_messages, size_t variable_messages_length,
                       uint8_t *check_messages, size_t check_messages_length, uint8_t *sums, size_t sums_length, uint8_t *bits,
                       size_t bits_length);

/* The place of the refusal that frame_advance gives for the same graph and list of degrees of the same length; 0 where the graph is in order, since every
   other refusal has place 0. The list of degrees is left as frame_advance leaves it. */
size_t frame_advance_place(size_t n, const uint8_t *starts, size_t starts_length, const uint8_t *columns, size_t columns_length,
                           uint8_t *degrees, size_t degrees_length);

/* Two heads on one graph, with one allowance of iterations for both: decodes a frame of each, as frame_decode would, but together in at most
   `allowance` iterations, T, 2 to 510.

   Let a and b be the iterations that the first and the second head take alone, under their own limits. The first is granted the smaller of a and the larger
   of T / 2 rounded up and T - b, the second the smaller of b and the larger of T / 2 rounded down and T - a. Each head's grant is its limit: a head cut
   short is stopped there, and its report and lists are those of frame_decode with that limit. No iteration is done twice.

   Each head has values, numbers and lists of its own, as for frame_decode; there is one list of degrees. `reports`, 16 bytes, are lent for the two
   reports, the first head's first; frame_report gives each as frame_decode's answer. Bytes past them are as they were.

   One refused head refuses the pair. Refused is what frame_decode refuses of the first head, the graph's refusals included; then of the second; then, with
   22, an allowance outside 2 to 510; then, with 6, reports shorter than 16 bytes. After a refusal every byte but the degrees' is as it was, of both heads and
   of the reports. The answer is taken apart by frame_refusal and frame_refused_head; it is 0 where nothing is refused. */
uint64_t frame_decode_pair(size_t n, const uint8_t *starts, size_t starts_length, const uint8_t *columns, size_t columns_length,
                           uint32_t allowance, const uint8_t *first_values, size_t first_values_length, uint32_t first_kind,
                           float first_gain, float first_variance, uint32_t first_channel, uint32_t first_message,
                           uint32_t first_phi_s, uint32_t first_phi_a, uint32_t first_phi_0, uint32_t first_limit,
                           uint32_t first_lift_from, uint32_t first_lift_to, const uint8_t *second_values,
                           size_t second_values_length, uint32_t second_kind, float second_gain, float second_variance,
                           uint32_t second_channel, uint32_t second_message, uint32_t second_phi_s, uint32_t second_phi_a,
                           uint32_t second_phi_0, uint32_t second_limit, uint32_t second_lift_from, uint32_t second_lift_to,
                           uint8_t *degrees, size_t degrees_length, uint8_t *first_levels, size_t first_levels_length,
                           uint8_t *first_variable_messages, size_t first_variable_messages_length, uint8_t *first_check_messages,
                           size_t first_check_messages_length, uint8_t *first_sums, size_t first_sums_length, uint8_t *first_bits,
                           size_t first_bits_length, uint8_t *second_levels, size_t second_levels_length,
                           uint8_t *second_variable_messages, size_t second_variable_messages_length,
                           uint8_t *second_check_messages, size_t second_check_messages_length, uint8_t *second_sums,
                           size_t second_sums_length, uint8_t *second_bits, size_t second_bits_length, uint8_t *reports,
                           size_t reports_length);

/* The same call with a head by name: what it has read, the numbers of its run, and the memory lent for it, all as for frame_decode. */
struct frame_head {
  const uint8_t *values;
  size_t values_length;
  uint32_t kind;
  float gain, variance;
  uint32_t channel, message, phi_s, phi_a, phi_0, limit, lift_from, lift_to;
  uint8_t *levels, *variable_messages, *check_messages, *sums, *bits;
  size_t levels_length, variable_messages_length, check_messages_length, sums_length, bits_length;
};

static inline uint64_t frame_decode_heads(size_t n, const uint8_t *starts, size_t starts_length, const uint8_t *columns,
                                          size_t columns_length, uint32_t allowance, const struct frame_head *a,
                                          const struct frame_head *b, uint8_t *degrees, size_t degrees_length, uint8_t *reports,
                                          size_t reports_length) {
  return frame_decode_pair(n, starts, starts_length, columns, columns_length, allowance, a->values, a->values_length, a->kind, a->gain,
                           a->variance, a->channel, a->message, a->phi_s, a->phi_a, a->phi_0, a->limit, a->lift_from, a->lift_to,
                           b->values, b->values_length, b->kind, b->gain, b->variance, b->channel, b->message, b->phi_s, b->phi_a,
                           b->phi_0, b->limit, b->lift_from, b->lift_to, degrees, degrees_length, a->levels, a->levels_length,
                           a->variable_messages, a->variable_messages_length, a->check_messages, a->check_messages_length, a->sums,
                           a->sums_length, a->bits, a->bits_length, b->levels, b->levels_length, b->variable_messages,
                           b->variable_messages_length, b->check_messages, b->check_messages_length, b->sums, b->sums_length, b->bits,
                           b->bits_length, reports, reports_length);
}

/* The place of the refusal that frame_decode_pair gave for the same graph, values of both heads and length of `degrees`; `answer` is what it
   answered. 0 where that is 0. The list of degrees is left as frame_decode_pair leaves it. */
size_t frame_decode_pair_place(size_t n, const uint8_t *starts, size_t starts_length, const uint8_t *columns, size_t columns_length,
                               const uint8_t *first_values, size_t first_values_length, const uint8_t *second_values,
                               size_t second_values_length, uint64_t answer, uint8_t *degrees, size_t degrees_length);

/* Reads a code sheet, the bytes `text`, into the two lists of its graph.

   Lent: degrees, 4n bytes, as above; starts, 4(m + 1) bytes, and columns, 4E bytes; 4,000,000, 4,000,004 and 16,000,000 bytes are enough
   for every sheet. The degrees are looked at after the last line; starts and columns afterwards hold the graph's, and bytes past these lengths
   are as they were. Decode and write take lists of just these lengths. After a refusal every byte but the degrees' is as it was. The answer
   is taken apart by frame_refusal, frame_variables, frame_checks and frame_entries. */
uint64_t frame_read_sheet(const uint8_t *text, size_t text_length, uint8_t *degrees, size_t degrees_length, uint8_t *starts,
                          size_t starts_length, uint8_t *columns, size_t columns_length);

/* The place of the refusal that frame_read_sheet gives for the same text and lent lists of these lengths, a line counted from 1 for
   1 to 4; 0 where it refuses nothing. The list of degrees is left as frame_read_sheet leaves it. */
size_t frame_read_sheet_place(const uint8_t *text, size_t text_length, uint8_t *degrees, size_t degrees_length, size_t starts_length,
                              size_t columns_length);

/* Writes the code sheet of a graph.

   Lent: degrees, 4n bytes, as above; text, as many bytes as the sheet has; 48 + 14E bytes are enough for every graph of E entries.
   Afterwards the sheet stands at its front, and bytes past it are as they were. After a refusal every byte but the degrees' is as it was.
   The answer is taken apart by frame_refusal and frame_text_length. */
uint64_t frame_write_sheet(size_t n, const uint8_t *starts, size_t starts_length, const uint8_t *columns, size_t columns_length,
                           uint8_t *degrees, size_t degrees_length, uint8_t *text, size_t text_length);

/* The place of the refusal that frame_write_sheet gives for the same graph, list of degrees and a lent text of this length; 0 where it
   refuses nothing. The list of degrees is left as frame_write_sheet leaves it. */
size_t frame_write_sheet_place(size_t n, const uint8_t *starts, size_t starts_length, const uint8_t *columns, size_t columns_length,
                               uint8_t *degrees, size_t degrees_length, size_t text_length);

/* Reads a block sheet: a code sheet that gives its graph by shifted blocks.

   Its lines: `size rows columns`, these three numbers, `row column shift`, then a line for each entry, rising by row and then column, at most
   one for each pair. With size Z, entry (i, j, k) puts a one at check iZ + r and variable jZ + ((r + k) mod Z) for every r below Z. The graph
   of these ones, its expansion, has n = columns times Z variables, m = rows times Z checks and E = Z times the entries, and comes as
   frame_read_sheet gives it: lists, lengths and answer are as there. */
uint64_t frame_read_blocks(const uint8_t *text, size_t text_length, uint8_t *degrees, size_t degrees_length, uint8_t *starts,
                           size_t starts_length, uint8_t *columns, size_t columns_length);

/* The place of the refusal that frame_read_blocks gives for the same text and lent lists of these lengths, a line counted from 1 for
   1 to 4 and 17; 0 where it refuses nothing. The list of degrees is left as frame_read_blocks leaves it. */
size_t frame_read_blocks_place(const uint8_t *text, size_t text_length, uint8_t *degrees, size_t degrees_length, size_t starts_length,
                               size_t columns_length);

/* Writes the block sheet of a size, counts of rows and columns, and entries: three u32 for each, row, column and shift.

   Lent: degrees, 4 times columns times size bytes, as above; text, as many bytes as the sheet has; 59 bytes and 21 for each entry are
   enough.
   Afterwards the sheet stands at its front, and bytes past it are as they were. It refuses as frame_read_blocks would of that text, with the
   same places, up to 5; then 6 where the text is too short. After a refusal every byte but the degrees' is as it was. The answer is taken
   apart by frame_refusal and frame_text_length. */
uint64_t frame_write_blocks(size_t size, size_t rows, size_t columns, const uint8_t *entries, size_t entries_length, uint8_t *degrees,
                            size_t degrees_length, uint8_t *text, size_t text_length);

/* The place of the refusal that frame_write_blocks gives for the same numbers, entries, list of degrees and a lent text of this length; 0
   where it refuses nothing. The list of degrees is left as frame_write_blocks leaves it. */
size_t frame_write_blocks_place(size_t size, size_t rows, size_t columns, const uint8_t *entries, size_t entries_length,
                                uint8_t *degrees, size_t degrees_length, size_t text_length);

/* The writing side: gives the codeword that holds given bits. `positions` are variables (u16), strictly rising, and `given` has a byte for each, its
   bit, 0 or 1; none may be given, or all n. Of several codewords that hold these bits it is the one with 0 at the first place where they differ. The
   graph has at most 2,048 variables and 512 checks.

   Lent: degrees, 4n bytes, as above; codeword, n bytes; work, m times (n / 8 rounded down, plus 1) bytes; 131,584 are enough for every graph.
   Longer ones may be lent, and what is in them does not matter. Afterwards the codeword stands at its front, a byte for each variable, 0 or 1, and the
   work bytes are all 0; bytes past these lengths are as they were. After a 19 the work bytes are all 0 too, and the codeword is as it was. After
   any other refusal every byte but the degrees' is as it was. The answer is taken apart by frame_refusal. */
uint64_t frame_encode(size_t n, const uint8_t *starts, size_t starts_length, const uint8_t *columns, size_t columns_length,
                      const uint8_t *positions, size_t positions_length, const uint8_t *given, size_t given_length, uint8_t *degrees,
                      size_t degrees_length, uint8_t *codeword, size_t codeword_length, uint8_t *work, size_t work_length);

/* The place of the refusal that frame_encode gives for the same graph, positions, given bits and length of `degrees`; 0 where it refuses nothing, and
   for 2, 6, 18 and 19, so the other lent memory has no part in it. The list of degrees is left as frame_encode leaves it. */
size_t frame_encode_place(size_t n, const uint8_t *starts, size_t starts_length, const uint8_t *columns, size_t columns_length,
                          const uint8_t *positions, size_t positions_length, const uint8_t *given, size_t given_length,
                          uint8_t *degrees, size_t degrees_length);

/* The number of the refusal, 0 where nothing is refused. Of any call: 2 a count outside its limits, in a sheet also an entry past the 4,000,000th,
   in a block sheet one that takes E past that; 3 a column not below n, in a sheet a number out of range; 4 a column not above its predecessor in
   the row, in a sheet an entry not after the one above; 5 a degree outside its limits; 6 a lent buffer too short, the list of degrees before 5 is
   looked for and every other last, but before 19 and 21.
   Of reading: 1 a line of another form, or a missing line or LF. Of block sheets: 17 a size of 0, or a shift not below the size.
   Of decode, begin, advance, encode and of writing a sheet: 7 starts not beginning at 0, one below the start before it, or not ending at E.
   Of decode, begin and advance: 8 precisions not admitted; 9 an offset above 1 or limit above 255; 16 lift_from or lift_to outside its bounds. Of
   decode and begin: 10 gain or variance not finite and above zero, or another kind; 11 factor infinite or zero; 12 a value infinite or NaN; 20 a
   blank frame; 13 other than n values.
   Of advance, after 6: 21 a record that is finished or at or past its limit, or a number that no begin or advance answers as open; a count above
   the limit; a level beyond the channel precision, or a message of either list beyond the message precision.
   Of encode, where 2 is also n above 2,048 or m above 512: 18 a position not below n or not above its predecessor, or not as many positions as
   given bits; 15 a given byte not 0 or 1; 19 no codeword holds the given bits.
   Of a pair, after what decode refuses of either head: 22 an allowance outside 2 to 510. */
static inline unsigned frame_refusal(uint64_t answer) { return (unsigned)(answer & 255); }

/* Of decode, begin and advance, where nothing is refused: whether the bits are a codeword, the number of the iteration where the run stopped or
   halted, and how many checks are unsatisfied there. Of begin and advance also: whether the run is still open, neither a codeword nor at its limit.
   The answer's lowest byte is then 0, the next is 0 for a codeword, 1 for stopped, 2 for open, the next two are the iteration, the upper four the
   unsatisfied checks. */
static inline int frame_is_open(uint64_t answer) { return (answer >> 8 & 255) == 2; }
static inline int frame_is_codeword(uint64_t answer) { return (answer >> 8 & 255) == 0; }
static inline unsigned frame_iterations(uint64_t answer) { return (unsigned)(answer >> 16 & 65535); }
static inline unsigned frame_unsatisfied(uint64_t answer) { return (unsigned)(answer >> 32); }

/* Of a pair: the head whose refusal it is, 1 or 2, and 0 for a refusal of neither, which is 22 or the 6 of `reports`, or where nothing is refused.
   Then the report of a head, 0 or 1, as frame_decode answers it; frame_is_codeword, frame_iterations and frame_unsatisfied take it apart. */
static inline unsigned frame_refused_head(uint64_t answer) { return (unsigned)(answer >> 8 & 255); }
static inline uint64_t frame_report(const uint8_t *reports, size_t head) {
  uint64_t report = 0;
  for (size_t i = 8; i > 0; i--) {
    report = report << 8 | reports[8 * head + i - 1];
  }
  return report;
}

/* Of reading, where nothing is refused: n, m, and E, which is the last of the starts that were read. */
static inline unsigned frame_variables(uint64_t answer) { return (unsigned)(answer >> 8 & 16777215); }
static inline unsigned frame_checks(uint64_t answer) { return (unsigned)(answer >> 32 & 16777215); }
static inline unsigned frame_entries(uint64_t answer, const uint8_t *starts) {
  const uint8_t *last = starts + 4 * (size_t)frame_checks(answer);
  return (unsigned)last[0] | (unsigned)last[1] << 8 | (unsigned)last[2] << 16 | (unsigned)last[3] << 24;
}

/* Of writing, where nothing is refused: the length of the text in bytes. */
static inline size_t frame_text_length(uint64_t answer) { return (size_t)(answer >> 8); }

#ifdef __cplusplus
}
#endif

#endif
