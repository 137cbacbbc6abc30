/* Begins document 01's example, advances it by one iteration until it is finished, and prints each iteration as a table that can be followed by
   hand.

   The variable messages of a table are those sent in the iteration before, from which its check messages are made; at iteration 0 they are its
   own, and check messages and sums are all 0. Sums are in halves: they are those of the levels and of the check messages beside them. What a variable
   sends in an iteration stands in the next table. */
#include <stdio.h>

#include "frame.h"

enum { VARIABLES = 3, CHECKS = 2, ENTRIES = 4, CHANNEL = 3, MESSAGE = 3, PHI_S = 1, PHI_A = 1, PHI_0 = 0, LIMIT = 5, LIFT_TO = 15 };

/* Check 0 has variables 0 and 1, check 1 has 1 and 2. The values are 2.5, -0.5 and 1.5. */
static const uint8_t starts[] = {0, 0, 0, 0, 2, 0, 0, 0, 4, 0, 0, 0};
static const uint8_t columns[] = {0, 0, 0, 0, 1, 0, 0, 0, 1, 0, 0, 0, 2, 0, 0, 0};
static const uint8_t values[] = {0, 0, 0x20, 0x40, 0, 0, 0, 0xbf, 0, 0, 0xc0, 0x3f};

/* The run: its lists, which stay as they are between the calls. */
static uint8_t degrees[4 * VARIABLES], levels[VARIABLES], variable_messages[ENTRIES], check_messages[ENTRIES], sums[4 * VARIABLES],
    bits[VARIABLES];

static uint64_t begin(void)
{
    return frame_begin(VARIABLES, starts, sizeof starts, columns, sizeof columns, values, sizeof values, FRAME_PLAIN, 1.0f, 0.0f, CHANNEL,
                       MESSAGE, PHI_S, PHI_A, PHI_0, LIMIT, FRAME_NEVER, LIFT_TO, degrees, sizeof degrees, levels, sizeof levels,
                       variable_messages, sizeof variable_messages, check_messages, sizeof check_messages, sums, sizeof sums, bits,
                       sizeof bits);
}

static uint64_t advance(uint64_t record, uint32_t count)
{
    return frame_advance(record, VARIABLES, starts, sizeof starts, columns, sizeof columns, CHANNEL, MESSAGE, PHI_S, PHI_A, PHI_0, LIMIT,
                         FRAME_NEVER, LIFT_TO, count, degrees, sizeof degrees, levels, sizeof levels, variable_messages,
                         sizeof variable_messages, check_messages, sizeof check_messages, sums, sizeof sums, bits, sizeof bits);
}

static unsigned number(const uint8_t *list, size_t i)
{
    const uint8_t *bytes = list + 4 * i;
    return (unsigned)bytes[0] | (unsigned)bytes[1] << 8 | (unsigned)bytes[2] << 16 | (unsigned)bytes[3] << 24;
}

/* The sign and the magnitude, which is one digit: +0, -0, +2. */
static void print_level(int width, uint8_t level)
{
    printf("%*c%u", width - 1, level & 128 ? '-' : '+', level & 127U);
}

static void print_iteration(uint64_t record)
{
    const char *said = frame_is_open(record) ? "open" : frame_is_codeword(record) ? "codeword" : "stopped";

    printf("iteration %u: %s, %u unsatisfied\n", frame_iterations(record), said, frame_unsatisfied(record));
    printf("variable  level   sum  bit\n");
    for (unsigned v = 0; v < VARIABLES; v++) {
        printf("%8u", v);
        print_level(7, levels[v]);
        printf("%6d%5u\n", (int)(int32_t)number(sums, v), bits[v]);
    }
    printf("check  variable  variable message  check message\n");
    for (unsigned check = 0; check < CHECKS; check++) {
        for (unsigned entry = number(starts, check); entry < number(starts, check + 1); entry++) {
            printf("%5u%10u", check, number(columns, entry));
            print_level(18, variable_messages[entry]);
            print_level(15, check_messages[entry]);
            putchar('\n');
        }
    }
}

static int refused(unsigned refusal, size_t place)
{
    printf("refusal place\n%u %lu\n", refusal, (unsigned long)place);
    return 1;
}

int main(void)
{
    uint64_t record = begin();

    if (frame_refusal(record) != 0) {
        return refused(frame_refusal(record), frame_begin_place(VARIABLES, starts, sizeof starts, columns, sizeof columns, values,
                                                                sizeof values, frame_refusal(record), degrees, sizeof degrees));
    }
    print_iteration(record);
    while (frame_is_open(record)) {
        uint64_t answer = advance(record, 1);
        if (frame_refusal(answer) != 0) {
            return refused(frame_refusal(answer), frame_advance_place(VARIABLES, starts, sizeof starts, columns, sizeof columns, degrees,
                                                                      sizeof degrees));
        }
        record = answer;
        putchar('\n');
        print_iteration(record);
    }
    return 0;
}
