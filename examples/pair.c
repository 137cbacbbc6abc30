/* Two heads read a frame each on the same graph, and have one allowance of iterations for both. The graph is a chain of six variables: check i has
   variables i and i + 1, so a codeword is all 0 or all 1. Each frame is exposed in a few places; their bit comes one variable further along the chain
   in every iteration. Alone the first head takes two iterations, the second five.

   For a few allowances this prints what each head comes to, and then two pairs that are refused. */
#include <math.h>
#include <stdio.h>
#include <string.h>

#include "frame.h"

enum { VARIABLES = 6, ENTRIES = 10, CHANNEL = 3, MESSAGE = 3, PHI_S = 1, PHI_A = 1, PHI_0 = 0, LIMIT = 20, LIFT_TO = 15 };

static const uint8_t starts[] = {0, 0, 0, 0, 2, 0, 0, 0, 4, 0, 0, 0, 6, 0, 0, 0, 8, 0, 0, 0, 10, 0, 0, 0};
static const uint8_t columns[] = {0, 0, 0, 0, 1, 0, 0, 0, 1, 0, 0, 0, 2, 0, 0, 0, 2, 0, 0, 0, 3, 0, 0, 0, 3, 0, 0, 0, 4, 0, 0, 0, 4, 0, 0, 0,
                                  5, 0, 0, 0};

/* What a head has read, and the memory lent for its run. Both heads have the same settings here; each could have its own. */
struct head {
    uint8_t values[4 * VARIABLES];
    uint8_t levels[VARIABLES], variable_messages[ENTRIES], check_messages[ENTRIES], sums[4 * VARIABLES], bits[VARIABLES];
};

static uint8_t degrees[4 * VARIABLES], reports[16];

/* The values as the bytes of a list, lowest byte first. */
static void read_frame(struct head *head, const float values[VARIABLES])
{
    for (size_t v = 0; v < VARIABLES; v++) {
        uint32_t bits;
        memcpy(&bits, &values[v], sizeof bits);
        for (size_t i = 0; i < 4; i++) {
            head->values[4 * v + i] = (uint8_t)(bits >> 8 * i);
        }
    }
}

/* The head as the library takes it: the frame, the numbers and the memory. */
static struct frame_head lend(struct head *head)
{
    return (struct frame_head){
        .values = head->values, .values_length = sizeof head->values, .kind = FRAME_PLAIN, .gain = 1.0f, .variance = 0.0f,
        .channel = CHANNEL, .message = MESSAGE, .phi_s = PHI_S, .phi_a = PHI_A, .phi_0 = PHI_0, .limit = LIMIT,
        .lift_from = FRAME_NEVER, .lift_to = LIFT_TO,
        .levels = head->levels, .levels_length = sizeof head->levels,
        .variable_messages = head->variable_messages, .variable_messages_length = sizeof head->variable_messages,
        .check_messages = head->check_messages, .check_messages_length = sizeof head->check_messages,
        .sums = head->sums, .sums_length = sizeof head->sums, .bits = head->bits, .bits_length = sizeof head->bits,
    };
}

static uint64_t decode_pair(uint32_t allowance, struct head *first, struct head *second)
{
    struct frame_head a = lend(first), b = lend(second);

    return frame_decode_heads(VARIABLES, starts, sizeof starts, columns, sizeof columns, allowance, &a, &b, degrees, sizeof degrees, reports,
                              sizeof reports);
}

static void print_head(uint32_t allowance, unsigned number, const struct head *head)
{
    uint64_t report = frame_report(reports, number - 1);

    printf("%9u%6u  %-8s%12u%13u  ", (unsigned)allowance, number, frame_is_codeword(report) ? "codeword" : "stopped",
           frame_iterations(report), frame_unsatisfied(report));
    for (size_t v = 0; v < VARIABLES; v++) {
        putchar('0' + head->bits[v]);
    }
    putchar('\n');
}

/* Decodes a pair, and prints a line for each head, or the refusal: its number, the head that it belongs to, 0 for neither, and its place. */
static void print_pair(uint32_t allowance, struct head *first, struct head *second)
{
    uint64_t answer = decode_pair(allowance, first, second);

    if (frame_refusal(answer) != 0) {
        size_t place = frame_decode_pair_place(VARIABLES, starts, sizeof starts, columns, sizeof columns, first->values, sizeof first->values,
                                               second->values, sizeof second->values, answer, degrees, sizeof degrees);
        printf("refusal head place\n%u %u %lu\n", frame_refusal(answer), frame_refused_head(answer), (unsigned long)place);
        return;
    }
    print_head(allowance, 1, first);
    print_head(allowance, 2, second);
}

int main(void)
{
    static const float of_first[VARIABLES] = {0.0f, 0.0f, -1.5f, -1.5f, 0.0f, 0.0f};
    static const float of_second[VARIABLES] = {0.0f, 0.0f, 0.0f, 0.0f, 0.0f, -1.5f};
    static const float damaged[VARIABLES] = {0.0f, 0.0f, 0.0f, NAN, 0.0f, -1.5f};
    /* Of 2 both are cut short at their halves. Of 3 and 4 the first has what it takes: just its half, which is rounded up; the second is cut short at
       its own. Of 6 the first leaves one of its half to the second, and of 7 two; the second has then all that it takes. */
    static const uint32_t allowances[] = {2, 3, 4, 6, 7};
    static struct head first, second;

    read_frame(&first, of_first);
    read_frame(&second, of_second);
    printf("allowance  head  verdict   iterations  unsatisfied  bits\n");
    for (size_t i = 0; i < sizeof allowances / sizeof allowances[0]; i++) {
        print_pair(allowances[i], &first, &second);
    }

    printf("\nan allowance of 511:\n");
    print_pair(511, &first, &second);
    printf("\na value that is no number, in the second frame:\n");
    read_frame(&second, damaged);
    print_pair(7, &first, &second);
    return 0;
}
