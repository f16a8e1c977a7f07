/* A host in C: it runs a routine, meets a failed check, gives a start value, and shows a refusal. */
#include <inttypes.h>
#include <stdio.h>

#include "sledkindle.h"

static const char *const outcomes[] = {"done", "check-1", "check-2", "check-3", "check-4", "fuel"};

/* Store 7 through home 1 + k: T1 is a reference to int, home 1 has three cells. */
static const uint8_t in_range[] = {
    1, 0, 0, 0,             /* one type: reference to int */
    1, 0, 1, 0, 3, 0,       /* one home: type 1, three cells */
    4, 0,                   /* four expressions */
    1, 1, 0, 0, 0,          /*   e0: home 1 */
    0, 2, 0, 0, 0,          /*   e1: literal 2 */
    5, 0, 0, 1, 0,          /*   e2: e0 plus e1 */
    0, 7, 0, 0, 0,          /*   e3: literal 7 */
    1, 0,                   /* one command */
    2, 2, 0, 3, 0, 0, 0,    /*   c0: store through e2 the value of e3 */
};

static void run(const char *name, const uint8_t *file, size_t length) {
    uint8_t marking[255];
    uint64_t memory[4096] = {0};
    struct sledkindle_answer marked = sledkindle_infer(file, length, marking, sizeof marking);
    if (marked.number != 0) {
        printf("%s: refused %" PRIu32 " at %" PRIu32 "\n", name, marked.number, marked.place);
        return;
    }
    size_t types = file[0];
    struct sledkindle_ran ran =
        sledkindle_run(file, length, marking, types, 1000000, memory, sizeof memory / sizeof memory[0]);
    printf("%s: %s at %" PRIu32 " after %" PRIu32 " units; cells %" PRIu64 " %" PRIu64 " %" PRIu64 "\n", name,
           outcomes[ran.outcome], ran.place, ran.units, memory[0], memory[1], memory[2]);
}

int main(void) {
    uint8_t past_the_end[sizeof in_range];
    for (size_t i = 0; i < sizeof in_range; i++) past_the_end[i] = in_range[i];
    past_the_end[18] = 3; /* home 1 + 3: one cell too far */

    /* The same routine, told at its start that a disc is in: cell 0 of home 1 starts as 1. */
    static const uint8_t start_values[] = {1, 0, 1, 0, 0, 0, 1, 0, 0, 0};
    uint8_t disc_in[sizeof in_range + sizeof start_values];
    for (size_t i = 0; i < sizeof in_range; i++) disc_in[i] = in_range[i];
    for (size_t i = 0; i < sizeof start_values; i++) disc_in[sizeof in_range + i] = start_values[i];

    run("in range", in_range, sizeof in_range);
    run("past the end", past_the_end, sizeof past_the_end);
    run("disc in", disc_in, sizeof disc_in);
    run("cut short", in_range, sizeof in_range - 1);
    return 0;
}
