/* Writes the script of the paper's example, reads it through, runs it, and runs its steps one by one. Both print the same. */
#include <stdio.h>
#include <string.h>

#include "hoyllaqe.h"

static const uint32_t config[HOYLLAQE_CONFIG] = {2, 1, 1, 0, 5, 4, 10};

static const uint32_t steps[] = {
    1, 5, 0, 0,   /* pass 5 0 0 */
    4, 0, 1, 1,   /* notice 0 1 1 */
    4, 1, 0, 1,   /* notice 1 0 1 */
    1, 5, 0, 0,   /* pass 5 0 0 */
    4, 0, 1, 1,   /* notice 0 1 1 */
    4, 1, 0, 1,   /* notice 1 0 1 */
    1, 5, 0, 0,   /* pass 5 0 0 */
    5, 0, 0, 0,   /* discover 0 */
    8, 0, 0, 0,   /* deliver 0 0 */
    8, 1, 0, 0,   /* deliver 1 0 */
    6, 0, 100, 0, /* request 0 100 */
    8, 1, 0, 0,   /* deliver 1 0 */
    8, 2, 0, 0,   /* deliver 2 0 */
    5, 0, 0, 0,   /* discover 0 */
};

enum { NUMBERS = sizeof steps / sizeof steps[0] };

static uint32_t facade[HOYLLAQE_FACADE];
static uint8_t script[HOYLLAQE_SCRIPT];
static uint8_t output[HOYLLAQE_OUTPUT];
static char lines[4096];

/* The first number of client 0 is its state, and 4 is holding. */
enum { TIME = 7, WAITING = 9, CLIENTS = 1754, HOLDING = 4 };

static size_t run_by_steps(void) {
    size_t at = 0;
    if (hoyllaqe_fresh(config, HOYLLAQE_CONFIG, facade, HOYLLAQE_FACADE) != 0) {
        return 0;
    }
    at += sprintf(lines + at, "facade %u %u %u\n", config[0], config[1], config[2]);
    for (size_t i = 0; i < NUMBERS; i += HOYLLAQE_STEP) {
        uint32_t outcome;
        uint32_t refusal = hoyllaqe_step(facade, HOYLLAQE_FACADE, steps[i], steps[i + 1], steps[i + 2], steps[i + 3], &outcome);
        at += sprintf(lines + at, "%zu %u %u %u %u\n", i / HOYLLAQE_STEP + 1, refusal, outcome, facade[TIME], facade[WAITING]);
    }
    at += sprintf(lines + at, "held %d\n", facade[CLIENTS] == HOLDING);
    return at;
}

int main(void) {
    size_t length;
    uint32_t refusal = hoyllaqe_write(config, HOYLLAQE_CONFIG, steps, NUMBERS, script, sizeof script, &length);
    if (refusal != 0 || hoyllaqe_verdict(script, length) != 0) {
        fprintf(stderr, "the script is refused\n");
        return 1;
    }
    size_t printed = hoyllaqe_run(script, length, output, sizeof output);
    fwrite(output, 1, printed, stdout);
    if (run_by_steps() != printed || memcmp(lines, output, printed) != 0) {
        fprintf(stderr, "the steps one by one gave something else:\n%s", lines);
        return 1;
    }
    return 0;
}
