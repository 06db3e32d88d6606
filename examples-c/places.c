/* places: two packing machines take single steps by the same table, on different ways, and are asked whether they stand at the same
 * place; then the same by a record that is made by hand, a delay. What it prints is in places.printed. */
#include <inttypes.h>
#include <stdio.h>
#include <stdlib.h>
#include <string.h>

#include "ccsl_monitor.h"

/* The clocks are numbered in the order in which they first stand here. */
static const char text[] = "fill strictly precedes seal\n"
                           "done clockDef fill lub seal\n"
                           "full clockDef await 3 seal\n";
enum { FILL = 1 << 0, SEAL = 1 << 1, DONE = 1 << 2 };

/* The table as the library reads it, until a record made by hand takes its place. */
static uint64_t records[CCSL_RECORDS * CCSL_RECORD];
static uint64_t names[CCSL_CLOCKS * 2];
static uint64_t constraints;
static uint32_t clocks, named;

static void check(uint32_t status)
{
    if (status != CCSL_DONE) {
        fprintf(stderr, "places: a call returned %" PRIu32 "\n", status);
        exit(1);
    }
}

/* Prints the names of the clocks in a tick set, which holds named clocks alone. */
static void print_clocks(uint32_t set)
{
    for (uint32_t k = 0; k < named; k++)
        if (set >> k & 1)
            printf(" %.*s", (int)(names[2 * k + 1] - names[2 * k]), text + names[2 * k]);
}

static void read_table(void)
{
    uint64_t answer[CCSL_READ_ANSWER];
    check(ccsl_read_table((const uint8_t *)text, strlen(text), answer, CCSL_READ_ANSWER, records, CCSL_RECORDS * CCSL_RECORD, names,
                          CCSL_CLOCKS * 2));
    if (answer[0] != CCSL_ACCEPTED) {
        printf("refused %" PRIu64 " %" PRIu64 "\n", answer[1], answer[2]);
        exit(1);
    }
    constraints = answer[3];
    clocks = (uint32_t)answer[4];
    named = (uint32_t)answer[5];
    printf("%" PRIu64 " constraints on %" PRIu32 " clocks:", constraints, clocks);
    print_clocks(UINT32_MAX);
    printf("\n");
}

static void print_words(const int64_t *words)
{
    printf("config");
    for (uint64_t i = 0; i < 2 * constraints; i++)
        printf(" %" PRId64, words[i]);
    printf("\n");
}

/* Puts `done clockDef fill deferred seal for 2 3` in the place of the table's records. The clocks stay those of the table. */
static void delay_by_hand(void)
{
    const uint64_t record[CCSL_RECORD] = {CCSL_DEFERRED, 2, 0, 1, 0, 0, CCSL_DELAY(0, 2) | CCSL_DELAY(1, 3), 2};
    memcpy(records, record, sizeof record);
    constraints = 1;
}

/* Puts a machine's monitor at the start words of the records. */
static void start(int64_t *words)
{
    uint64_t answer[CCSL_START_ANSWER];
    check(ccsl_start_words(records, constraints * CCSL_RECORD, named, clocks, words, CCSL_WORDS, answer, CCSL_START_ANSWER));
}

/* Moves a monitor one step forward and prints how the step was judged, and where the monitor then stands. */
static void step(int64_t *words, uint32_t set)
{
    uint64_t answer[CCSL_STEP_ANSWER];
    check(ccsl_step(records, constraints * CCSL_RECORD, named, clocks, words, CCSL_WORDS, set, answer, CCSL_STEP_ANSWER));
    printf(" ");
    print_clocks(set);
    if (answer[0] == CCSL_ACCEPTED)
        printf(": accepted");
    else if (answer[0] == CCSL_VIOLATED)
        printf(": violated %" PRIu64, answer[1]);
    else
        printf(": refused %" PRIu64 " %" PRIu64, answer[1], answer[2]);
    printf(", ");
    print_words(words);
}

static void compare(const int64_t *one, const int64_t *other)
{
    uint64_t answer[CCSL_PLACE_ANSWER];
    check(ccsl_same_place(records, constraints * CCSL_RECORD, named, clocks, one, CCSL_WORDS, other, CCSL_WORDS, answer,
                          CCSL_PLACE_ANSWER));
    if (answer[0] == CCSL_ACCEPTED)
        printf("The same place: no constraint tells the two machines apart, whatever comes.\n");
    else if (answer[0] == CCSL_VIOLATED)
        printf("Different places: some constraint accepts from one what it refuses from the other.\n");
    else
        printf("refused %" PRIu64 " %" PRIu64 "\n", answer[1], answer[2]);
}

int main(void)
{
    int64_t one[CCSL_WORDS], other[CCSL_WORDS];

    if (ccsl_layout() != CCSL_LAYOUT) {
        fprintf(stderr, "places: the library has layout %" PRIu32 "\n", ccsl_layout());
        return 1;
    }
    read_table();
    start(one);
    start(other);
    printf("Both start with ");
    print_words(one);

    printf("\nOne machine seals a box before it fills the next.\n");
    step(one, FILL);
    step(one, SEAL | DONE);
    step(one, FILL);

    printf("\nThe other fills two boxes first.\n");
    step(other, FILL);
    step(other, FILL);
    step(other, SEAL | DONE);
    compare(one, other);

    printf("\nA seal without done breaks the second constraint and moves nothing.\n");
    step(other, SEAL);
    compare(one, other);

    printf("\nThe other machine seals its second box.\n");
    step(other, SEAL | DONE);
    compare(one, other);

    printf("\nBy a delay, done comes with the second seal after the first fill, and with the third after the next.\n");
    delay_by_hand();
    start(one);
    step(one, FILL);
    step(one, SEAL);
    step(one, FILL);
    step(one, SEAL);
    step(one, SEAL | DONE);

    printf("\nThe other machine has the same tick of done before it, and a number of the list besides.\n");
    start(other);
    step(other, FILL);
    compare(one, other);
    return 0;
}
