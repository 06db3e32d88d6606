/* steps: reads the steps of document 01's recording, and takes them one by one: of each its time, the offset of its mark, its tick set, and what a
 * monitor says of it. */
#include <inttypes.h>
#include <stdio.h>
#include <string.h>

#include "ccsl_monitor.h"

static const char table[] = "req strictly precedes ack\ndone clockDef await 2 ack";
static const char recording[] = "$var event 1 ! req $end $var event 1 \" ack $end $var event 1 % done $end $enddefinitions $end "
                                "#0 1! #3 #5 1\" 1! #8 1\" 1% #9 1! 1\"";

/* As many as the recording has bytes, which its steps never exceed. */
enum {
    ROOM = sizeof recording
};

static uint64_t times[ROOM], marks[ROOM];
static uint32_t ticks[ROOM];
static uint64_t records[CCSL_RECORDS * CCSL_RECORD], names[CCSL_CLOCKS * 2];
static int64_t words[CCSL_WORDS];

/* Every call here has lists of the right length, so that any other status is a fault of this program. */
static int done(uint32_t status)
{
    if (status != CCSL_DONE)
        fprintf(stderr, "steps: a call returned %" PRIu32 "\n", status);
    return status == CCSL_DONE;
}

int main(void)
{
    uint64_t read[CCSL_READ_ANSWER], started[CCSL_START_ANSWER], steps[CCSL_STEPS_ANSWER], answer[CCSL_STEP_ANSWER];

    if (!done(ccsl_read_table((const uint8_t *)table, strlen(table), read, CCSL_READ_ANSWER, records, CCSL_RECORDS * CCSL_RECORD, names,
                              CCSL_CLOCKS * 2)))
        return 1;
    size_t numbers = (size_t)read[3] * CCSL_RECORD;
    uint32_t clocks = (uint32_t)read[4], named = (uint32_t)read[5];
    if (!done(ccsl_start_words(records, numbers, named, clocks, words, CCSL_WORDS, started, CCSL_START_ANSWER)))
        return 1;
    if (!done(ccsl_read_recording((const uint8_t *)table, strlen(table), (const uint8_t *)recording, strlen(recording), CCSL_UNKNOWN_REFUSED,
                                  steps, CCSL_STEPS_ANSWER, times, ROOM, marks, ROOM, ticks, ROOM)))
        return 1;
    for (uint64_t i = 0; i < steps[3]; i++) {
        if (!done(ccsl_step(records, numbers, named, clocks, words, CCSL_WORDS, ticks[i], answer, CCSL_STEP_ANSWER)))
            return 1;
        printf("#%" PRIu64 " at %" PRIu64 ", ticks %" PRIu32 ": ", times[i], marks[i], ticks[i]);
        if (answer[0] == CCSL_ACCEPTED)
            printf("accepted, words");
        else
            printf("record %" PRIu64 " violated, words", answer[1]);
        for (uint64_t k = 0; k < 2 * read[3]; k++)
            printf(" %" PRId64, words[k]);
        printf("\n");
        if (answer[0] != CCSL_ACCEPTED)
            break;
    }
    printf("%s, %" PRIu64 " steps\n", steps[0] == CCSL_ACCEPTED ? "read to the end" : "refused", steps[3]);
    return 0;
}
