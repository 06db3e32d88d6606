/* check TABLE RECORDING: judges a recording by a table, both named files, and prints three lines: the verdict, the number of accepted
 * steps, and two words for each constraint. A file that cannot be opened or read counts as empty. A variable of the recording whose name the
 * table lacks is refused, with 38; with CCSL_UNKNOWN_IGNORED it would be ignored. */
#include <inttypes.h>
#include <stdio.h>

#include "ccsl_monitor.h"

/* One byte more than a table and a recording may have, so that a longer file is refused for its length. */
static uint8_t table[4096 + 1];
static uint8_t recording[65536 + 1];

/* Reads as much of a file as there is room for, and returns the number of bytes. */
static size_t read_file(const char *name, uint8_t *bytes, size_t room)
{
    FILE *file = fopen(name, "rb");
    if (file == NULL)
        return 0;
    size_t length = fread(bytes, 1, room, file);
    if (ferror(file))
        length = 0;
    fclose(file);
    return length;
}

static void print_verdict(const uint64_t *answer)
{
    switch (answer[0]) {
    case CCSL_ACCEPTED:
        printf("accepted\n");
        break;
    case CCSL_VIOLATED:
        printf("violated %" PRIu64 " %" PRIu64 "\n", answer[1], answer[2]);
        break;
    default:
        printf("refused %" PRIu64 " %" PRIu64 "\n", answer[1], answer[2]);
    }
}

static void print_words(const int64_t *words, uint64_t constraints)
{
    printf("config");
    for (uint64_t i = 0; i < 2 * constraints; i++)
        printf(" %" PRId64, words[i]);
    printf("\n");
}

int main(int argc, char **argv)
{
    uint64_t answer[CCSL_RUN_ANSWER];
    int64_t words[CCSL_WORDS];

    if (argc != 3) {
        fprintf(stderr, "usage: check TABLE RECORDING\n");
        return 2;
    }
    size_t table_length = read_file(argv[1], table, sizeof table);
    size_t recording_length = read_file(argv[2], recording, sizeof recording);

    uint32_t status = ccsl_run(table, table_length, recording, recording_length, CCSL_UNKNOWN_REFUSED, answer, CCSL_RUN_ANSWER, words,
                               CCSL_WORDS);
    if (status != CCSL_DONE) {
        fprintf(stderr, "check: ccsl_run returned %" PRIu32 "\n", status);
        return 1;
    }
    print_verdict(answer);
    printf("steps %" PRIu64 "\n", answer[3]);
    print_words(words, answer[4]);
    return 0;
}
