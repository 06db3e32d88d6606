/* The checker for C: a table of clock constraints and a recording of ticks are read and judged by code that is proved to meet its
 * contract (crates/monitor_c). Numbers come in and go out in lists, which the caller owns.
 *
 * Every call but ccsl_layout returns a status. CCSL_DONE: the answer was written, and the other lists that the call writes. Any other: a list
 * that was handed in has not the shape that the call asks for, or the choice for unknown names is none of those below, and nothing was
 * written.
 *
 * The library keeps nothing between calls and has no state of its own, so that calls may run at once from several threads. Two calls at
 * once may read the same list; one that a call writes belongs to that call alone.
 *
 * A pointer is never NULL, also where its length is 0. A list that a call writes overlaps no other list of the same call. Lengths count
 * elements. Of a list that is longer than the call needs, the rest is left alone.
 *
 * A table's text and a recording may hold any bytes, and a list any numbers: what breaks a limit is refused, with the limit's number and
 * place (docs/refusals.md). Only a record's kind and the choice for unknown names have to be among those below.
 *
 * What lists hold has changed once: see CCSL_LAYOUT. */
#ifndef CCSL_MONITOR_H
#define CCSL_MONITOR_H

#include <stddef.h>
#include <stdint.h>

#ifdef __cplusplus
extern "C" {
#endif

/* What a call returns. The checks go in this order. */
enum {
    CCSL_DONE = 0,
    CCSL_ANSWER_SHORT = 1,   /* `answer` has fewer numbers than the call writes */
    CCSL_WORDS_SHORT = 2,    /* a configuration has fewer than CCSL_WORDS words, as those of layout 1 have */
    CCSL_RECORDS_SHORT = 3,  /* ccsl_read_table: `records` has fewer than CCSL_RECORDS * CCSL_RECORD numbers */
    CCSL_NAMES_SHORT = 4,    /* ccsl_read_table: `names` has fewer than CCSL_CLOCKS * 2 numbers */
    CCSL_RECORDS_RAGGED = 5, /* the calls on records: the numbers of `records` do not come in eights */
    CCSL_KIND_UNKNOWN = 6,   /* the same calls: a record's kind is above CCSL_DEFERRED */
    CCSL_ORDER_SHORT = 7,    /* ccsl_definition_order: `order` has fewer than CCSL_CLOCKS numbers */
    CCSL_CHOICE_INVALID = 8, /* ccsl_run and ccsl_read_recording: `unknown` is neither of the two choices */
    CCSL_STEPS_SHORT = 9     /* ccsl_read_recording: `times`, `marks` or `ticks` has fewer numbers than the recording has bytes */
};

/* The first number of every answer. */
enum {
    CCSL_ACCEPTED = 0, /* of ccsl_read_table: the table was read; of ccsl_start_words: started; of ccsl_same_place: the same place; of
                        * ccsl_definition_order: listed; of ccsl_read_recording: read to its end */
    CCSL_VIOLATED = 1, /* of ccsl_same_place: different places */
    CCSL_REFUSED = 2
};

/* Sizes of lists. */
enum {
    CCSL_WORDS = 128,     /* words of a configuration: two a record, in table order, the rest 0 */
    CCSL_RECORDS = 64,    /* records of a table */
    CCSL_RECORD = 8,      /* numbers of a record: kind, c, a, b, n, line, numbers, count */
    CCSL_CLOCKS = 32,     /* clocks of a table, named and implicit */
    CCSL_RUN_ANSWER = 5,  /* numbers of the answers */
    CCSL_READ_ANSWER = 6,
    CCSL_START_ANSWER = 3,
    CCSL_STEP_ANSWER = 3,
    CCSL_PLACE_ANSWER = 3,
    CCSL_ORDER_ANSWER = 4,
    CCSL_STEPS_ANSWER = 4
};

/* The kind of a record. A record is eight numbers: its kind; the numbers of the clocks c, a and b; the number n of an await; the table line;
 * the numbers of a delay's list, and their count. What a kind does not name is free: c of a relation, b of an await, n of all that are no
 * await, the list of all that are no delay, the line, everything of an empty record. A clock number above 255 counts as 255, an n above
 * 2^32 - 1 as 2^32 - 1, a count above 255 as 255; each is refused where the kind names it. */
enum {
    CCSL_EMPTY = 0,
    CCSL_COINCIDES = 1,         /* a = b */
    CCSL_EXCLUDES = 2,          /* a # b */
    CCSL_SUB_CLOCK = 3,         /* a isSubClockOf b */
    CCSL_STRICTLY_PRECEDES = 4, /* a strictly precedes b */
    CCSL_PRECEDES = 5,          /* a precedes b */
    CCSL_UNION = 6,             /* c clockDef a clockUnion b */
    CCSL_INTER = 7,             /* c clockDef a clockInter b */
    CCSL_LUB = 8,               /* c clockDef a lub b */
    CCSL_GLB = 9,               /* c clockDef a glb b */
    CCSL_AWAIT = 10,            /* c clockDef await n a */
    CCSL_STRICTLY_SAMPLED = 11, /* c clockDef a strictly sampled b */
    CCSL_SAMPLED = 12,          /* c clockDef a sampled b */
    CCSL_UPTO = 13,             /* c clockDef a upto b */
    CCSL_DEFERRED = 14          /* c clockDef a deferred b for n ... */
};

/* The list of a delay. `numbers` has a number a byte, the first in the lowest: of `for 2 3` it is 2 + 3 * 256, and `count` is 2. The bytes
 * from `count` on are free. A list of none or of over eight numbers, or one with a number outside 1 to 32, is refused with 59.
 * CCSL_DELAY(i, n) is n, 0 to 255, as number i, from 0 to 7, of a list: CCSL_DELAY(0, 2) | CCSL_DELAY(1, 3) is that of `for 2 3`. */
#define CCSL_DELAY(i, n) ((uint64_t)(n) << 8 * (i))

/* A configuration is a pair of words for each record: those of record i, from 0, stand at 2 * i and 2 * i + 1. The pair of a delay is its
 * pending ticks, bit k - 1 for the k-th next tick of b, and how many numbers of its list are used; it starts with 0 0. That of any other
 * record is what the record remembers, and 0. 60 speaks of pairs: of a delay the first word is 0 to 2^32 - 1 and the second 0 to the
 * length of the list, in any combination; the second word of all others is 0, and so are both of a pair behind the records. Its place is
 * the pair's, 1 to 64. */

/* The number of the layout of records and configurations that this header has. In layout 1 a record was its first six numbers, and a
 * configuration 64 words, one a record. What was saved in layout 1 becomes what it is here by two zeros behind the six numbers of each
 * record, and by a 0 behind each word of a configuration. */
enum {
    CCSL_LAYOUT = 2
};

/* The number of the layout that the library has, which is CCSL_LAYOUT where the library belongs to this header; a library of layout 1 has
 * no such call. Lists of records of the two layouts cannot be told apart by their lengths: four records of layout 1 are as long as three of
 * layout 2, and are judged as such. So a program that loads records which it saved keeps with them the number of their layout, and compares
 * it with the library's; and one that was compiled against another header than the library's compares its CCSL_LAYOUT. A configuration of
 * layout 1 is too short, and told by CCSL_WORDS_SHORT. */
uint32_t ccsl_layout(void);

/* Clocks have numbers from 0: first come the named ones, then the implicit ones. An implicit clock stands for an expression in parentheses,
 * as in `(a lub b) precedes c`, and a record defines it. It is not recorded, and a tick set holds named clocks alone: each step works out
 * the ticks of implicit clocks, in the order of the records, so that their definitions hold. The calls on records are told how many clocks are
 * named, and how many there are, named and implicit together: `named` and `clocks`. */

/* What becomes of a variable of the recording whose name the table lacks. */
enum {
    CCSL_UNKNOWN_REFUSED = 0, /* the run, or the reading, is refused, with 38 */
    CCSL_UNKNOWN_IGNORED = 1  /* the variable is ignored */
};

/* Judges a recording by a table.
 * unknown, the choice for variables whose names the table lacks: 0, CCSL_UNKNOWN_REFUSED, is the default, so that a misspelt name is told.
 * The place of 38 is the offset of the variable's `$var`; no step was read then, and the words are the start words. The place of 40 and 41 is
 * the offset of the byte that spoils a mark: the first that is no digit, the byte after a `#` that stands alone, or the digit that takes the
 * time above 2^64 - 1. That of a time not above the last, and of a word that is no change, is the offset of the word.
 * answer, 5 numbers: CCSL_ACCEPTED, 0, 0; or CCSL_VIOLATED, the table line, the recorded time; or CCSL_REFUSED, the limit's number, the
 * place; then the number of accepted steps and the number of constraints, both 0 where the table was refused.
 * words, 128 words: the configuration after the accepted steps, all 0 where the table was refused.
 * CCSL_ANSWER_SHORT, CCSL_WORDS_SHORT, CCSL_CHOICE_INVALID. */
uint32_t ccsl_run(const uint8_t *table, size_t table_len,
                  const uint8_t *recording, size_t recording_len,
                  uint32_t unknown,
                  uint64_t *answer, size_t answer_len,
                  int64_t *words, size_t words_len);

/* Reads a table.
 * answer, 6 numbers: CCSL_ACCEPTED, 0, 0; or CCSL_REFUSED, the limit's number, the line, from 1, or 0 where the text is too long; then the
 * number of constraints, the number of clocks, named and implicit together, and the number of named clocks, each 0 where the table was
 * refused. Of a line's parentheses speak 19, over sixteen stand open, and 20, one has no partner; of the list of a delay 22, between 14 and
 * 15: it has none or over eight numbers, or one outside 1 to 32.
 * records, 64 records of 8 numbers in table order: of a line, first those of its implicit clocks, inner before outer, left before right, then
 * its own; those behind the last are empty, with eight zeros. `numbers` and `count` are 0 of all that are no delay, and of a delay the bytes
 * of `numbers` from `count` on.
 * names, 32 pairs in the order of the named clocks' numbers: the offset in the text at which the clock's name starts where it first stands,
 * and the offset behind its last byte; zeros behind the last.
 * CCSL_ANSWER_SHORT, CCSL_RECORDS_SHORT, CCSL_NAMES_SHORT. */
uint32_t ccsl_read_table(const uint8_t *text, size_t text_len,
                         uint64_t *answer, size_t answer_len,
                         uint64_t *records, size_t records_len,
                         uint64_t *names, size_t names_len);

/* A monitor is its configuration alone, 128 words, which the caller keeps. ccsl_start_words gives it the start words of records, and ccsl_step
 * moves it forward where it stands (examples-c/places.c has two of them). The records are lent to each call: those that ccsl_read_table
 * wrote, with the two counts that it answered, or any made by hand. */

/* Puts a monitor at the start of records. records_len counts numbers, eight a record.
 * answer, 3 numbers: CCSL_ACCEPTED, 0, 0; or CCSL_REFUSED, 59, the place, exactly where every step on these records is refused so: 0 where
 * `clocks` is over 32 or `named` above `clocks`, else the first record that is bad, also one that uses, as a or b, an implicit clock which
 * no record above it defines.
 * words, 128 words: the start pair of each record, the rest 0; all 0 where the records are refused.
 * CCSL_ANSWER_SHORT, CCSL_WORDS_SHORT, CCSL_RECORDS_RAGGED, CCSL_KIND_UNKNOWN. More than 64 records, all of a known kind, are refused with
 * 59, at the first that is bad, else at 65. */
uint32_t ccsl_start_words(const uint64_t *records, size_t records_len,
                          uint32_t named, uint32_t clocks,
                          int64_t *words, size_t words_len,
                          uint64_t *answer, size_t answer_len);

/* One step of a monitor: `words` are moved where they stand if the step is accepted, and left alone else. Clock k ticks where bit k of
 * `ticks` is 1. Only named clocks can: a bit from `named` on is refused with 61, that of an implicit clock too.
 * answer, 3 numbers: CCSL_ACCEPTED, 0, 0; or CCSL_VIOLATED, the record from 1, 0, which never defines an implicit clock; or CCSL_REFUSED,
 * the limit's number, the place.
 * CCSL_ANSWER_SHORT, CCSL_WORDS_SHORT, CCSL_RECORDS_RAGGED, CCSL_KIND_UNKNOWN, as in ccsl_start_words. */
uint32_t ccsl_step(const uint64_t *records, size_t records_len,
                   uint32_t named, uint32_t clocks,
                   int64_t *words, size_t words_len,
                   uint32_t ticks,
                   uint64_t *answer, size_t answer_len);

/* Whether two configurations stand at the same place: no record, judged by itself, tells them apart by any continuation, in which implicit
 * clocks tick as freely as named ones. All of the first configuration is tested before the second.
 * answer, 3 numbers: CCSL_ACCEPTED, 0, 0, the same; or CCSL_VIOLATED, 0, 0, different; or CCSL_REFUSED, the limit's number, the place.
 * CCSL_ANSWER_SHORT, CCSL_WORDS_SHORT, CCSL_RECORDS_RAGGED, CCSL_KIND_UNKNOWN, as in ccsl_start_words. */
uint32_t ccsl_same_place(const uint64_t *records, size_t records_len,
                         uint32_t named, uint32_t clocks,
                         const int64_t *first, size_t first_len,
                         const int64_t *second, size_t second_len,
                         uint64_t *answer, size_t answer_len);

/* The definition records in working order: each comes after those that define its operands, the lowest that is ready each time. Every record
 * keeps its number, from 1; relations and empty records are not listed. An operand that no record defines is waited for by none.
 * answer, 4 numbers: CCSL_ACCEPTED, 0, 0; or CCSL_REFUSED, 59, the place, as in ccsl_start_words; or, where there is no such order,
 * CCSL_REFUSED, 21, the lowest record that lies on a circle of definitions; then how many records are listed, 0 where they are refused. The
 * other calls judge records with a circle as any others.
 * order, 32 numbers: the numbers of the records, 0 behind the last; each record defines another clock, so that there are no more.
 * CCSL_ANSWER_SHORT, CCSL_RECORDS_RAGGED, CCSL_KIND_UNKNOWN, CCSL_ORDER_SHORT. More than 64 records: as in ccsl_start_words. */
uint32_t ccsl_definition_order(const uint64_t *records, size_t records_len,
                               uint32_t named, uint32_t clocks,
                               uint64_t *answer, size_t answer_len,
                               uint64_t *order, size_t order_len);

/* Reads a recording by the names of a table, and judges nothing: the steps that reading gives, also those behind one that a run finds
 * violated, and how reading ended. A step is given once it is closed, by the next word that opens with `#` or by the end of the recording; one
 * in which a word is refused is not.
 * unknown, the choice for variables whose names the table lacks, as in ccsl_run.
 * answer, 4 numbers: CCSL_ACCEPTED, 0, 0; or CCSL_REFUSED, the limit's number, the place: of the table (10 to 20 and 22), with no step, or of the
 * recording (30 to 44); then the number of steps.
 * times, marks and ticks, as many numbers each as there are steps, in the order of the recording: the recorded time; the offset of the step's
 * mark; the tick set, in which named clock k ticks where bit k is 1, as ccsl_step takes it. Each list has to have as many numbers as the
 * recording has bytes, which the steps never exceed; those behind the steps are left alone.
 * CCSL_ANSWER_SHORT, CCSL_CHOICE_INVALID, CCSL_STEPS_SHORT. */
uint32_t ccsl_read_recording(const uint8_t *table, size_t table_len,
                             const uint8_t *recording, size_t recording_len,
                             uint32_t unknown,
                             uint64_t *answer, size_t answer_len,
                             uint64_t *times, size_t times_len,
                             uint64_t *marks, size_t marks_len,
                             uint32_t *ticks, size_t ticks_len);

#ifdef __cplusplus
}
#endif

#endif
