/* The calls of libchieftables.a, for C99 and C++.
 *
 * `scripts/library` writes target/staticlib/libchieftables.a. docs/FORMAT.md has the formats, the judgement and the
 * refusals at length.
 *
 *   chieftables_refusal      why a call refuses, by number
 *   chieftables_counted      an answer and a count
 *   chieftables_verdict      an answer and a yes or no
 *   chieftables_accept       whether a presentation text is accepted
 *   chieftables_measure      the words that a build of it wants
 *   chieftables_commutative  whether its group is commutative
 *   chieftables_build        a presentation text to the words of its table
 *   chieftables_check        whether words are a table of a presentation text
 *   chieftables_read_table   table text to words
 *   chieftables_write_table  words to table text
 *
 * What every call asks: the memory of each pair of pointer and length is there for the whole call, words stand at an address
 * that four divides, and what is written overlaps nothing that is read. With a length of 0 nothing is read or written there;
 * the pointer is still not to be null. Any bytes and any words are answered.
 *
 * What every call leaves: 0, or the number of the refusal that applies first. A refused call counts 0, says no, and leaves the
 * buffer as it was. No call keeps anything, asks for memory, or touches a byte outside what it was given, so calls may run at the
 * same time.
 */
#ifndef CHIEFTABLES_H
#define CHIEFTABLES_H

#include <stddef.h>
#include <stdint.h>

#ifdef __cplusplus
extern "C" {
#endif

/* The answers. */
enum chieftables_refusal {
    CHIEFTABLES_DONE = 0,               /* none applies */
    CHIEFTABLES_PRESENTATION_FORM = 11, /* the presentation text is not in the form */
    CHIEFTABLES_NOT_PRIME = 12,         /* the p of a line with i = j is not prime */
    CHIEFTABLES_TOO_LARGE = 13,         /* more than 14 generators, or order above 16,384 */
    CHIEFTABLES_WORD = 14,              /* an exponent not below its prime, a generator not allowed there, or a p that is to be 0 */
    CHIEFTABLES_INCONSISTENT = 15,      /* the relations make two normal forms equal */
    CHIEFTABLES_SHORT = 16,             /* the buffer is shorter than the call wants */
    CHIEFTABLES_TABLE_FORM = 20,        /* the table text is not in the form */
    CHIEFTABLES_LINES = 21,             /* the lines are not those of a table; a writer's words are no lines of values */
    CHIEFTABLES_RELATION = 22,          /* a relation fails */
    CHIEFTABLES_RESTRICTION = 23,       /* a restriction differs from the blocks that are listed */
    CHIEFTABLES_INTERTWINER = 24,       /* an intertwiner fails, or leads to another degree */
    CHIEFTABLES_SEPARATION = 25,        /* a basis index is not reached, or two are not separated */
    CHIEFTABLES_SQUARES = 26            /* the squares of the degrees do not add up to the order */
};

/* The words of one line of a table: level, rep, deg, gen, ref, col, row, exp. */
#define CHIEFTABLES_LINE 8

/* An answer, and beside 0 a count of words, lines or bytes. */
struct chieftables_counted {
    uint32_t answer;
    size_t count;
};

/* An answer, and beside 0 a yes, which is 1, or a no, which is 0. */
struct chieftables_verdict {
    uint32_t answer;
    uint32_t yes;
};

/* Whether the `length` bytes at `text` are an accepted presentation: 0, or 11 to 15. */
uint32_t chieftables_accept(const uint8_t *text, size_t length);

/* How many words a build of the text wants: 0 and that count, or 11 to 15. */
struct chieftables_counted chieftables_measure(const uint8_t *text, size_t length);

/* Whether the group of the text is commutative, which is whether every representation of the last level of its table has degree
 * 1: 0 and yes or no, or 11 to 15 and no. Nothing is built. */
struct chieftables_verdict chieftables_commutative(const uint8_t *text, size_t length);

/* Builds the table of the text in the `have` words at `words`: 0 and the count of lines, or 11 to 16. The table is in the
 * first CHIEFTABLES_LINE times count words; every word behind them is as it was. */
struct chieftables_counted chieftables_build(const uint8_t *text, size_t length, uint32_t *words, size_t have);

/* Whether the `count` words at `words` are a table of the text, whoever made them: 0, 11 to 15, or 21 to 26. */
uint32_t chieftables_check(const uint8_t *text, size_t length, const uint32_t *words, size_t count);

/* Reads table text into the `have` words at `words`: 0 and the count of lines, 16 or 20. It wants CHIEFTABLES_LINE words for
 * each byte 10 behind the first; every word behind those read is as it was. What the lines say is not judged. */
struct chieftables_counted chieftables_read_table(const uint8_t *text, size_t length, uint32_t *words, size_t have);

/* Writes the `length` words at `words` as table text into the `room` bytes at `out`: 0 and the count of bytes, 21 or 16. A
 * text has 34 bytes of names and at most 80 for each line; every byte behind it is as it was. */
struct chieftables_counted chieftables_write_table(const uint32_t *words, size_t length, uint8_t *out, size_t room);

#ifdef __cplusplus
}
#endif

#endif
