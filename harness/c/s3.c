/* Measures, builds, writes, reads back and checks the table of the symmetric group of degree 3, in C99 and in C++. It prints a
 * line and ends with 0, or says which step went wrong and ends with 1. */
#include "chieftables.h"

#include <stdio.h>
#include <stdlib.h>
#include <string.h>

static const char group[] = "j i p e1 e2\n1 1 3 0 0\n2 2 2 0 0\n2 1 0 1 0\n";

/* The representation of degree 2 at both generators: the last four lines of the text. */
static const char ending[] = "2 2 2 1 1 0 0 2\n2 2 2 1 2 1 1 4\n2 2 2 2 1 0 1 0\n2 2 2 2 2 1 0 0\n";

static void expect(int holds, const char *what)
{
    if (!holds) {
        fprintf(stderr, "s3: %s\n", what);
        exit(1);
    }
}

int main(void)
{
    const uint8_t *text = (const uint8_t *)group;
    const size_t length = sizeof group - 1;
    uint32_t words[144], back[112];
    uint8_t out[512];
    struct chieftables_counted a;
    struct chieftables_verdict told;

    expect(chieftables_accept(text, length) == CHIEFTABLES_DONE, "the text is accepted");
    a = chieftables_measure(text, length);
    expect(a.answer == CHIEFTABLES_DONE && a.count == 144, "a build wants 144 words");
    told = chieftables_commutative(text, length);
    expect(told.answer == CHIEFTABLES_DONE && told.yes == 0, "the group is not commutative");
    a = chieftables_build(text, length, words, 143);
    expect(a.answer == CHIEFTABLES_SHORT && a.count == 0, "143 words are too few");
    a = chieftables_build(text, length, words, 144);
    expect(a.answer == CHIEFTABLES_DONE && a.count == 14, "the table has 14 lines");
    a = chieftables_write_table(words, 14 * CHIEFTABLES_LINE, out, sizeof out);
    expect(a.answer == CHIEFTABLES_DONE && a.count == 258, "its text has 258 bytes");
    expect(memcmp(out + 258 - (sizeof ending - 1), ending, sizeof ending - 1) == 0, "the text ends as it should");
    a = chieftables_read_table(out, a.count, back, 112);
    expect(a.answer == CHIEFTABLES_DONE && a.count == 14, "the text is read back");
    expect(memcmp(words, back, sizeof back) == 0, "the words are the same");
    expect(chieftables_check(text, length, back, 112) == CHIEFTABLES_DONE, "the table passes");
    back[111] = 1;
    expect(chieftables_check(text, length, back, 112) == CHIEFTABLES_RELATION, "a wrong exponent is refused");
    puts("s3: measured, built, written, read back and checked");
    return 0;
}
