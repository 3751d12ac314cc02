/* What a test of the header says when a cell or a number is another than it should be. */
#ifndef EXPECT_H
#define EXPECT_H

#include <chronicle.h>

#define COUNT_OF(array) (sizeof(array) / sizeof((array)[0]))

/* What lent cells hold before a call: no answer here has it. */
#define FRESH 0xa5a5a5a5u

/* A record of the samples, with room behind it for rows that a case adds. */
struct record {
    uint8_t bytes[1024];
    size_t length;
};

/* What chronicle_nation_events wrote of a record. */
struct chronicle {
    uint32_t nations[16 * CHRONICLE_NATION_WORDS];
    uint32_t entries[32 * CHRONICLE_ENTRY_WORDS];
    uint32_t holders[32];
    uint32_t held[16];
    uint32_t changes[32 * CHRONICLE_CHANGE_WORDS];
    uint32_t counts[CHRONICLE_COUNT_WORDS];
    size_t nation_words;
    size_t entry_words;
};

/* Fills lent cells. */
void fresh(uint32_t *cells, size_t count);

/* Notes a difference if the two are not equal. */
void equal(const char *what, int64_t found, int64_t expected);

/* Notes a difference if the cells do not begin with these words, or any of the `all` cells behind them is not fresh. */
void cells(const char *what, const uint32_t *found, const uint32_t *expected, size_t words, size_t all);

/* How many differences were noted. */
int differences(void);

/* Reads a whole file, or ends the program. */
void read_record(const char *path, struct record *record);

/* The chronicle of a record, its counts held against these. */
void chronicle_of(const struct record *record, const uint32_t *counts, struct chronicle *rows);

/* The cases. */
void refusals(const struct record *worked);
void owners(const struct record *worked);
void nations_of(const struct record *worked);
void resolver(const struct record *worked);
void ledgers(const struct record *worked);
void isles(const struct record *record);

#endif
