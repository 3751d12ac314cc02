/* Memory to lend for a record at the limits, as much as its head says is enough. */
#ifndef LEND_H
#define LEND_H

#include <chronicle.h>

/* Nations whose ledgers are asked for by one call: those of all at the limits do not fit into memory. */
#define FEW 8

struct bytes {
    uint8_t *bytes;
    size_t length;
};

struct words {
    uint32_t *words;
    size_t length;
};

struct lent {
    struct bytes record;
    struct bytes page;
    struct bytes selection;
    struct words nations, entries, holders, held, changes;
    struct words questions;
    struct words out;
    struct words rows;
    struct words names;
    struct words histories;
    uint32_t few_nation_words, few_entry_words;
    uint64_t counts[FEW];
};

/* Reads the files; ends the program where it cannot. */
void read_files(const char *record, const char *page, const char *selection, struct lent *lent);

/* Lends, and fills nations, entries, questions and histories; ends the program where it cannot. */
void lend(struct lent *lent);

/* chronicle_nation_events into what is lent. */
int64_t chronicle_of(struct lent *lent);

void give_back(struct lent *lent);

#endif
