#include "expect.h"

#include <stdio.h>
#include <stdlib.h>

static int noted = 0;

void fresh(uint32_t *cells, size_t count) {
    size_t i;
    for (i = 0; i < count; i++) {
        cells[i] = FRESH;
    }
}

void equal(const char *what, int64_t found, int64_t expected) {
    if (found != expected) {
        printf("%s: %lld, and not %lld\n", what, (long long)found, (long long)expected);
        noted++;
    }
}

void cells(const char *what, const uint32_t *found, const uint32_t *expected, size_t words, size_t all) {
    size_t i;
    for (i = 0; i < all; i++) {
        uint32_t wanted = i < words ? expected[i] : FRESH;
        if (found[i] != wanted) {
            printf("%s, word %lu: %lu, and not %lu\n", what, (unsigned long)i, (unsigned long)found[i], (unsigned long)wanted);
            noted++;
            return;
        }
    }
}

int differences(void) {
    return noted;
}

void read_record(const char *path, struct record *record) {
    FILE *file = fopen(path, "rb");
    if (file == NULL) {
        printf("%s cannot be opened\n", path);
        exit(2);
    }
    record->length = fread(record->bytes, 1, sizeof record->bytes, file);
    fclose(file);
}

void chronicle_of(const struct record *record, const uint32_t *counts, struct chronicle *rows) {
    fresh(rows->nations, COUNT_OF(rows->nations));
    fresh(rows->entries, COUNT_OF(rows->entries));
    fresh(rows->holders, COUNT_OF(rows->holders));
    fresh(rows->held, COUNT_OF(rows->held));
    fresh(rows->changes, COUNT_OF(rows->changes));
    fresh(rows->counts, COUNT_OF(rows->counts));
    equal("chronicle_nation_events",
          chronicle_nation_events(record->bytes, record->length, rows->nations, COUNT_OF(rows->nations), rows->entries,
                                  COUNT_OF(rows->entries), rows->holders, COUNT_OF(rows->holders), rows->held, COUNT_OF(rows->held),
                                  rows->changes, COUNT_OF(rows->changes), rows->counts, COUNT_OF(rows->counts)),
          CHRONICLE_COUNT_WORDS);
    cells("its counts", rows->counts, counts, CHRONICLE_COUNT_WORDS, CHRONICLE_COUNT_WORDS);
    rows->nation_words = (size_t)counts[CHRONICLE_COUNT_NATIONS] * CHRONICLE_NATION_WORDS;
    rows->entry_words = (size_t)counts[CHRONICLE_COUNT_ENTRIES] * CHRONICLE_ENTRY_WORDS;
}
