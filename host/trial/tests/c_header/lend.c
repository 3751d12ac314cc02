#include "lend.h"

#include <stdio.h>
#include <stdlib.h>

static void fail(const char *what) {
    printf("%s\n", what);
    exit(2);
}

static void *memory(size_t count, size_t size) {
    void *cells = calloc(count + 1, size);
    if (cells == NULL) {
        fail("there is no memory");
    }
    return cells;
}

static struct words words(size_t length) {
    struct words lent;
    lent.words = (uint32_t *)memory(length, sizeof(uint32_t));
    lent.length = length;
    return lent;
}

/* A whole file. */
static struct bytes read_file(const char *path) {
    struct bytes read;
    FILE *file = fopen(path, "rb");
    long length = -1;
    if (file != NULL && fseek(file, 0, SEEK_END) == 0) {
        length = ftell(file);
    }
    if (length < 0) {
        fail(path);
    }
    rewind(file);
    read.bytes = (uint8_t *)memory((size_t)length, 1);
    read.length = fread(read.bytes, 1, (size_t)length, file);
    fclose(file);
    return read;
}

/* A count of the head. */
static size_t count(const struct lent *lent, int offset, int bytes) {
    size_t number = 0;
    while (bytes-- > 0) {
        number = number << 8 | lent->record.bytes[offset + bytes];
    }
    return number;
}

int64_t chronicle_of(struct lent *l) {
    uint32_t counts[CHRONICLE_COUNT_WORDS];
    int64_t answer =
        chronicle_nation_events(l->record.bytes, l->record.length, l->nations.words, l->nations.length, l->entries.words,
                                l->entries.length, l->holders.words, l->holders.length, l->held.words, l->held.length,
                                l->changes.words, l->changes.length, counts, CHRONICLE_COUNT_WORDS);
    if (answer >= 0) {
        l->nations.length = (size_t)counts[CHRONICLE_COUNT_NATIONS] * CHRONICLE_NATION_WORDS;
        l->entries.length = (size_t)counts[CHRONICLE_COUNT_ENTRIES] * CHRONICLE_ENTRY_WORDS;
    }
    return answer;
}

/* As many questions as a record can have war events, for each nation's first tag by turns. */
static void ask(struct lent *l, size_t questions) {
    const size_t nations = l->nations.length / CHRONICLE_NATION_WORDS;
    size_t i;
    l->questions = words(questions * CHRONICLE_QUESTION_WORDS);
    for (i = 0; i < questions; i++) {
        uint32_t *question = l->questions.words + i * CHRONICLE_QUESTION_WORDS;
        question[CHRONICLE_QUESTION_TAG] = l->nations.words[i % nations * CHRONICLE_NATION_WORDS];
        question[CHRONICLE_QUESTION_DATE] = (uint32_t)(i % 9999 + 1) * 10000 + 101;
    }
}

/* Room for the ledgers of the first few nations, and for every page. */
static void ledgers(struct lent *l) {
    const uint32_t *last = l->nations.words + (FEW - 1) * CHRONICLE_NATION_WORDS;
    size_t rows = 0, nation;
    if (l->nations.length < FEW * CHRONICLE_NATION_WORDS) {
        fail("a record with too few nations");
    }
    l->few_nation_words = FEW * CHRONICLE_NATION_WORDS;
    l->few_entry_words = (last[CHRONICLE_NATION_FIRST_ENTRY] + last[CHRONICLE_NATION_ENTRY_COUNT]) * CHRONICLE_ENTRY_WORDS;
    for (nation = 0; nation < FEW; nation++) {
        rows += (size_t)chronicle_nation_ledger_rows(l->record.bytes, l->record.length, l->nations.words, l->nations.length,
                                                     l->entries.words, l->entries.length, nation, SIZE_MAX);
    }
    l->rows = words(rows * CHRONICLE_LEDGER_WORDS + 409615);
}

/* The histories of the record, for the country that it was started as. */
static void histories(struct lent *l, size_t countries) {
    int64_t rows;
    l->histories = words(countries * CHRONICLE_HISTORY_WORDS);
    rows = chronicle_player_histories(l->record.bytes, l->record.length, l->nations.words, l->nations.length, l->entries.words,
                                      l->entries.length, l->histories.words, l->histories.length, l->names.words, l->names.length);
    if (rows < 0) {
        fail("no histories");
    }
    l->histories.length = (size_t)rows * CHRONICLE_HISTORY_WORDS;
}

void read_files(const char *record, const char *page, const char *selection, struct lent *l) {
    l->record = read_file(record);
    l->page = read_file(page);
    l->selection = read_file(selection);
    if (l->record.length < CHRONICLE_HEAD_BYTES) {
        fail("no head");
    }
}

void lend(struct lent *l) {
    size_t countries, events, questions;
    countries = count(l, CHRONICLE_HEAD_COUNTRIES, 2);
    events = count(l, CHRONICLE_HEAD_EVENTS, 4);
    questions = count(l, CHRONICLE_HEAD_WAR_EVENTS, 4);
    l->nations = words(countries * CHRONICLE_NATION_WORDS);
    l->entries = words((count(l, CHRONICLE_HEAD_SWITCHES, 4) + 2 * events) * CHRONICLE_ENTRY_WORDS);
    l->holders = words(count(l, CHRONICLE_HEAD_PROVINCES, 2) + 1);
    l->held = words(countries);
    l->changes = words(events * CHRONICLE_CHANGE_WORDS);
    l->names = words(count(l, CHRONICLE_HEAD_STRINGS, 2));
    l->out = words(questions * CHRONICLE_BOOKING_WORDS + countries * CHRONICLE_HISTORY_WORDS + l->names.length);
    if (chronicle_of(l) < 0) {
        fail("no chronicle");
    }
    ask(l, questions);
    ledgers(l);
    histories(l, countries);
}

void give_back(struct lent *l) {
    uint32_t *all[10];
    size_t i;
    all[0] = l->nations.words, all[1] = l->entries.words, all[2] = l->holders.words, all[3] = l->held.words;
    all[4] = l->changes.words, all[5] = l->questions.words, all[6] = l->out.words, all[7] = l->rows.words;
    all[8] = l->names.words, all[9] = l->histories.words;
    for (i = 0; i < sizeof all / sizeof all[0]; i++) {
        free(all[i]);
    }
    free(l->record.bytes);
    free(l->page.bytes);
    free(l->selection.bytes);
}
