/* The calls that are lent a chronicle, on the worked record and the known cases: the resolver and the ledgers. */
#include "expect.h"

#include <string.h>

#define ENG CHRONICLE_TAG('E', 'N', 'G')
#define FRA CHRONICLE_TAG('F', 'R', 'A')
#define GBR CHRONICLE_TAG('G', 'B', 'R')

static const uint32_t COUNTS[] = {2, 3, 3, 2, 2};

/* One call of a resolver's form: its answer, and the words that it leaves. */
static void answered(const char *what, int64_t found, const uint32_t *out, uint32_t tag, uint32_t stored) {
    uint32_t expected[CHRONICLE_RESOLVED_WORDS];
    expected[CHRONICLE_RESOLVED_TAG] = tag;
    expected[CHRONICLE_RESOLVED_STORED] = stored;
    if (tag == 0) {
        equal(what, found, 0);
        cells(what, out, NULL, 0, CHRONICLE_RESOLVED_WORDS);
    } else {
        equal(what, found, CHRONICLE_RESOLVED_WORDS);
        cells(what, out, expected, CHRONICLE_RESOLVED_WORDS, CHRONICLE_RESOLVED_WORDS);
    }
}

/* Many questions by one call. */
static void each(const struct chronicle *rows) {
    static const uint32_t QUESTIONS[] = {GBR, 14480531, GBR, 14480601, ENG, 14480531, FRA, 14441111};
    static const uint32_t ANSWERS[] = {0, 0, GBR, GBR, GBR, GBR, FRA, FRA};
    uint32_t out[COUNT_OF(ANSWERS) + 1];
    uint32_t spoiled[CHRONICLE_QUESTION_WORDS];
    fresh(out, COUNT_OF(out));
    equal("chronicle_resolver_resolve_each",
          chronicle_resolver_resolve_each(rows->nations, rows->nation_words, rows->entries, rows->entry_words, QUESTIONS,
                                          COUNT_OF(QUESTIONS), out, COUNT_OF(out)),
          4);
    cells("chronicle_resolver_resolve_each", out, ANSWERS, COUNT_OF(ANSWERS), COUNT_OF(out));
    spoiled[CHRONICLE_QUESTION_TAG] = GBR;
    spoiled[CHRONICLE_QUESTION_DATE] = 14440229;
    equal("a question with no date",
          chronicle_resolver_resolve_each(rows->nations, rows->nation_words, rows->entries, rows->entry_words, spoiled,
                                          COUNT_OF(spoiled), out, COUNT_OF(out)),
          -CHRONICLE_REFUSED_BAD_QUESTION);
}

/* GBR is nobody's before its switch; set to the day before, ENG is still ENG. */
void resolver(const struct record *worked) {
    struct chronicle rows;
    const uint32_t *nations = rows.nations;
    const uint32_t *entries = rows.entries;
    size_t n, e;
    uint32_t out[CHRONICLE_RESOLVED_WORDS];
    chronicle_of(worked, COUNTS, &rows);
    n = rows.nation_words;
    e = rows.entry_words;

    fresh(out, COUNT_OF(out));
    answered("GBR on 14480531", chronicle_resolver_resolve(nations, n, entries, e, GBR, 14480531, out, COUNT_OF(out)), out, 0, 0);
    answered("ENG, initial, set to 14480531",
             chronicle_resolver_initial_at(nations, n, entries, e, 14480531, ENG, out, COUNT_OF(out)), out, 0, 0);
    equal("one word", chronicle_resolver_resolve(nations, n, entries, e, ENG, 14480531, out, 1), -CHRONICLE_REFUSED_NO_ROOM);
    equal("torn rows", chronicle_resolver_resolve(nations, n - 1, entries, e, ENG, 14480531, out, 2),
          -CHRONICLE_REFUSED_NOT_WELL_SHAPED);
    equal("no tag", chronicle_resolver_initial(nations, n, entries, e, 0, out, COUNT_OF(out)), -CHRONICLE_REFUSED_BAD_QUESTION);
    cells("refused", out, NULL, 0, COUNT_OF(out));
    answered("GBR on 14480601", chronicle_resolver_resolve(nations, n, entries, e, GBR, 14480601, out, COUNT_OF(out)), out, GBR,
             GBR);
    answered("ENG, set to 14480531",
             chronicle_resolver_resolve_at(nations, n, entries, e, 14480531, ENG, 14480531, out, COUNT_OF(out)), out, ENG, GBR);
    answered("ENG, initial", chronicle_resolver_initial(nations, n, entries, e, ENG, out, COUNT_OF(out)), out, GBR, GBR);
    fresh(out, COUNT_OF(out));
    answered("ENG, initial, set to 14480601",
             chronicle_resolver_initial_at(nations, n, entries, e, 14480601, ENG, out, COUNT_OF(out)), out, GBR, GBR);
    each(&rows);
}

/* The worked record with ledger rows ENG (1445, 10) (1447, 12) and GBR (1449, 20); the last year as asked for. */
static void with_ledger(const struct record *worked, uint32_t last_year, struct record *record) {
    static const uint8_t ROWS[] = {'E', 'N', 'G', 2, 0, 'G', 'B', 'R', 1, 0, 165, 5, 10, 0, 0, 0, 167, 5, 12, 0, 0, 0};
    *record = *worked;
    record->bytes[38] = 2;
    record->bytes[40] = 3;
    memcpy(record->bytes + record->length, ROWS, sizeof ROWS);
    record->length += sizeof ROWS;
    record->bytes[record->length++] = (uint8_t)last_year;
    record->bytes[record->length++] = (uint8_t)(last_year >> 8);
    memcpy(record->bytes + record->length, "\x14\0\0", 4);
    record->length += 4;
}

/* All nations by one call: GBR's six rows, none of FRA's. */
static void all_ledgers(const struct record *record, const struct chronicle *rows, const uint32_t *expected) {
    uint32_t out[6 * CHRONICLE_LEDGER_WORDS + 1];
    uint64_t counts[3] = {7, 7, 7};
    fresh(out, COUNT_OF(out));
    equal("chronicle_nation_ledgers",
          chronicle_nation_ledgers(record->bytes, record->length, rows->nations, rows->nation_words, rows->entries,
                                   rows->entry_words, out, COUNT_OF(out), counts, COUNT_OF(counts)),
          6);
    cells("chronicle_nation_ledgers", out, expected, COUNT_OF(out) - 1, COUNT_OF(out));
    equal("rows of GBR", (int64_t)counts[0], 6);
    equal("rows of FRA", (int64_t)counts[1], 0);
    equal("the count behind", (int64_t)counts[2], 7);
}

/* A nation's ledger by its own calls: how many rows, the rows, and a nation that is none. */
static void one_ledger(const struct record *record, const struct chronicle *rows, const uint32_t *expected) {
    const uint8_t *bytes = record->bytes;
    const uint32_t *nations = rows->nations;
    const uint32_t *entries = rows->entries;
    const size_t length = record->length, n = rows->nation_words, e = rows->entry_words;
    uint32_t out[6 * CHRONICLE_LEDGER_WORDS + 1];
    fresh(out, COUNT_OF(out));
    equal("no such nation", chronicle_nation_ledger(bytes, length, nations, n, entries, e, 2, out, COUNT_OF(out)),
          -CHRONICLE_REFUSED_NO_SUCH_NATION);
    cells("no such nation", out, NULL, 0, COUNT_OF(out));
    equal("chronicle_nation_ledger_rows", chronicle_nation_ledger_rows(bytes, length, nations, n, entries, e, 0, SIZE_MAX), 6);
    equal("chronicle_nation_ledger_rows, five at most", chronicle_nation_ledger_rows(bytes, length, nations, n, entries, e, 0, 5),
          5);
    equal("chronicle_nation_ledger", chronicle_nation_ledger(bytes, length, nations, n, entries, e, 0, out, COUNT_OF(out)), 6);
    cells("chronicle_nation_ledger", out, expected, COUNT_OF(out) - 1, COUNT_OF(out));
    equal("ledger's tag", out[CHRONICLE_LEDGER_TAG], ENG);
    equal("ledger's year", out[CHRONICLE_LEDGER_YEAR], 1445);
    equal("ledger's value", out[CHRONICLE_LEDGER_VALUE], 10);
}

/* The starred ledger, of the nation alone and of all; a year of five digits is refused. */
void ledgers(const struct record *worked) {
    static const uint32_t ROWS[] = {
        ENG, 1445, 10, ENG, 1446, 0, ENG, 1447, 12, ENG, 1448, 0, GBR, 1449, 20, GBR, 1450, 0,
    };
    struct record record;
    struct chronicle rows;
    with_ledger(worked, 10000, &record);
    equal("year 10000", check(record.bytes, record.length), CHRONICLE_REFUSED_LEDGER_YEAR);
    with_ledger(worked, 1449, &record);
    chronicle_of(&record, COUNTS, &rows);
    one_ledger(&record, &rows, ROWS);
    all_ledgers(&record, &rows, ROWS);
}
