/* The calls that are given a record alone, on the worked record: check, province_owners, events_on, nation_events. */
#include "expect.h"

#include <string.h>

#define ENG CHRONICLE_TAG('E', 'N', 'G')
#define FRA CHRONICLE_TAG('F', 'R', 'A')
#define GBR CHRONICLE_TAG('G', 'B', 'R')

/* Writes a number, low byte first. */
static void put(uint8_t *bytes, uint32_t number, size_t count) {
    size_t i;
    for (i = 0; i < count; i++) {
        bytes[i] = (uint8_t)(number >> (8 * i));
    }
}

/* One spoiled place of the worked record, and the number that it is refused by. */
struct spoiled {
    size_t offset;
    size_t bytes;
    uint32_t number;
    int64_t refusal;
};

static const struct spoiled SPOILED[] = {
    {0, 1, 'B', CHRONICLE_REFUSED_NOT_A_RECORD},
    {3, 2, 2, CHRONICLE_REFUSED_UNKNOWN_VERSION},
    {CHRONICLE_HEAD_COUNTRIES, 2, 3, CHRONICLE_REFUSED_SIZES_DISAGREE},
    {CHRONICLE_HEAD_PROVINCES, 2, 3, CHRONICLE_REFUSED_SIZES_DISAGREE},
    {CHRONICLE_HEAD_SWITCHES, 4, 2, CHRONICLE_REFUSED_SIZES_DISAGREE},
    {CHRONICLE_HEAD_EVENTS, 4, 3, CHRONICLE_REFUSED_SIZES_DISAGREE},
    {CHRONICLE_HEAD_STRINGS, 2, 1, CHRONICLE_REFUSED_SIZES_DISAGREE},
    {CHRONICLE_HEAD_WAR_EVENTS, 4, 1, CHRONICLE_REFUSED_SIZES_DISAGREE},
    {CHRONICLE_HEAD_BYTES, 1, '!', CHRONICLE_REFUSED_BAD_TAG},
    {6, 4, 14440228, 0},
    {6, 4, 14440229, CHRONICLE_REFUSED_BAD_DATE},
    {5, 1, 4, CHRONICLE_REFUSED_UNDEFINED_FLAG},
    {CHRONICLE_HEAD_BYTES + 12, 3, 'G' | 'B' << 8 | 'R' << 16, CHRONICLE_REFUSED_REPEATED},
    {6, 4, 14500102, CHRONICLE_REFUSED_DATES_REVERSED},
};

/* check, and that every call with a record gives the same number and writes nothing. */
static void refused(const char *what, const struct record *record, int64_t number) {
    uint32_t lent[8];
    equal(what, check(record->bytes, record->length), number);
    if (number != 0) {
        fresh(lent, COUNT_OF(lent));
        equal(what, chronicle_province_owners(record->bytes, record->length, lent, COUNT_OF(lent)), -number);
        cells(what, lent, NULL, 0, COUNT_OF(lent));
    }
}

/* Numbers 1 to 8 by a byte each; 103 bytes pass and 102 do not. */
void refusals(const struct record *worked) {
    struct record record;
    size_t i;
    equal("bytes of the worked record", (int64_t)worked->length, 103);
    refused("worked", worked, 0);
    equal("102 bytes", check(worked->bytes, 102), CHRONICLE_REFUSED_SIZES_DISAGREE);
    equal("no bytes", check(NULL, 0), CHRONICLE_REFUSED_NOT_A_RECORD);
    equal("a head too short", check(worked->bytes, CHRONICLE_HEAD_BYTES - 1), CHRONICLE_REFUSED_NOT_A_RECORD);
    for (i = 0; i < COUNT_OF(SPOILED); i++) {
        record = *worked;
        put(record.bytes + SPOILED[i].offset, SPOILED[i].number, SPOILED[i].bytes);
        refused("spoiled", &record, SPOILED[i].refusal);
    }
}

/* The two changes, and where those of a day stand among them. */
void owners(const struct record *worked) {
    static const uint32_t CHANGES[] = {14460101, 1, ENG, FRA, 14470101, 2, FRA, ENG};
    static const uint32_t RUN[] = {1, 1};
    uint32_t lent[COUNT_OF(CHANGES) + 1];
    uint32_t run[CHRONICLE_RUN_WORDS + 1];

    fresh(lent, COUNT_OF(lent));
    equal("no room", chronicle_province_owners(worked->bytes, worked->length, lent, COUNT_OF(CHANGES) - 1),
          -CHRONICLE_REFUSED_NO_ROOM);
    cells("no room", lent, NULL, 0, COUNT_OF(lent));
    equal("chronicle_province_owners", chronicle_province_owners(worked->bytes, worked->length, lent, COUNT_OF(lent)), 2);
    cells("chronicle_province_owners", lent, CHANGES, COUNT_OF(CHANGES), COUNT_OF(lent));
    equal("second id", lent[CHRONICLE_CHANGE_WORDS + CHRONICLE_CHANGE_ID], 2);
    equal("first date", lent[CHRONICLE_CHANGE_DATE], 14460101);
    equal("first from", lent[CHRONICLE_CHANGE_FROM], ENG);
    equal("first to", lent[CHRONICLE_CHANGE_TO], FRA);

    fresh(run, COUNT_OF(run));
    equal("no date", chronicle_events_on(worked->bytes, worked->length, 14440229, run, COUNT_OF(run)),
          -CHRONICLE_REFUSED_BAD_QUESTION);
    equal("one word", chronicle_events_on(worked->bytes, worked->length, 14470101, run, 1), -CHRONICLE_REFUSED_NO_ROOM);
    cells("refused", run, NULL, 0, COUNT_OF(run));
    equal("chronicle_events_on", chronicle_events_on(worked->bytes, worked->length, 14470101, run, COUNT_OF(run)),
          CHRONICLE_RUN_WORDS);
    cells("chronicle_events_on", run, RUN, CHRONICLE_RUN_WORDS, COUNT_OF(run));
    equal("run's first", run[CHRONICLE_RUN_FIRST], 1);
    equal("run's count", run[CHRONICLE_RUN_COUNT], 1);
}

/* GBR's only slot passes from ENG to GBR, both stored as GBR: annexed and back on one day. */
static void to_itself(const struct record *worked) {
    static const uint32_t COUNTS[] = {2, 3, 3, 2, 1};
    static const uint32_t ENTRIES[] = {
        14470101, CHRONICLE_KIND_ANNEXED, 0, 14470101, CHRONICLE_KIND_APPEARED, 0, 14480601, CHRONICLE_KIND_SWITCH, GBR,
    };
    struct record record = *worked;
    struct chronicle rows;
    put(record.bytes + 89, 14470101, 4);
    memcpy(record.bytes + 93, "GBR", 3);
    memcpy(record.bytes + 100, "FRA", 3);
    chronicle_of(&record, COUNTS, &rows);
    cells("its entries", rows.entries, ENTRIES, COUNT_OF(ENTRIES), COUNT_OF(rows.entries));
}

/* The words of its nations and entries by their names. */
static void fields(const struct chronicle *rows) {
    equal("initial", rows->nations[CHRONICLE_NATION_INITIAL], ENG);
    equal("latest", rows->nations[CHRONICLE_NATION_LATEST], GBR);
    equal("stored", rows->nations[CHRONICLE_NATION_STORED], GBR);
    equal("first entry", rows->nations[CHRONICLE_NATION_WORDS + CHRONICLE_NATION_FIRST_ENTRY], 3);
    equal("entry count", rows->nations[CHRONICLE_NATION_ENTRY_COUNT], 3);
    equal("entry's date", rows->entries[CHRONICLE_ENTRY_DATE], 14460101);
    equal("entry's kind", rows->entries[CHRONICLE_ENTRY_KIND], CHRONICLE_KIND_ANNEXED);
    equal("switch's target", rows->entries[2 * CHRONICLE_ENTRY_WORDS + CHRONICLE_ENTRY_TARGET], GBR);
}

/* The worked record's chronicle, every cell of it. */
void nations_of(const struct record *worked) {
    static const uint32_t COUNTS[] = {2, 3, 3, 2, 2};
    static const uint32_t NATIONS[] = {ENG, GBR, GBR, 0, 3, FRA, FRA, FRA, 3, 0};
    static const uint32_t ENTRIES[] = {
        14460101, CHRONICLE_KIND_ANNEXED, 0, 14470101, CHRONICLE_KIND_APPEARED, 0, 14480601, CHRONICLE_KIND_SWITCH, GBR,
    };
    static const uint32_t HOLDERS[] = {0, FRA, GBR};
    static const uint32_t HELD[] = {1, 1};
    static const uint32_t CHANGES[] = {14460101, 1, ENG, FRA, 14470101, 2, FRA, ENG};
    struct chronicle rows;

    chronicle_of(worked, COUNTS, &rows);
    equal("slots", rows.counts[CHRONICLE_COUNT_SLOTS], COUNT_OF(HOLDERS));
    equal("countries", rows.counts[CHRONICLE_COUNT_COUNTRIES], COUNT_OF(HELD));
    equal("changes", rows.counts[CHRONICLE_COUNT_CHANGES], COUNT_OF(CHANGES) / CHRONICLE_CHANGE_WORDS);
    cells("nations", rows.nations, NATIONS, COUNT_OF(NATIONS), COUNT_OF(rows.nations));
    cells("entries", rows.entries, ENTRIES, COUNT_OF(ENTRIES), COUNT_OF(rows.entries));
    cells("holders", rows.holders, HOLDERS, COUNT_OF(HOLDERS), COUNT_OF(rows.holders));
    cells("held", rows.held, HELD, COUNT_OF(HELD), COUNT_OF(rows.held));
    cells("changes", rows.changes, CHANGES, COUNT_OF(CHANGES), COUNT_OF(rows.changes));
    fields(&rows);
    to_itself(worked);
}
