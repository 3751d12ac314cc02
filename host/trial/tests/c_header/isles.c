/* Bookings, players, histories, starting country and page, on samples/isles.atl; the page of the worked record is in main.c. */
#include "expect.h"

#include <string.h>

#define TAG(text) CHRONICLE_TAG((text)[0], (text)[1], (text)[2])

/* A booking's war, tag and stored tag. */
struct booking {
    uint32_t war;
    const char *tag;
    const char *stored;
};

static const struct booking BOOKINGS[] = {
    {0, "FRA", "FRA"}, {0, "ENG", "GBR"}, {1, "ENG", "GBR"}, {1, "SCO", "SCO"}, {1, "TYR", "IRE"},
    {2, "FRA", "FRA"}, {2, "BUR", "BUR"}, {2, "GBR", "GBR"}, {3, "IRE", "IRE"}, {3, "GBR", "GBR"},
};

/* Tyrone is in a war under a tag that it no longer has. */
static void bookings(const struct record *record, const struct chronicle *rows) {
    uint32_t expected[COUNT_OF(BOOKINGS) * CHRONICLE_BOOKING_WORDS];
    uint32_t out[COUNT_OF(expected) + 1];
    size_t i;
    for (i = 0; i < COUNT_OF(BOOKINGS); i++) {
        uint32_t *row = expected + i * CHRONICLE_BOOKING_WORDS;
        row[CHRONICLE_BOOKING_WAR] = BOOKINGS[i].war;
        row[CHRONICLE_BOOKING_TAG] = TAG(BOOKINGS[i].tag);
        row[CHRONICLE_BOOKING_STORED] = TAG(BOOKINGS[i].stored);
    }
    fresh(out, COUNT_OF(out));
    equal("chronicle_war_participants",
          chronicle_war_participants(record->bytes, record->length, rows->nations, rows->nation_words, rows->entries,
                                     rows->entry_words, out, COUNT_OF(out)),
          (int64_t)COUNT_OF(BOOKINGS));
    cells("chronicle_war_participants", out, expected, COUNT_OF(expected), COUNT_OF(out));
}

/* Ann and Bob; the game's own name is nobody's, and a name without a tag counts for nothing. */
static void played(const struct record *record) {
    uint32_t expected[2 * CHRONICLE_PLAYER_WORDS];
    uint32_t out[COUNT_OF(expected) + 1];
    expected[CHRONICLE_PLAYER_NAME] = 0;
    expected[CHRONICLE_PLAYER_TAG] = TAG("IRE");
    expected[CHRONICLE_PLAYER_WORDS + CHRONICLE_PLAYER_NAME] = 4;
    expected[CHRONICLE_PLAYER_WORDS + CHRONICLE_PLAYER_TAG] = TAG("NED");
    fresh(out, COUNT_OF(out));
    equal("chronicle_players", chronicle_players(record->bytes, record->length, out, COUNT_OF(out)), 2);
    cells("chronicle_players", out, expected, COUNT_OF(expected), COUNT_OF(out));
}

/* One history's words, its three tags as one text. */
static void put_history(uint32_t *row, const char *tags, uint32_t nation, uint32_t human, uint32_t first, uint32_t count) {
    row[CHRONICLE_HISTORY_INITIAL] = TAG(tags);
    row[CHRONICLE_HISTORY_LATEST] = TAG(tags + 3);
    row[CHRONICLE_HISTORY_STORED] = TAG(tags + 6);
    row[CHRONICLE_HISTORY_NATION] = nation;
    row[CHRONICLE_HISTORY_HUMAN] = human;
    row[CHRONICLE_HISTORY_FIRST_NAME] = first;
    row[CHRONICLE_HISTORY_NAME_COUNT] = count;
}

/* Three were played, the last by nobody now; the only one that did not appear later began as Tyrone. */
static void recalled(const struct record *record, const struct chronicle *rows) {
    static const uint32_t NAMES[] = {0, 4};
    uint32_t expected[3 * CHRONICLE_HISTORY_WORDS];
    uint32_t out[COUNT_OF(expected) + 1];
    uint32_t names[3];
    uint32_t tag[2];
    uint32_t tyrone[1];
    tyrone[0] = TAG("TYR");
    put_history(expected, "TYRIREIRE", 11, 1, 0, 1);
    put_history(expected + CHRONICLE_HISTORY_WORDS, "NEDNEDNED", 8, 1, 1, 1);
    put_history(expected + 2 * CHRONICLE_HISTORY_WORDS, "SCOSCOSCO", 10, 0, 2, 0);
    fresh(out, COUNT_OF(out));
    fresh(names, COUNT_OF(names));
    fresh(tag, COUNT_OF(tag));
    equal("chronicle_player_histories",
          chronicle_player_histories(record->bytes, record->length, rows->nations, rows->nation_words, rows->entries,
                                     rows->entry_words, out, COUNT_OF(out), names, COUNT_OF(names)),
          3);
    cells("chronicle_player_histories", out, expected, COUNT_OF(expected), COUNT_OF(out));
    cells("their names", names, NAMES, COUNT_OF(NAMES), COUNT_OF(names));
    equal("no history",
          chronicle_starting_country(NULL, 0, rows->nations, rows->nation_words, rows->entries, rows->entry_words, tag,
                                     COUNT_OF(tag)),
          0);
    cells("no history", tag, NULL, 0, COUNT_OF(tag));
    equal("chronicle_starting_country",
          chronicle_starting_country(out, COUNT_OF(expected), rows->nations, rows->nation_words, rows->entries, rows->entry_words,
                                     tag, COUNT_OF(tag)),
          1);
    cells("chronicle_starting_country", tag, tyrone, 1, COUNT_OF(tag));
}

/* A living nation, one that is gone, one that never had land, and one asked for under a tag that it is not stored under. */
static void printed(const struct record *record) {
    static const char SELECTION[] = "IRE\nBUR\nNOR\nTYR\n";
    static const char PAGE[] = "selected 4\nIRE TYR IRE 2 living\nBUR BUR BUR 1 annexed\nNOR absent\nTYR absent\n";
    uint8_t out[15 + 25 * 4];
    equal("page", page(record->bytes, record->length, (const uint8_t *)SELECTION, sizeof SELECTION - 1, out, sizeof out),
          (int64_t)sizeof PAGE - 1);
    equal("its text", memcmp(out, PAGE, sizeof PAGE - 1), 0);
}

void isles(const struct record *record) {
    static const uint32_t COUNTS[] = {11, 11, 19, 12, 12};
    struct chronicle rows;
    equal("bytes of isles", (int64_t)record->length, 700);
    chronicle_of(record, COUNTS, &rows);
    bookings(record, &rows);
    played(record);
    recalled(record, &rows);
    printed(record);
}
