/* Every function of chronicle.h on the two samples: `cases WORKED ISLES`. Says what differs, and ends with 1 if anything does. */
#include "expect.h"

#include <stdio.h>
#include <string.h>

/* The page of the worked record, and the numbers of one that does not fit and of a selection that is none. */
static void printed(const struct record *worked) {
    static const char SELECTION[] = "GBR\nFRA\n";
    static const char PAGE[] = "selected 2\nGBR ENG GBR 3 living\nFRA FRA FRA 0 living\n.";
    const size_t length = sizeof PAGE - 2;
    const uint8_t *selection = (const uint8_t *)SELECTION;
    uint8_t out[sizeof PAGE - 1];
    memset(out, '.', sizeof out);
    equal("page without room", page(worked->bytes, worked->length, selection, 8, out, length - 1), -CHRONICLE_REFUSED_NO_ROOM);
    equal("page of half a tag", page(worked->bytes, worked->length, selection, 7, out, length), -CHRONICLE_REFUSED_BAD_QUESTION);
    equal("first byte after a refusal", out[0], '.');
    equal("page", page(worked->bytes, worked->length, selection, 8, out, sizeof out), (int64_t)length);
    equal("its text", memcmp(out, PAGE, sizeof out), 0);
}

/* The worked record has no war, no ledger and no player: each of these answers is empty, and writes nothing. */
static void nothing(const struct record *worked) {
    static const uint32_t COUNTS[] = {2, 3, 3, 2, 2};
    const uint8_t *bytes = worked->bytes;
    const size_t length = worked->length;
    struct chronicle rows;
    uint32_t out[8];
    uint64_t counts[2] = {7, 7};
    size_t n, e;
    chronicle_of(worked, COUNTS, &rows);
    n = rows.nation_words;
    e = rows.entry_words;
    fresh(out, COUNT_OF(out));
    equal("no booking", chronicle_war_participants(bytes, length, rows.nations, n, rows.entries, e, out, COUNT_OF(out)), 0);
    equal("no ledger row", chronicle_nation_ledger(bytes, length, rows.nations, n, rows.entries, e, 1, out, COUNT_OF(out)), 0);
    equal("no row to come", chronicle_nation_ledger_rows(bytes, length, rows.nations, n, rows.entries, e, 1, 9), 0);
    equal("no ledgers", chronicle_nation_ledgers(bytes, length, rows.nations, n, rows.entries, e, out, COUNT_OF(out), counts, 2),
          0);
    equal("their counts", (int64_t)(counts[0] + counts[1]), 0);
    equal("no player", chronicle_players(bytes, length, out, COUNT_OF(out)), 0);
    equal("no history", chronicle_player_histories(bytes, length, rows.nations, n, rows.entries, e, out, 4, out + 4, 4), 0);
    equal("no start", chronicle_starting_country(NULL, 0, rows.nations, n, rows.entries, e, out, COUNT_OF(out)), 0);
    cells("nothing", out, NULL, 0, COUNT_OF(out));
}

/* Slices of length 0 need no memory: no record is refused by 1, and of no nation nothing is found. */
static void empty(void) {
    const uint32_t gbr = CHRONICLE_TAG('G', 'B', 'R'), day = 14480601;
    const int64_t none = -CHRONICLE_REFUSED_NOT_A_RECORD;
    equal("check", -check(NULL, 0), none);
    equal("chronicle_province_owners", chronicle_province_owners(NULL, 0, NULL, 0), none);
    equal("chronicle_events_on", chronicle_events_on(NULL, 0, day, NULL, 0), none);
    equal("chronicle_nation_events", chronicle_nation_events(NULL, 0, NULL, 0, NULL, 0, NULL, 0, NULL, 0, NULL, 0, NULL, 0), none);
    equal("chronicle_resolver_resolve", chronicle_resolver_resolve(NULL, 0, NULL, 0, gbr, day, NULL, 0), 0);
    equal("chronicle_resolver_initial", chronicle_resolver_initial(NULL, 0, NULL, 0, gbr, NULL, 0), 0);
    equal("chronicle_resolver_resolve_at", chronicle_resolver_resolve_at(NULL, 0, NULL, 0, day, gbr, day, NULL, 0), 0);
    equal("chronicle_resolver_initial_at", chronicle_resolver_initial_at(NULL, 0, NULL, 0, day, gbr, NULL, 0), 0);
    equal("chronicle_resolver_resolve_each", chronicle_resolver_resolve_each(NULL, 0, NULL, 0, NULL, 0, NULL, 0), 0);
    equal("chronicle_war_participants", chronicle_war_participants(NULL, 0, NULL, 0, NULL, 0, NULL, 0), none);
    equal("chronicle_nation_ledger", chronicle_nation_ledger(NULL, 0, NULL, 0, NULL, 0, 0, NULL, 0), none);
    equal("chronicle_nation_ledger_rows", chronicle_nation_ledger_rows(NULL, 0, NULL, 0, NULL, 0, 0, 0), none);
    equal("chronicle_nation_ledgers", chronicle_nation_ledgers(NULL, 0, NULL, 0, NULL, 0, NULL, 0, NULL, 0), none);
    equal("chronicle_players", chronicle_players(NULL, 0, NULL, 0), none);
    equal("chronicle_player_histories", chronicle_player_histories(NULL, 0, NULL, 0, NULL, 0, NULL, 0, NULL, 0), none);
    equal("chronicle_starting_country", chronicle_starting_country(NULL, 0, NULL, 0, NULL, 0, NULL, 0), 0);
    equal("page", page(NULL, 0, NULL, 0, NULL, 0), none);
}

int main(int argc, char **argv) {
    struct record worked, sample;
    if (argc != 3) {
        printf("usage: cases WORKED ISLES\n");
        return 2;
    }
    read_record(argv[1], &worked);
    read_record(argv[2], &sample);
    refusals(&worked);
    owners(&worked);
    nations_of(&worked);
    resolver(&worked);
    ledgers(&worked);
    printed(&worked);
    nothing(&worked);
    empty();
    isles(&sample);
    printf("%d differences\n", differences());
    return differences() == 0 ? 0 : 1;
}
