/*
 * The functions by their short names answer as those that they stand for: `short ISLES`. Both are called with the same, and every
 * cell is held against the other's. In C as it was in 1989, which C++ takes too.
 */
#define CHRONICLE_SHORT_NAMES
#include <chronicle.h>

#include <stdio.h>
#include <string.h>

#define ROOM 4096

/* What is lent and what was answered, once by each name. */
struct answers {
    uint32_t nations[ROOM], entries[ROOM], holders[ROOM], held[ROOM], changes[ROOM], counts[ROOM];
    uint32_t out[ROOM], names[ROOM];
    uint64_t ledgers[ROOM];
};

static struct answers one, other;
static uint8_t record[1024];
static size_t length, n, e;
static int differences = 0;

static void same(const char *what, int64_t found, int64_t expected) {
    if (found != expected || found < 0 || memcmp(&one, &other, sizeof one) != 0) {
        printf("%s: %ld, and not %ld\n", what, (long)found, (long)expected);
        differences++;
    }
}

static void of_record(void) {
    same("province_owners", province_owners(record, length, one.out, ROOM),
         chronicle_province_owners(record, length, other.out, ROOM));
    same("events_on", events_on(record, length, 14770105, one.out, ROOM),
         chronicle_events_on(record, length, 14770105, other.out, ROOM));
    same("nation_events",
         nation_events(record, length, one.nations, ROOM, one.entries, ROOM, one.holders, ROOM, one.held, ROOM, one.changes, ROOM,
                       one.counts, ROOM),
         chronicle_nation_events(record, length, other.nations, ROOM, other.entries, ROOM, other.holders, ROOM, other.held, ROOM,
                                 other.changes, ROOM, other.counts, ROOM));
    same("players", players(record, length, one.out, ROOM), chronicle_players(record, length, other.out, ROOM));
    n = one.counts[CHRONICLE_COUNT_NATIONS] * CHRONICLE_NATION_WORDS;
    e = one.counts[CHRONICLE_COUNT_ENTRIES] * CHRONICLE_ENTRY_WORDS;
}

static void of_resolver(void) {
    const uint32_t tyr = CHRONICLE_TAG('T', 'Y', 'R'), date = 14441111, day = 14610101;
    uint32_t question[CHRONICLE_QUESTION_WORDS];
    question[CHRONICLE_QUESTION_TAG] = tyr;
    question[CHRONICLE_QUESTION_DATE] = date;
    same("resolver_resolve", resolver_resolve(one.nations, n, one.entries, e, tyr, date, one.out, ROOM),
         chronicle_resolver_resolve(one.nations, n, one.entries, e, tyr, date, other.out, ROOM));
    same("resolver_initial", resolver_initial(one.nations, n, one.entries, e, tyr, one.out, ROOM),
         chronicle_resolver_initial(one.nations, n, one.entries, e, tyr, other.out, ROOM));
    same("resolver_resolve_at", resolver_resolve_at(one.nations, n, one.entries, e, day, tyr, date, one.out, ROOM),
         chronicle_resolver_resolve_at(one.nations, n, one.entries, e, day, tyr, date, other.out, ROOM));
    same("resolver_initial_at", resolver_initial_at(one.nations, n, one.entries, e, day, tyr, one.out, ROOM),
         chronicle_resolver_initial_at(one.nations, n, one.entries, e, day, tyr, other.out, ROOM));
    same("resolver_resolve_each", resolver_resolve_each(one.nations, n, one.entries, e, question, 2, one.out, ROOM),
         chronicle_resolver_resolve_each(one.nations, n, one.entries, e, question, 2, other.out, ROOM));
}

static void of_both(void) {
    same("war_participants", war_participants(record, length, one.nations, n, one.entries, e, one.out, ROOM),
         chronicle_war_participants(record, length, one.nations, n, one.entries, e, other.out, ROOM));
    same("nation_ledger", nation_ledger(record, length, one.nations, n, one.entries, e, 10, one.out, ROOM),
         chronicle_nation_ledger(record, length, one.nations, n, one.entries, e, 10, other.out, ROOM));
    same("nation_ledger_rows", nation_ledger_rows(record, length, one.nations, n, one.entries, e, 10, 99),
         chronicle_nation_ledger_rows(record, length, one.nations, n, one.entries, e, 10, 99));
    same("nation_ledgers", nation_ledgers(record, length, one.nations, n, one.entries, e, one.out, ROOM, one.ledgers, ROOM),
         chronicle_nation_ledgers(record, length, one.nations, n, one.entries, e, other.out, ROOM, other.ledgers, ROOM));
    same("player_histories", player_histories(record, length, one.nations, n, one.entries, e, one.out, ROOM, one.names, ROOM),
         chronicle_player_histories(record, length, one.nations, n, one.entries, e, other.out, ROOM, other.names, ROOM));
    same("starting_country", starting_country(one.out, 21, one.nations, n, one.entries, e, one.held, ROOM),
         chronicle_starting_country(one.out, 21, one.nations, n, one.entries, e, other.held, ROOM));
}

int main(int argc, char **argv) {
    FILE *file = argc == 2 ? fopen(argv[1], "rb") : NULL;
    if (file == NULL) {
        printf("usage: short ISLES\n");
        return 2;
    }
    length = fread(record, 1, sizeof record, file);
    fclose(file);
    of_record();
    of_resolver();
    of_both();
    printf("%d differences\n", differences);
    return differences == 0 ? 0 : 1;
}
