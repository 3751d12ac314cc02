/* A program that has functions of its own by the names that the archive had before 0.2; it links, and calls the archive's. */
#include <chronicle.h>

#include <stdio.h>

#define OWN(name)                                                                                                                  \
    int name(void);                                                                                                                \
    int name(void) {                                                                                                               \
        return 1;                                                                                                                  \
    }

OWN(province_owners)
OWN(events_on)
OWN(nation_events)
OWN(resolver_resolve)
OWN(resolver_initial)
OWN(resolver_resolve_at)
OWN(resolver_initial_at)
OWN(resolver_resolve_each)
OWN(war_participants)
OWN(nation_ledger)
OWN(nation_ledger_rows)
OWN(nation_ledgers)
OWN(players)
OWN(player_histories)
OWN(starting_country)

int main(void) {
    int own = province_owners() + events_on() + nation_events() + resolver_resolve() + resolver_initial() + resolver_resolve_at() +
              resolver_initial_at() + resolver_resolve_each() + war_participants() + nation_ledger() + nation_ledger_rows() +
              nation_ledgers() + players() + player_histories() + starting_country();
    printf("%d of its own, %ld of the archive\n", own, (long)chronicle_players(NULL, 0, NULL, 0));
    return 0;
}
