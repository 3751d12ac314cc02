/*
 * Every call in a thread that has the stack chronicle.h names for it, on records at the limits: `stacks RECORD PAGE SELECTION`.
 * `stacks RECORD PAGE SELECTION CALL KIB` tries one call in another size; too small a stack ends the program by a signal.
 */
#define _POSIX_C_SOURCE 200112L

#include "lend.h"

#include <pthread.h>
#include <stdio.h>
#include <stdlib.h>
#include <string.h>

/* A call, the stack that it is promised to run in, and its run; minus a number is a refusal. */
struct call {
    const char *name;
    size_t stack;
    int64_t (*run)(struct lent *lent);
};

static int64_t run_check(struct lent *l) {
    return -check(l->record.bytes, l->record.length);
}

static int64_t run_owners(struct lent *l) {
    return chronicle_province_owners(l->record.bytes, l->record.length, l->changes.words, l->changes.length);
}

static int64_t run_events_on(struct lent *l) {
    return chronicle_events_on(l->record.bytes, l->record.length, 14440228, l->out.words, l->out.length);
}

static int64_t run_nations(struct lent *l) {
    return chronicle_of(l);
}

static int64_t run_resolve(struct lent *l) {
    return chronicle_resolver_resolve(l->nations.words, l->nations.length, l->entries.words, l->entries.length, l->nations.words[0],
                                      99991231, l->out.words, l->out.length);
}

static int64_t run_initial(struct lent *l) {
    return chronicle_resolver_initial(l->nations.words, l->nations.length, l->entries.words, l->entries.length, l->nations.words[0],
                                      l->out.words, l->out.length);
}

static int64_t run_resolve_at(struct lent *l) {
    return chronicle_resolver_resolve_at(l->nations.words, l->nations.length, l->entries.words, l->entries.length, 99991231,
                                         l->nations.words[0], 99991231, l->out.words, l->out.length);
}

static int64_t run_initial_at(struct lent *l) {
    return chronicle_resolver_initial_at(l->nations.words, l->nations.length, l->entries.words, l->entries.length, 99991231,
                                         l->nations.words[0], l->out.words, l->out.length);
}

static int64_t run_each(struct lent *l) {
    return chronicle_resolver_resolve_each(l->nations.words, l->nations.length, l->entries.words, l->entries.length,
                                           l->questions.words, l->questions.length, l->out.words, l->out.length);
}

static int64_t run_bookings(struct lent *l) {
    return chronicle_war_participants(l->record.bytes, l->record.length, l->nations.words, l->nations.length, l->entries.words,
                                      l->entries.length, l->out.words, l->out.length);
}

static int64_t run_ledger(struct lent *l) {
    return chronicle_nation_ledger(l->record.bytes, l->record.length, l->nations.words, l->nations.length, l->entries.words,
                                   l->entries.length, 0, l->rows.words, l->rows.length);
}

static int64_t run_ledger_rows(struct lent *l) {
    return chronicle_nation_ledger_rows(l->record.bytes, l->record.length, l->nations.words, l->nations.length, l->entries.words,
                                        l->entries.length, 0, SIZE_MAX);
}

static int64_t run_ledgers(struct lent *l) {
    return chronicle_nation_ledgers(l->record.bytes, l->record.length, l->nations.words, l->few_nation_words, l->entries.words,
                                    l->few_entry_words, l->rows.words, l->rows.length, l->counts, FEW);
}

static int64_t run_players(struct lent *l) {
    return chronicle_players(l->record.bytes, l->record.length, l->out.words, l->out.length);
}

static int64_t run_histories(struct lent *l) {
    return chronicle_player_histories(l->record.bytes, l->record.length, l->nations.words, l->nations.length, l->entries.words,
                                      l->entries.length, l->out.words, l->out.length, l->names.words, l->names.length);
}

static int64_t run_start(struct lent *l) {
    return chronicle_starting_country(l->histories.words, l->histories.length, l->nations.words, l->nations.length,
                                      l->entries.words, l->entries.length, l->out.words, l->out.length);
}

static int64_t run_page(struct lent *l) {
    return page(l->page.bytes, l->page.length, l->selection.bytes, l->selection.length, (uint8_t *)l->rows.words,
                l->rows.length * sizeof(uint32_t));
}

static const struct call CALLS[] = {
    {"check", CHRONICLE_STACK_CHECK, run_check},
    {"chronicle_province_owners", CHRONICLE_STACK_OWNERS, run_owners},
    {"chronicle_events_on", CHRONICLE_STACK_OWNERS, run_events_on},
    {"chronicle_nation_events", CHRONICLE_STACK_NATIONS, run_nations},
    {"chronicle_resolver_resolve", CHRONICLE_STACK_RESOLVER, run_resolve},
    {"chronicle_resolver_initial", CHRONICLE_STACK_RESOLVER, run_initial},
    {"chronicle_resolver_resolve_at", CHRONICLE_STACK_RESOLVER, run_resolve_at},
    {"chronicle_resolver_initial_at", CHRONICLE_STACK_RESOLVER, run_initial_at},
    {"chronicle_resolver_resolve_each", CHRONICLE_STACK_EACH, run_each},
    {"chronicle_war_participants", CHRONICLE_STACK_BOOKINGS, run_bookings},
    {"chronicle_nation_ledger", CHRONICLE_STACK_LEDGERS, run_ledger},
    {"chronicle_nation_ledger_rows", CHRONICLE_STACK_LEDGERS, run_ledger_rows},
    {"chronicle_nation_ledgers", CHRONICLE_STACK_LEDGERS, run_ledgers},
    {"chronicle_players", CHRONICLE_STACK_PLAYERS, run_players},
    {"chronicle_player_histories", CHRONICLE_STACK_PLAYERS, run_histories},
    {"chronicle_starting_country", CHRONICLE_STACK_PLAYERS, run_start},
    {"page", CHRONICLE_STACK_PAGE, run_page},
};

/* What a thread is given and leaves. */
struct task {
    const struct call *call;
    struct lent *lent;
    int64_t answer;
};

static void *body(void *given) {
    struct task *task = (struct task *)given;
    task->answer = task->call->run(task->lent);
    return NULL;
}

/* Runs a call in a thread of so many bytes of stack; 0 if it answered and was not refused. */
static int within(const struct call *call, size_t stack, struct lent *lent) {
    struct task task;
    pthread_attr_t attributes;
    pthread_t thread;
    task.call = call;
    task.lent = lent;
    task.answer = 0;
    if (pthread_attr_init(&attributes) != 0 || pthread_attr_setstacksize(&attributes, stack) != 0 ||
        pthread_create(&thread, &attributes, body, &task) != 0 || pthread_join(thread, NULL) != 0) {
        printf("%s: no thread of %lu KiB\n", call->name, (unsigned long)(stack / 1024));
        return 1;
    }
    pthread_attr_destroy(&attributes);
    printf("%s: %lld in %lu KiB\n", call->name, (long long)task.answer, (unsigned long)(stack / 1024));
    fflush(stdout);
    return task.answer < 0;
}

int main(int argc, char **argv) {
    struct lent lent;
    int failed = 0;
    size_t i;
    if (argc != 4 && argc != 6) {
        printf("usage: stacks RECORD PAGE SELECTION [CALL KIB]\n");
        return 2;
    }
    read_files(argv[1], argv[2], argv[3], &lent);
    for (i = 0; i < sizeof CALLS / sizeof CALLS[0]; i++) {
        /* check runs before anything else of the library: what the first call binds takes stack, too. */
        if (i == 1) {
            lend(&lent);
        }
        if (argc == 4) {
            failed += within(&CALLS[i], CALLS[i].stack, &lent);
        } else if (strcmp(argv[4], CALLS[i].name) == 0) {
            failed += within(&CALLS[i], (size_t)strtoul(argv[5], NULL, 10) * 1024, &lent);
        }
    }
    give_back(&lent);
    return failed == 0 ? 0 : 1;
}
