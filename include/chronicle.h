/*
 * The campaign chronicle: the C functions of libchronicle.so and of libpage.a (x86-64 Linux).
 *
 * Build the archive with `bash tools/build.sh`, then, at the top of the repository:
 *
 *     cc -Iinclude main.c -Ltarget/staticlib -lpage
 *
 * with gcc or clang, -lpage behind what calls it; c++ likewise. Of others the archive needs memset and memcpy of the C library alone.
 * After `make install`, which takes PREFIX and DESTDIR: cc main.c $(pkg-config --cflags --libs chronicle).
 *
 * A slice is a pointer and then a length in elements; with length 0 the pointer is not followed and may be NULL. Any bytes and words may
 * be given, as long as the slices of one call do not overlap. No call keeps, allocates or frees anything.
 *
 * A refused call returns minus its refusal number (`check` returns the number itself) and has written nothing. After an answer every cell
 * beyond it is as it was.
 *
 * A tag's word is a * 65536 + b * 256 + c of its three bytes (CHRONICLE_TAG); a date's word is year * 10000 + month * 100 + day.
 *
 * Every name begins with chronicle_ or CHRONICLE_, but for `check` and `page`. Who defines CHRONICLE_SHORT_NAMES before this header is
 * included has the functions by the names behind chronicle_ too, as before 0.2: players, nation_events and so on.
 */
#ifndef CHRONICLE_H
#define CHRONICLE_H

#include <stddef.h>
#include <stdint.h>

#ifdef __cplusplus
extern "C" {
#endif

/* The version of this header and of the library that it stands beside. */
#define CHRONICLE_VERSION_MAJOR 0
#define CHRONICLE_VERSION_MINOR 2
#define CHRONICLE_VERSION_PATCH 0
#define CHRONICLE_VERSION "0.2.0"

/* How functions are told that stand in this header: C had no keyword for them before 1999. */
#if defined(__cplusplus) || (defined(__STDC_VERSION__) && __STDC_VERSION__ >= 199901L)
#define CHRONICLE_INLINE static inline
#elif defined(__GNUC__)
#define CHRONICLE_INLINE static __inline__
#else
#define CHRONICLE_INLINE static
#endif

/* The word of a tag, from its three characters. */
#define CHRONICLE_TAG(a, b, c) \
    (((uint32_t)(unsigned char)(a) << 16) | ((uint32_t)(unsigned char)(b) << 8) | (uint32_t)(unsigned char)(c))

/* Why a call is refused. */
enum chronicle_refusal {
    CHRONICLE_REFUSED_NOT_A_RECORD = 1,     /* fewer than 44 bytes, or another opening than ATL */
    CHRONICLE_REFUSED_UNKNOWN_VERSION = 2,  /* a version other than 1 */
    CHRONICLE_REFUSED_SIZES_DISAGREE = 3,   /* a count over its limit, or rows, head and length that do not fit together */
    CHRONICLE_REFUSED_BAD_TAG = 4,          /* a tag byte that is neither ASCII letter nor digit nor '-' */
    CHRONICLE_REFUSED_BAD_DATE = 5,         /* a date of the record that is none */
    CHRONICLE_REFUSED_UNDEFINED_FLAG = 6,   /* a flag bit, or a kind of war event, without meaning */
    CHRONICLE_REFUSED_REPEATED = 7,         /* a country's tag or a province's id twice, or an id above the number of provinces */
    CHRONICLE_REFUSED_DATES_REVERSED = 8,   /* the current date lies before the start date */
    CHRONICLE_REFUSED_LEDGER_YEAR = 9,      /* a ledger year above 9999 */
    CHRONICLE_REFUSED_NO_ROOM = 10,         /* a lent slice is shorter than its part of the answer, or the page holds no more */
    CHRONICLE_REFUSED_NOT_WELL_SHAPED = 11, /* lent nation, entry or history rows that are not well shaped */
    CHRONICLE_REFUSED_BAD_QUESTION = 12,    /* a tag or a date asked about that is none */
    CHRONICLE_REFUSED_NO_SUCH_NATION = 13   /* no nation has the number asked for */
};

/*
 * Where the counts stand in the head of a record, low byte first, so many bytes each. They tell how much room is enough for every record
 * (chronicle_room): 4 E words for owner changes; 5 C for nations, 3 (B + 2 E) for entries, P + 1 for holders and C for held; 3 V for
 * bookings; N for players; 7 C for histories and N / 2 for names. The room of a ledger is asked for by chronicle_nation_ledger_rows.
 */
enum chronicle_head {
    CHRONICLE_HEAD_COUNTRIES = 14,  /* C, 2 bytes */
    CHRONICLE_HEAD_PROVINCES = 16,  /* P, 2 bytes */
    CHRONICLE_HEAD_SWITCHES = 22,   /* B, 4 bytes */
    CHRONICLE_HEAD_EVENTS = 26,     /* E, 4 bytes */
    CHRONICLE_HEAD_STRINGS = 30,    /* N, 2 bytes */
    CHRONICLE_HEAD_WAR_EVENTS = 34, /* V, 4 bytes */
    CHRONICLE_HEAD_BYTES = 44
};

/* The words of an owner change. */
enum chronicle_change {
    CHRONICLE_CHANGE_DATE = 0,
    CHRONICLE_CHANGE_ID = 1,
    CHRONICLE_CHANGE_FROM = 2, /* a tag; the word of --- for nobody */
    CHRONICLE_CHANGE_TO = 3,
    CHRONICLE_CHANGE_WORDS = 4
};

/* The two words of chronicle_events_on. */
enum chronicle_run {
    CHRONICLE_RUN_FIRST = 0, /* where the changes of the date begin, from 0 */
    CHRONICLE_RUN_COUNT = 1,
    CHRONICLE_RUN_WORDS = 2
};

/* The words of a listed nation. */
enum chronicle_nation {
    CHRONICLE_NATION_INITIAL = 0,
    CHRONICLE_NATION_LATEST = 1,
    CHRONICLE_NATION_STORED = 2,
    CHRONICLE_NATION_FIRST_ENTRY = 3, /* a row number, from 0 */
    CHRONICLE_NATION_ENTRY_COUNT = 4,
    CHRONICLE_NATION_WORDS = 5
};

/* The words of a nation's entry. */
enum chronicle_entry {
    CHRONICLE_ENTRY_DATE = 0,
    CHRONICLE_ENTRY_KIND = 1,   /* an enum chronicle_entry_kind */
    CHRONICLE_ENTRY_TARGET = 2, /* of a switch its tag, else 0 */
    CHRONICLE_ENTRY_WORDS = 3
};

enum chronicle_entry_kind {
    CHRONICLE_KIND_SWITCH = 0,
    CHRONICLE_KIND_APPEARED = 1,
    CHRONICLE_KIND_ANNEXED = 2
};

/* The counts of chronicle_nation_events. */
enum chronicle_count {
    CHRONICLE_COUNT_NATIONS = 0,
    CHRONICLE_COUNT_ENTRIES = 1,
    CHRONICLE_COUNT_SLOTS = 2,
    CHRONICLE_COUNT_COUNTRIES = 3,
    CHRONICLE_COUNT_CHANGES = 4,
    CHRONICLE_COUNT_WORDS = 5
};

/* The words of a resolver's answer. */
enum chronicle_resolved {
    CHRONICLE_RESOLVED_TAG = 0,
    CHRONICLE_RESOLVED_STORED = 1,
    CHRONICLE_RESOLVED_WORDS = 2
};

/* The words of a question to chronicle_resolver_resolve_each. */
enum chronicle_question {
    CHRONICLE_QUESTION_TAG = 0,
    CHRONICLE_QUESTION_DATE = 1,
    CHRONICLE_QUESTION_WORDS = 2
};

/* The words of a war booking. */
enum chronicle_booking {
    CHRONICLE_BOOKING_WAR = 0, /* a war's number, from 0 */
    CHRONICLE_BOOKING_TAG = 1,
    CHRONICLE_BOOKING_STORED = 2,
    CHRONICLE_BOOKING_WORDS = 3
};

/* The words of a ledger row. */
enum chronicle_ledger {
    CHRONICLE_LEDGER_TAG = 0,
    CHRONICLE_LEDGER_YEAR = 1,
    CHRONICLE_LEDGER_VALUE = 2, /* two's complement: an int32_t's bits */
    CHRONICLE_LEDGER_WORDS = 3
};

/* The words of a player. */
enum chronicle_player {
    CHRONICLE_PLAYER_NAME = 0, /* the number of the name's string, from 0 */
    CHRONICLE_PLAYER_TAG = 1,
    CHRONICLE_PLAYER_WORDS = 2
};

/* The words of a player's history. */
enum chronicle_history {
    CHRONICLE_HISTORY_INITIAL = 0,
    CHRONICLE_HISTORY_LATEST = 1,
    CHRONICLE_HISTORY_STORED = 2,
    CHRONICLE_HISTORY_NATION = 3, /* a nation's number + 1, or 0 */
    CHRONICLE_HISTORY_HUMAN = 4,  /* 1 or 0 */
    CHRONICLE_HISTORY_FIRST_NAME = 5,
    CHRONICLE_HISTORY_NAME_COUNT = 6,
    CHRONICLE_HISTORY_WORDS = 7
};

/* What a refusal number says, or minus one, as a call returns it; of any other number that it is no refusal. */
CHRONICLE_INLINE const char *chronicle_refusal_text(int64_t number) {
    if (number < 0 && number >= -CHRONICLE_REFUSED_NO_SUCH_NATION) {
        number = -number;
    }
    switch (number) {
    case CHRONICLE_REFUSED_NOT_A_RECORD:
        return "these bytes do not begin as a packed campaign does";
    case CHRONICLE_REFUSED_UNKNOWN_VERSION:
        return "the record was packed by another version";
    case CHRONICLE_REFUSED_SIZES_DISAGREE:
        return "the record holds too many rows, or they do not add up to what its head says";
    case CHRONICLE_REFUSED_BAD_TAG:
        return "a tag in the record uses a byte that tags do not have";
    case CHRONICLE_REFUSED_BAD_DATE:
        return "a date in the record is no day of the calendar (29 February is none)";
    case CHRONICLE_REFUSED_UNDEFINED_FLAG:
        return "a flag or a kind of war event in the record is unknown";
    case CHRONICLE_REFUSED_REPEATED:
        return "two countries share a tag, two provinces an id, or an id is too large";
    case CHRONICLE_REFUSED_DATES_REVERSED:
        return "the campaign ends before it starts";
    case CHRONICLE_REFUSED_LEDGER_YEAR:
        return "a year of the ledger is past 9999";
    case CHRONICLE_REFUSED_NO_ROOM:
        return "the answer has no room";
    case CHRONICLE_REFUSED_NOT_WELL_SHAPED:
        return "the lent rows are no chronicle's, or no history's";
    case CHRONICLE_REFUSED_BAD_QUESTION:
        return "the question names no tag or no date";
    case CHRONICLE_REFUSED_NO_SUCH_NATION:
        return "the chronicle lists no such nation";
    default:
        return "this is no refusal";
    }
}

/* How many words to lend for each slice of an answer about a record, so that no call is refused for want of room. */
struct chronicle_room {
    size_t change_words;
    size_t nation_words;
    size_t entry_words;
    size_t holder_words;
    size_t held_words;
    size_t count_words;
    size_t booking_words;
    size_t player_words;
    size_t history_words;
    size_t name_words;
};

/* A count of a record's head, of `bytes` bytes at `at`. */
CHRONICLE_INLINE size_t chronicle_head_count(const uint8_t *record, int at, int bytes) {
    size_t number = 0;
    while (bytes > 0) {
        bytes -= 1;
        number = number * 256 + record[at + bytes];
    }
    return number;
}

#if defined(__cplusplus) && defined(__GNUC__)
/* A structure and a function of one name: a program may want to be warned of its own. */
#pragma GCC diagnostic push
#pragma GCC diagnostic ignored "-Wshadow"
#endif

/* Reads the room from a record's head; nothing else of the bytes is tested, as `check` does. 0, or the refusal number 1 where they are too
   few for a head, and then nothing is written. */
CHRONICLE_INLINE int64_t chronicle_room(const uint8_t *record, size_t length, struct chronicle_room *room) {
    size_t countries, events, strings;
    if (length < CHRONICLE_HEAD_BYTES) {
        return CHRONICLE_REFUSED_NOT_A_RECORD;
    }
    countries = chronicle_head_count(record, CHRONICLE_HEAD_COUNTRIES, 2);
    events = chronicle_head_count(record, CHRONICLE_HEAD_EVENTS, 4);
    strings = chronicle_head_count(record, CHRONICLE_HEAD_STRINGS, 2);
    room->change_words = events * CHRONICLE_CHANGE_WORDS;
    room->nation_words = countries * CHRONICLE_NATION_WORDS;
    room->entry_words = (chronicle_head_count(record, CHRONICLE_HEAD_SWITCHES, 4) + 2 * events) * CHRONICLE_ENTRY_WORDS;
    room->holder_words = chronicle_head_count(record, CHRONICLE_HEAD_PROVINCES, 2) + 1;
    room->held_words = countries;
    room->count_words = CHRONICLE_COUNT_WORDS;
    room->booking_words = chronicle_head_count(record, CHRONICLE_HEAD_WAR_EVENTS, 4) * CHRONICLE_BOOKING_WORDS;
    room->player_words = strings / 2 * CHRONICLE_PLAYER_WORDS;
    room->history_words = countries * CHRONICLE_HISTORY_WORDS;
    room->name_words = strings / 2;
    return 0;
}

#if defined(__cplusplus) && defined(__GNUC__)
#pragma GCC diagnostic pop
#endif

/*
 * The stack of a thread that each call runs in, in bytes, as pthread_attr_setstacksize takes it: with the guard page and the thread's own
 * data (a few KiB) in it. A thread that keeps more of its own adds that.
 */
enum chronicle_stack {
    CHRONICLE_STACK_CHECK = 72 * 1024,
    CHRONICLE_STACK_OWNERS = 1024 * 1024,   /* chronicle_province_owners, chronicle_events_on */
    CHRONICLE_STACK_NATIONS = 1536 * 1024,  /* chronicle_nation_events */
    CHRONICLE_STACK_RESOLVER = 32 * 1024,   /* chronicle_resolver_resolve and its three other forms */
    CHRONICLE_STACK_EACH = 1024 * 1024,     /* chronicle_resolver_resolve_each */
    CHRONICLE_STACK_BOOKINGS = 1024 * 1024, /* chronicle_war_participants */
    CHRONICLE_STACK_LEDGERS = 512 * 1024,   /* chronicle_nation_ledger, _rows, and chronicle_nation_ledgers */
    CHRONICLE_STACK_PLAYERS = 512 * 1024,   /* chronicle_players, chronicle_player_histories, chronicle_starting_country */
    CHRONICLE_STACK_PAGE = 1800 * 1024
};

/* 0 if the record is accepted, else its refusal number, 1 to 9. */
int64_t check(const uint8_t *record, size_t length);

/* Writes the owner changes, by date, then id. Their number. */
int64_t chronicle_province_owners(const uint8_t *record, size_t length, uint32_t *changes, size_t change_words);

/* Writes where the changes of a date begin and how many there are, a chronicle_run. 2. */
int64_t chronicle_events_on(const uint8_t *record, size_t length, uint32_t date, uint32_t *run, size_t run_words);

/* Writes the listed nations and their entries; who holds each slot from 0 to P after the last change, a stored tag or 0; how many slots
   each country holds then, in row order; the owner changes; and the counts of these five. 5, the counts written. */
int64_t chronicle_nation_events(const uint8_t *record, size_t length,
                                uint32_t *nations, size_t nation_words, uint32_t *entries, size_t entry_words,
                                uint32_t *holders, size_t holder_words, uint32_t *held, size_t held_words,
                                uint32_t *changes, size_t change_words, uint32_t *counts, size_t count_words);

/*
 * The resolver, the bookings, the ledgers and the histories are lent nations and entries: as many words as chronicle_nation_events counted
 * rows, or any others that are well shaped. The resolver writes a chronicle_resolved and gives 2, or 0 if the answer is none.
 */

/* Whose tag it is on a date: the tag that nation has last, and the one it is stored under. */
int64_t chronicle_resolver_resolve(const uint32_t *nations, size_t nation_words, const uint32_t *entries, size_t entry_words,
                                   uint32_t tag, uint32_t date, uint32_t *out, size_t words);

/* Who began with the tag. */
int64_t chronicle_resolver_initial(const uint32_t *nations, size_t nation_words, const uint32_t *entries, size_t entry_words,
                                   uint32_t tag, uint32_t *out, size_t words);

/* chronicle_resolver_resolve set to a day: in place of the last tag the one worn on that day. */
int64_t chronicle_resolver_resolve_at(const uint32_t *nations, size_t nation_words, const uint32_t *entries, size_t entry_words,
                                      uint32_t day, uint32_t tag, uint32_t date, uint32_t *out, size_t words);

/* chronicle_resolver_initial set to a day: none where the nation had not switched by then. */
int64_t chronicle_resolver_initial_at(const uint32_t *nations, size_t nation_words, const uint32_t *entries, size_t entry_words,
                                      uint32_t day, uint32_t tag, uint32_t *out, size_t words);

/* chronicle_resolver_resolve for each chronicle_question: a chronicle_resolved each, 0 and 0 for none. Their number. */
int64_t chronicle_resolver_resolve_each(const uint32_t *nations, size_t nation_words, const uint32_t *entries, size_t entry_words,
                                        const uint32_t *questions, size_t question_words, uint32_t *out, size_t words);

/* Writes a booking for each event that adds a tag to a war, in order. Their number. */
int64_t chronicle_war_participants(const uint8_t *record, size_t length,
                                   const uint32_t *nations, size_t nation_words, const uint32_t *entries, size_t entry_words,
                                   uint32_t *bookings, size_t booking_words);

/* Writes the ledger of a nation, numbered from 0. The number of its rows. */
int64_t chronicle_nation_ledger(const uint8_t *record, size_t length,
                                const uint32_t *nations, size_t nation_words, const uint32_t *entries, size_t entry_words,
                                size_t nation, uint32_t *rows, size_t row_words);

/* How many rows chronicle_nation_ledger has to write, or `most` if there are more (a `most` above INT64_MAX counts as that). */
int64_t chronicle_nation_ledger_rows(const uint8_t *record, size_t length,
                                     const uint32_t *nations, size_t nation_words, const uint32_t *entries, size_t entry_words,
                                     size_t nation, size_t most);

/* Writes the ledgers of all nations, one behind the other, and the number of rows of each. The number of all rows. */
int64_t chronicle_nation_ledgers(const uint8_t *record, size_t length,
                                 const uint32_t *nations, size_t nation_words, const uint32_t *entries, size_t entry_words,
                                 uint32_t *rows, size_t row_words, uint64_t *counts, size_t count_words);

/* Writes the players. Their number. */
int64_t chronicle_players(const uint8_t *record, size_t length, uint32_t *out, size_t words);

/* Writes the histories of the countries that were played, and the names that they point into, a string's number each. The number of
   histories; that of names is first name plus name count of the last history. */
int64_t chronicle_player_histories(const uint8_t *record, size_t length,
                                   const uint32_t *nations, size_t nation_words, const uint32_t *entries, size_t entry_words,
                                   uint32_t *histories, size_t history_words, uint32_t *names, size_t name_words);

/* Writes the tag that the campaign was started as, by lent histories and the nations that they point into: 1, or 0 for none. */
int64_t chronicle_starting_country(const uint32_t *histories, size_t history_words,
                                   const uint32_t *nations, size_t nation_words, const uint32_t *entries, size_t entry_words,
                                   uint32_t *tag, size_t tag_words);

/* Writes the page of a record for a selection, stored tags with a line feed behind each: text without a 0 behind it. Its number of bytes,
   at most 15 + 25 for each tag. More than 65,536 bytes of either, 4,000 changes or 5,000 entries are 10. */
int64_t page(const uint8_t *record, size_t length, const uint8_t *selection, size_t selection_length,
             uint8_t *out, size_t out_length);

#ifdef CHRONICLE_SHORT_NAMES
/* The functions by the names that they had before 0.2. */
CHRONICLE_INLINE int64_t province_owners(const uint8_t *record, size_t length, uint32_t *changes, size_t change_words) {
    return chronicle_province_owners(record, length, changes, change_words);
}

CHRONICLE_INLINE int64_t events_on(const uint8_t *record, size_t length, uint32_t date, uint32_t *run, size_t run_words) {
    return chronicle_events_on(record, length, date, run, run_words);
}

CHRONICLE_INLINE int64_t nation_events(const uint8_t *record, size_t length, uint32_t *nations, size_t nation_words,
                                       uint32_t *entries, size_t entry_words, uint32_t *holders, size_t holder_words,
                                       uint32_t *held, size_t held_words, uint32_t *changes, size_t change_words,
                                       uint32_t *counts, size_t count_words) {
    return chronicle_nation_events(record, length, nations, nation_words, entries, entry_words, holders, holder_words, held,
                                   held_words, changes, change_words, counts, count_words);
}

CHRONICLE_INLINE int64_t resolver_resolve(const uint32_t *nations, size_t nation_words, const uint32_t *entries, size_t entry_words,
                                          uint32_t tag, uint32_t date, uint32_t *out, size_t words) {
    return chronicle_resolver_resolve(nations, nation_words, entries, entry_words, tag, date, out, words);
}

CHRONICLE_INLINE int64_t resolver_initial(const uint32_t *nations, size_t nation_words, const uint32_t *entries, size_t entry_words,
                                          uint32_t tag, uint32_t *out, size_t words) {
    return chronicle_resolver_initial(nations, nation_words, entries, entry_words, tag, out, words);
}

CHRONICLE_INLINE int64_t resolver_resolve_at(const uint32_t *nations, size_t nation_words,
                                             const uint32_t *entries, size_t entry_words, uint32_t day, uint32_t tag, uint32_t date,
                                             uint32_t *out, size_t words) {
    return chronicle_resolver_resolve_at(nations, nation_words, entries, entry_words, day, tag, date, out, words);
}

CHRONICLE_INLINE int64_t resolver_initial_at(const uint32_t *nations, size_t nation_words,
                                             const uint32_t *entries, size_t entry_words, uint32_t day, uint32_t tag,
                                             uint32_t *out, size_t words) {
    return chronicle_resolver_initial_at(nations, nation_words, entries, entry_words, day, tag, out, words);
}

CHRONICLE_INLINE int64_t resolver_resolve_each(const uint32_t *nations, size_t nation_words,
                                               const uint32_t *entries, size_t entry_words,
                                               const uint32_t *questions, size_t question_words, uint32_t *out, size_t words) {
    return chronicle_resolver_resolve_each(nations, nation_words, entries, entry_words, questions, question_words, out, words);
}

CHRONICLE_INLINE int64_t war_participants(const uint8_t *record, size_t length, const uint32_t *nations, size_t nation_words,
                                          const uint32_t *entries, size_t entry_words, uint32_t *bookings, size_t booking_words) {
    return chronicle_war_participants(record, length, nations, nation_words, entries, entry_words, bookings, booking_words);
}

CHRONICLE_INLINE int64_t nation_ledger(const uint8_t *record, size_t length, const uint32_t *nations, size_t nation_words,
                                       const uint32_t *entries, size_t entry_words, size_t nation,
                                       uint32_t *rows, size_t row_words) {
    return chronicle_nation_ledger(record, length, nations, nation_words, entries, entry_words, nation, rows, row_words);
}

CHRONICLE_INLINE int64_t nation_ledger_rows(const uint8_t *record, size_t length, const uint32_t *nations, size_t nation_words,
                                            const uint32_t *entries, size_t entry_words, size_t nation, size_t most) {
    return chronicle_nation_ledger_rows(record, length, nations, nation_words, entries, entry_words, nation, most);
}

CHRONICLE_INLINE int64_t nation_ledgers(const uint8_t *record, size_t length, const uint32_t *nations, size_t nation_words,
                                        const uint32_t *entries, size_t entry_words, uint32_t *rows, size_t row_words,
                                        uint64_t *counts, size_t count_words) {
    return chronicle_nation_ledgers(record, length, nations, nation_words, entries, entry_words, rows, row_words, counts,
                                    count_words);
}

CHRONICLE_INLINE int64_t players(const uint8_t *record, size_t length, uint32_t *out, size_t words) {
    return chronicle_players(record, length, out, words);
}

CHRONICLE_INLINE int64_t player_histories(const uint8_t *record, size_t length, const uint32_t *nations, size_t nation_words,
                                          const uint32_t *entries, size_t entry_words, uint32_t *histories, size_t history_words,
                                          uint32_t *names, size_t name_words) {
    return chronicle_player_histories(record, length, nations, nation_words, entries, entry_words, histories, history_words, names,
                                      name_words);
}

CHRONICLE_INLINE int64_t starting_country(const uint32_t *histories, size_t history_words,
                                          const uint32_t *nations, size_t nation_words, const uint32_t *entries, size_t entry_words,
                                          uint32_t *tag, size_t tag_words) {
    return chronicle_starting_country(histories, history_words, nations, nation_words, entries, entry_words, tag, tag_words);
}
#endif

#undef CHRONICLE_INLINE

#ifdef __cplusplus
}
#endif

#endif
