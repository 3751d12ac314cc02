/*
 * The nations of a record of any length, and what befell them: `nations FILE`, or standard input where no file is named.
 *
 *     cc -Iinclude samples/nations.c -Ltarget/staticlib -lpage -o nations && ./nations samples/isles.atl
 */
#include <chronicle.h>

#include <stdio.h>
#include <stdlib.h>

/* Reads a whole file, doubling the memory as it comes; NULL where it cannot. */
static uint8_t *read_whole(FILE *file, size_t *length) {
    size_t room = 65536, got;
    uint8_t *bytes = (uint8_t *)malloc(room), *more = bytes;
    *length = 0;
    while (more != NULL && (got = fread(bytes + *length, 1, room - *length, file)) > 0) {
        *length += got;
        if (*length == room) {
            room *= 2;
            more = (uint8_t *)realloc(bytes, room);
            bytes = more != NULL ? more : bytes;
        }
    }
    if (more == NULL || ferror(file)) {
        free(bytes);
        return NULL;
    }
    return bytes;
}

/* The six slices of an answer, one behind the other in the memory that is lent. */
static int64_t answer(const uint8_t *record, size_t length, const struct chronicle_room *room, uint32_t *words) {
    uint32_t *entries = words + room->nation_words;
    uint32_t *holders = entries + room->entry_words;
    uint32_t *held = holders + room->holder_words;
    uint32_t *changes = held + room->held_words;
    uint32_t *counts = changes + room->change_words;
    int64_t told =
        chronicle_nation_events(record, length, words, room->nation_words, entries, room->entry_words, holders, room->holder_words,
                                held, room->held_words, changes, room->change_words, counts, room->count_words);
    return told < 0 ? told : (int64_t)counts[CHRONICLE_COUNT_NATIONS];
}

static void print_tag(uint32_t tag) {
    printf("%c%c%c", (int)(tag >> 16 & 255), (int)(tag >> 8 & 255), (int)(tag & 255));
}

static void print_entry(const uint32_t *entry) {
    static const char *const BEFELL[] = {"becomes ", "appears", "is annexed"};
    printf("  %lu %s", (unsigned long)entry[CHRONICLE_ENTRY_DATE], BEFELL[entry[CHRONICLE_ENTRY_KIND]]);
    if (entry[CHRONICLE_ENTRY_KIND] == CHRONICLE_KIND_SWITCH) {
        print_tag(entry[CHRONICLE_ENTRY_TARGET]);
    }
    printf("\n");
}

static void print_nation(const uint32_t *nation, const uint32_t *entries) {
    const uint32_t *entry = entries + (size_t)nation[CHRONICLE_NATION_FIRST_ENTRY] * CHRONICLE_ENTRY_WORDS;
    uint32_t left;
    print_tag(nation[CHRONICLE_NATION_INITIAL]);
    printf(", now ");
    print_tag(nation[CHRONICLE_NATION_LATEST]);
    printf("\n");
    for (left = nation[CHRONICLE_NATION_ENTRY_COUNT]; left > 0; left--, entry += CHRONICLE_ENTRY_WORDS) {
        print_entry(entry);
    }
}

/* Answers a record's nations and prints them; the number of the refusal, or 0. */
static int64_t nations(const uint8_t *record, size_t length) {
    struct chronicle_room room;
    int64_t refused = check(record, length), told;
    uint32_t *words;
    size_t number;
    if (refused != 0 || (refused = chronicle_room(record, length, &room)) != 0) {
        return refused;
    }
    words = (uint32_t *)calloc(room.nation_words + room.entry_words + room.holder_words + room.held_words + room.change_words +
                                   room.count_words,
                               sizeof *words);
    if (words == NULL) {
        return CHRONICLE_REFUSED_NO_ROOM;
    }
    told = answer(record, length, &room, words);
    for (number = 0; told > 0 && number < (size_t)told; number++) {
        print_nation(words + number * CHRONICLE_NATION_WORDS, words + room.nation_words);
    }
    free(words);
    return told < 0 ? -told : 0;
}

int main(int argc, char **argv) {
    FILE *file = argc > 1 ? fopen(argv[1], "rb") : stdin;
    size_t length = 0;
    uint8_t *record = file != NULL ? read_whole(file, &length) : NULL;
    int64_t refused;
    if (record == NULL) {
        fprintf(stderr, "%s cannot be read\n", argc > 1 ? argv[1] : "standard input");
        return 2;
    }
    refused = nations(record, length);
    if (refused != 0) {
        fprintf(stderr, "refused %d: %s\n", (int)refused, chronicle_refusal_text(refused));
    }
    free(record);
    return refused != 0 ? 1 : 0;
}
