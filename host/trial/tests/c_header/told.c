/*
 * What chronicle.h itself answers, line by line: `told RECORD`. Its version, what each refusal number says, and the room of a
 * record, whole and cut off. In C as it was in 1989, which C++ takes too.
 */
#include <chronicle.h>

#include <stdio.h>
#include <string.h>

static void room_of(const uint8_t *record, size_t length) {
    struct chronicle_room room;
    memset(&room, 0, sizeof room);
    printf("room of %lu: %ld\n", (unsigned long)length, (long)chronicle_room(record, length, &room));
    printf("changes %lu\n", (unsigned long)room.change_words);
    printf("nations %lu\n", (unsigned long)room.nation_words);
    printf("entries %lu\n", (unsigned long)room.entry_words);
    printf("holders %lu\n", (unsigned long)room.holder_words);
    printf("held %lu\n", (unsigned long)room.held_words);
    printf("counts %lu\n", (unsigned long)room.count_words);
    printf("bookings %lu\n", (unsigned long)room.booking_words);
    printf("players %lu\n", (unsigned long)room.player_words);
    printf("histories %lu\n", (unsigned long)room.history_words);
    printf("names %lu\n", (unsigned long)room.name_words);
}

int main(int argc, char **argv) {
    static uint8_t record[1024];
    FILE *file = argc == 2 ? fopen(argv[1], "rb") : NULL;
    size_t length;
    int number;
    if (file == NULL) {
        printf("usage: told RECORD\n");
        return 2;
    }
    length = fread(record, 1, sizeof record, file);
    fclose(file);
    printf("version %s: %d, %d, %d\n", CHRONICLE_VERSION, CHRONICLE_VERSION_MAJOR, CHRONICLE_VERSION_MINOR,
           CHRONICLE_VERSION_PATCH);
    for (number = -14; number <= 14; number++) {
        printf("%d: %s\n", number, chronicle_refusal_text(number));
    }
    printf("least: %s\n", chronicle_refusal_text(INT64_MIN));
    room_of(record, length);
    room_of(record, CHRONICLE_HEAD_BYTES);
    room_of(record, CHRONICLE_HEAD_BYTES - 1);
    return 0;
}
