/* Times the proved `check` beside a plain checker in C, and holds their answers against each other.
 *
 *     clang -O2 -I ../include -o /tmp/plain_check trial/c/plain_check.c ../target/staticlib/libpage.a
 *     /tmp/plain_check ROUNDS RECORD...
 *
 * in host/. Each record is first compared as it is and with bytes changed, then both take turns for so many rounds. `bench --records FOLDER`
 * writes the two records that docs/BENCHMARKS.md names. */
#include <stdbool.h>
#include <stdint.h>
#include <stdio.h>
#include <stdlib.h>
#include <string.h>
#include <time.h>

#include "chronicle.h"

enum { HEAD = 44, COUNTRY = 12, TAG = 3, DATED = 7, PROVINCE = 7, WAR = 2, WAR_EVENT = 8, NAME = 5, POINT = 6 };
enum { MOST_COUNTRIES = 2000, MOST_PROVINCES = 8000 };

static bool tag_byte[256];

static unsigned u16(const uint8_t *at) { return at[0] | at[1] << 8; }

static uint32_t u32(const uint8_t *at) { return u16(at) | (uint32_t)u16(at + 2) << 16; }

static bool good_tag(const uint8_t *at) { return tag_byte[at[0]] && tag_byte[at[1]] && tag_byte[at[2]]; }

static bool good_date(uint32_t date) {
    static const unsigned days[100] = {0, 31, 28, 31, 30, 31, 30, 31, 31, 30, 31, 30, 31};
    uint32_t year = date / 10000, month = date / 100 % 100, day = date % 100;
    return 1 <= year && year <= 9999 && 1 <= day && day <= days[month];
}

/* 5 or 4 for the first bad one of rows that are a date, a kind if there are kinds, and a tag; 6 for a kind. */
static int bad_dated(const uint8_t *row, size_t rows, size_t width) {
    for (; rows > 0; rows--, row += width) {
        if (!good_date(u32(row)))
            return 5;
        if (width == WAR_EVENT && row[4] > 4)
            return 6;
        if (!good_tag(row + width - TAG))
            return 4;
    }
    return 0;
}

static int bad_tags(const uint8_t *tag, size_t rows, size_t width) {
    for (; rows > 0; rows--, tag += width)
        if (!good_tag(tag))
            return 4;
    return 0;
}

static int bad_countries(const uint8_t *row, size_t rows) {
    for (; rows > 0; rows--, row += COUNTRY) {
        if (!good_tag(row))
            return 4;
        if (row[3] > 7)
            return 6;
    }
    return 0;
}

static int bad_points(const uint8_t *row, size_t rows) {
    for (; rows > 0; rows--, row += POINT)
        if (u16(row) > 9999)
            return 9;
    return 0;
}

static size_t total(const uint8_t *count, size_t rows, size_t width) {
    size_t sum = 0;
    for (; rows > 0; rows--, count += width)
        sum += u16(count);
    return sum;
}

static int by_tag(const void *a, const void *b) { return memcmp(a, b, TAG); }

static bool tags_once(const uint8_t *row, size_t rows) {
    static uint8_t tags[MOST_COUNTRIES][TAG];
    for (size_t i = 0; i < rows; i++)
        memcpy(tags[i], row + COUNTRY * i, TAG);
    qsort(tags, rows, TAG, by_tag);
    for (size_t i = 1; i < rows; i++)
        if (by_tag(tags[i - 1], tags[i]) == 0)
            return false;
    return true;
}

static bool ids_once(const uint8_t *row, size_t rows) {
    static bool seen[MOST_PROVINCES + 1];
    memset(seen, 0, sizeof seen);
    for (size_t i = 0; i < rows; i++, row += PROVINCE) {
        size_t id = u16(row);
        if (id > rows || seen[id])
            return false;
        seen[id] = true;
    }
    return true;
}

/* 0 if the record is accepted, else the number of its refusal. */
static int plain_check(const uint8_t *s, size_t size) {
    if (size < HEAD || memcmp(s, "ATL", 3) != 0)
        return 1;
    if (u16(s + 3) != 1)
        return 2;
    size_t c = u16(s + 14), p = u16(s + 16), a = u32(s + 18), b = u32(s + 22), e = u32(s + 26), n = u16(s + 30);
    size_t w = u16(s + 32), v = u32(s + 34), g = u16(s + 38), y = u32(s + 40);
    if (c > MOST_COUNTRIES || p > MOST_PROVINCES || a > 20000 || b > 20000 || e > 60000 || n > 1000 || w > 5000 || v > 100000
        || g > 2000 || y > 1000000)
        return 3;
    size_t previous = HEAD + COUNTRY * c, switches = previous + TAG * a, provinces = switches + DATED * b;
    size_t events = provinces + PROVINCE * p, wars = events + DATED * e, war_events = wars + WAR * w;
    size_t names = war_events + WAR_EVENT * v, points = names + NAME * g, at = points + POINT * y;
    if (at > size)
        return 3;
    for (; n > 0; n--) {
        if (at >= size)
            return 3;
        at += 1 + s[at];
    }
    if (at != size || total(s + HEAD + 8, c, COUNTRY) != a || total(s + HEAD + 10, c, COUNTRY) != b
        || total(s + provinces + 5, p, PROVINCE) != e || total(s + wars, w, WAR) != v || total(s + names + 3, g, NAME) != y)
        return 3;
    int bad = s[5] > 3 ? 6 : !good_date(u32(s + 6)) || !good_date(u32(s + 10)) ? 5 : 0;
    if (bad || (bad = bad_countries(s + HEAD, c)) || (bad = bad_tags(s + previous, a, TAG)) || (bad = bad_dated(s + switches, b, DATED))
        || (bad = bad_tags(s + provinces + 2, p, PROVINCE)) || (bad = bad_dated(s + events, e, DATED))
        || (bad = bad_dated(s + war_events, v, WAR_EVENT)) || (bad = bad_tags(s + names, g, NAME)) || (bad = bad_points(s + points, y)))
        return bad;
    if (!tags_once(s + HEAD, c) || !ids_once(s + provinces, p))
        return 7;
    return u32(s + 6) > u32(s + 10) ? 8 : 0;
}

static void compare(const uint8_t *s, size_t size) {
    int plain = plain_check(s, size);
    int64_t proved = check(s, size);
    if (plain != proved) {
        printf("they differ: plain %d, proved %lld\n", plain, (long long)proved);
        exit(1);
    }
}

/* Up to three bytes changed, a quarter of them in the head, half of them by one; and now and then a shorter record. */
static void compare_damaged(uint8_t *s, size_t size, unsigned times) {
    size_t head = size < HEAD ? size : HEAD;
    uint64_t w = 1;
    for (; times > 0; times--) {
        size_t at[3], changes = 1 + times % 3;
        uint8_t was[3];
        for (size_t i = 0; i < changes; i++) {
            w = w * 6364136223846793005u + 1442695040888963407u;
            at[i] = (w >> 33) % ((w >> 40) % 4 ? size : head);
            was[i] = s[at[i]];
            s[at[i]] = (w >> 42) % 2 ? w >> 56 : was[i] + 1 - 2 * ((w >> 43) % 2);
        }
        compare(s, times % 50 == 0 ? (w >> 33) % size : size);
        while (changes > 0) {
            changes--;
            s[at[changes]] = was[changes];
        }
    }
}

static double now(void) {
    struct timespec t;
    clock_gettime(CLOCK_THREAD_CPUTIME_ID, &t);
    return t.tv_sec * 1e6 + t.tv_nsec * 1e-3;
}

static int by_time(const void *a, const void *b) { return (*(double *)a > *(double *)b) - (*(double *)a < *(double *)b); }

static void race(const char *name, const uint8_t *s, size_t size, unsigned rounds) {
    double *plain = malloc(2 * rounds * sizeof *plain), *proved = plain + rounds;
    unsigned calls = 1 + 2000000 / (size + 1000);
    volatile int64_t answer;
    for (unsigned i = 0; i < rounds; i++) {
        double start = now();
        for (unsigned j = 0; j < calls; j++)
            answer = plain_check(s, size);
        double middle = now();
        for (unsigned j = 0; j < calls; j++)
            answer = check(s, size);
        plain[i] = (middle - start) / calls;
        proved[i] = (now() - middle) / calls;
    }
    (void)answer;
    qsort(plain, rounds, sizeof *plain, by_time);
    qsort(proved, rounds, sizeof *proved, by_time);
    printf("%s, %zu bytes: plain %.1f / %.1f, proved %.1f / %.1f microseconds (best / median), ratio %.2f / %.2f\n", name, size,
           plain[0], plain[rounds / 2], proved[0], proved[rounds / 2], proved[0] / plain[0], proved[rounds / 2] / plain[rounds / 2]);
    free(plain);
}

static uint8_t *read_all(const char *name, size_t *size) {
    FILE *file = fopen(name, "rb");
    if (!file || fseek(file, 0, SEEK_END) != 0) {
        perror(name);
        exit(2);
    }
    *size = ftell(file);
    rewind(file);
    uint8_t *bytes = malloc(*size + 1);
    if (fread(bytes, 1, *size, file) != *size) {
        perror(name);
        exit(2);
    }
    fclose(file);
    return bytes;
}

int main(int count, char **words) {
    unsigned rounds = count > 2 ? strtoul(words[1], NULL, 10) : 0;
    if (rounds == 0) {
        fprintf(stderr, "usage: plain_check ROUNDS RECORD...\n");
        return 2;
    }
    for (int byte = 0; byte < 256; byte++)
        tag_byte[byte] = byte == '-' || ('0' <= byte && byte <= '9') || ('A' <= byte && byte <= 'Z') || ('a' <= byte && byte <= 'z');
    for (int i = 2; i < count; i++) {
        size_t size;
        uint8_t *record = read_all(words[i], &size);
        compare(record, size);
        if (size > 0)
            compare_damaged(record, size, 20000000 / (size + 1000) + 50);
        race(words[i], record, size, rounds);
        free(record);
    }
    return 0;
}
