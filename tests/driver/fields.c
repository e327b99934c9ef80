#define _POSIX_C_SOURCE 199309L
#include "fields.h"

#include "fence.h"

#include <stdio.h>
#include <stdlib.h>
#include <string.h>
#include <time.h>

/* All areas of a case lie one after another in a pool, with guards between them. No case has more areas than that. */
enum { GUARD = 64, MOST_AREAS = 8, POOL = 1 << 16 };

uint8_t preset = 0xAA;

static uint8_t pool[POOL], before[POOL];
static size_t used;
static area areas[MOST_AREAS], lent_areas[MOST_AREAS];
static size_t area_count, lent_count;
static const char *not_whole;
static struct timespec began, ended;

int next_code(void) {
    used = 0;
    area_count = lent_count = 0;
    not_whole = NULL;
    return getchar();
}

bool whole(void) { return not_whole == NULL; }

const char *why_not_whole(void) { return not_whole; }

static void take(uint8_t *bytes, size_t length) {
    if (whole() && fread(bytes, 1, length, stdin) != length) not_whole = "is cut short";
}

uint64_t number(size_t width) {
    uint8_t bytes[8] = {0};
    uint64_t value = 0;
    take(bytes, width);
    for (size_t i = width; whole() && i > 0; i--) value = value << 8 | bytes[i - 1];
    return value;
}

double time_number(void) {
    uint64_t bits = number(8);
    double value;
    memcpy(&value, &bits, sizeof value);
    return value;
}

/* Bytes that differ from place to place, so that no one value can be written over them unseen. */
static void guard(void) {
    for (size_t i = 0; i < GUARD; i++) pool[used + i] = (uint8_t)(0xC3 ^ (37 * i));
    used += GUARD;
}

/* The next part of the pool, as long as the length field says. */
static area part(size_t most) {
    size_t length = number(2);
    if (whole() && length > most) not_whole = "names a length larger than its buffer";
    if (!whole()) length = 0;
    if (used + length + 2 * GUARD > POOL) {
        fprintf(stderr, "cases: the pool is too small for a case of this call\n");
        exit(2);
    }
    if (used == 0) guard();
    area a = {pool + used, length};
    used += length;
    guard();
    areas[area_count++] = a;
    return a;
}

area handed(size_t most) {
    area a = part(most);
    take(a.bytes, a.length);
    return a;
}

static area writable(area a) {
    lent_areas[lent_count++] = a;
    return a;
}

area lent(size_t most) {
    area a = part(most);
    memset(a.bytes, preset, a.length);
    VALGRIND_MAKE_MEM_UNDEFINED(a.bytes, a.length);
    return writable(a);
}

area shared(size_t most) { return writable(handed(most)); }

/* Nothing but the areas may be touched. */
static void fence(void) {
    uint8_t *from = pool;
    for (size_t i = 0; i < area_count; i++) {
        VALGRIND_MAKE_MEM_NOACCESS(from, (size_t)(areas[i].bytes - from));
        from = areas[i].bytes + areas[i].length;
    }
    VALGRIND_MAKE_MEM_NOACCESS(from, (size_t)(pool + POOL - from));
    VALGRIND_MAKE_MEM_NOACCESS(before, sizeof before);
}

void start(void) {
    memcpy(before, pool, used);
    fence();
    clock_gettime(CLOCK_MONOTONIC, &began);
}

void stop(void) {
    clock_gettime(CLOCK_MONOTONIC, &ended);
    VALGRIND_MAKE_MEM_DEFINED(pool, sizeof pool);
    VALGRIND_MAKE_MEM_DEFINED(before, sizeof before);
    size_t seen = 0;
    for (size_t i = 0; i <= lent_count; i++) {
        size_t end = i < lent_count ? (size_t)(lent_areas[i].bytes - pool) : used;
        if (memcmp(pool + seen, before + seen, end - seen) != 0) broken("bytes changed that were not lent");
        if (i < lent_count) seen = end + lent_areas[i].length;
    }
}

uint64_t nanoseconds(void) {
    return (uint64_t)(ended.tv_sec - began.tv_sec) * 1000000000u + (uint64_t)ended.tv_nsec - (uint64_t)began.tv_nsec;
}

void put(size_t width, uint64_t value) {
    for (size_t i = 0; i < width; i++) putchar((int)(value >> (8 * i) & 0xFF));
    if (width < 8 && value >> (8 * width) != 0) broken("a value does not fit its field");
}

void put_time(double value) {
    uint64_t bits;
    memcpy(&bits, &value, sizeof bits);
    put(8, bits);
}

void put_area(area a) { fwrite(a.bytes, 1, a.length, stdout); }

static bool all_are(uint8_t value, area a) {
    for (size_t i = 0; i < a.length; i++)
        if (a.bytes[i] != value) return false;
    return true;
}

void put_mark(area a) { put(1, all_are(0, a) ? 0 : all_are(preset, a) ? 1 : 2); }

void broken(const char *what) {
    fflush(stdout);
    fprintf(stderr, "cases: %s\n", what);
    exit(3);
}
