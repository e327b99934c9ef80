/* The stored tables, timed inside one program: ours, and the quick and the plain search in Rust. main FOLDER */
#define _POSIX_C_SOURCE 199309L
#include "pelzurivan.h"
#include <stdbool.h>
#include <stdio.h>
#include <stdlib.h>
#include <time.h>

enum { N = 12, K = 6, TABLES = 100, BYTES = 512 };

uint64_t yardstick_find(bool quickly, uint32_t n, uint32_t k, const uint8_t *t, size_t length, uint8_t *work,
                        size_t work_length);

/* Rust's core library names it; nothing here unwinds. */
void rust_eh_personality(void);
void rust_eh_personality(void) {}

typedef enum { OURS, QUICK, PLAIN } search;
static uint8_t tables[TABLES][BYTES], work[PELZURIVAN_WORK];

static uint64_t find(search s, const uint8_t *t) {
    if (s != OURS) return yardstick_find(s == QUICK, N, K, t, BYTES, work, sizeof work);
    pelzurivan_sought a = pelzurivan_find(N, K, t, BYTES, work, sizeof work);
    return a.number == 0 ? (uint64_t)1 << 32 | a.own << 16 | a.shared : 0;
}

static double now(void) {
    struct timespec t;
    clock_gettime(CLOCK_MONOTONIC, &t);
    return t.tv_sec * 1e6 + t.tv_nsec / 1e3;
}

/* The least of some rounds, over all tables, in microseconds a table. */
static double timed(search s, int rounds) {
    double sum = 0;
    for (int i = 0; i < TABLES; i++) {
        double least = 1e18;
        for (int r = 0; r < rounds; r++) {
            double began = now();
            if (find(s, tables[i]) != 0) {
                fprintf(stderr, "stored table %d has a split\n", i);
                exit(1);
            }
            double took = now() - began;
            if (took < least) least = took;
        }
        sum += least;
    }
    return sum / TABLES;
}

int main(int count, char **words) {
    static const char *names[] = {"random", "near"};
    for (int kind = 0; kind < 2; kind++) {
        char path[4096];
        snprintf(path, sizeof path, "%s/%s.bin", count > 1 ? words[1] : ".", names[kind]);
        FILE *file = fopen(path, "rb");
        if (!file || fread(tables, 1, sizeof tables, file) != sizeof tables) {
            perror(path);
            return 2;
        }
        fclose(file);
        double ours = timed(OURS, 15), quick = timed(QUICK, 15), plain = timed(PLAIN, 2);
        printf("%s, n = %d, K = %d, %d stored, emulated: ours %.1f us a table, ", names[kind], N, K, TABLES, ours);
        printf("quick in Rust %.1f, plain in Rust %.1f\n", quick, plain);
        printf("%s: ours takes %.2f times the quick search in Rust; %.0f times quicker than the plain one\n",
               names[kind], ours / quick, plain / ours);
    }
}
