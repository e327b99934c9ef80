/* Answers a batch of calls of the library: docs/BATCH.md says how. */
#include "calls.h"
#include "fields.h"

#include <stdio.h>
#include <stdlib.h>
#include <string.h>

static bool times = false;

/* Two hexadecimal digits. */
static bool read_preset(const char *text) {
    if (strlen(text) != 2 || strspn(text, "0123456789abcdefABCDEF") != 2) return false;
    preset = (uint8_t)strtoul(text, NULL, 16);
    return true;
}

static bool read_words(int count, char **words) {
    for (int i = 1; i < count; i++) {
        if (strcmp(words[i], "--times") == 0) times = true;
        else if (strcmp(words[i], "--preset") != 0 || ++i == count || !read_preset(words[i])) return false;
    }
    return true;
}

/* Answers the cases up to the end of the input or the first that can't be answered. */
static void answer_all(void) {
    int code;
    for (unsigned long at = 0; (code = next_code()) != EOF; at++) {
        const call *c = call_of(code);
        if (c) c->answer();
        if (!c || !whole()) {
            fprintf(stderr, "cases: case %lu (code %02X) %s\n", at, code, c ? why_not_whole() : "is no known call");
            return;
        }
        /* At once, so that whatever happens in a later call the answers before it are there. */
        if (fflush(stdout) != 0) return;
        if (times) fprintf(stderr, "%02X %llu\n", code, (unsigned long long)nanoseconds());
    }
}

int main(int count, char **words) {
    if (!read_words(count, words)) {
        fprintf(stderr, "cases [--times] [--preset XX]: a batch on standard input, its answers on standard output\n");
        return 2;
    }
    answer_all();
    return ferror(stdin) || ferror(stdout) ? 2 : 0;
}
