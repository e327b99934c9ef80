/* Makes, runs, rebuilds and checks the sheet of the AND of three inputs (document 01, example 2) through the C
 * interface, and makes other calls of it. It prints a line and returns 0 if all is as the documents say. */
#include "sheet.h"

#include <stdio.h>

const uint8_t AND_OF_3[1] = {0x80};
const uint8_t EXAMPLE_2[2 * PELZURIVAN_RECORD] = {
    2, 0, 1, 255, 255, 255, 255, 0, 8, 0, 0, 0, 0, 0, 0, 0,
    2, 2, 3, 255, 255, 255, 255, 0, 8, 0, 0, 0, 0, 0, 0, 0,
};

static int faults = 0;
static int checks = 0;

void expect(int holds, const char *what) {
    checks += 1;
    if (!holds) {
        faults += 1;
        fprintf(stderr, "tests/c: not so: %s\n", what);
    }
}

int all_are(uint8_t value, const uint8_t *bytes, size_t length) {
    for (size_t i = 0; i < length; i++)
        if (bytes[i] != value) return 0;
    return 1;
}

int main(void) {
    making();
    reading();
    printf("tests/c: %d of %d checks hold\n", checks - faults, checks);
    return faults != 0;
}
