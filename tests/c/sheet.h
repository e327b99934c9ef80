/* What the files of this program share. */
#ifndef TESTS_C_SHEET_H
#define TESTS_C_SHEET_H

#include "pelzurivan.h"

#include <stddef.h>

#define PRESET 0xAA

/* The AND of three inputs, and its sheet (document 01, example 2). */
extern const uint8_t AND_OF_3[1];
extern const uint8_t EXAMPLE_2[2 * PELZURIVAN_RECORD];

/* Counts what is said to hold, and tells what doesn't. */
void expect(int holds, const char *what);

int all_are(uint8_t value, const uint8_t *bytes, size_t length);

void making(void);
void reading(void);

#endif
