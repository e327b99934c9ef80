/* The fields of a case and of its answer (docs/BATCH.md), and what is handed over and lent to a call. */
#ifndef FIELDS_H
#define FIELDS_H

#include <stdbool.h>
#include <stddef.h>
#include <stdint.h>

/* The longest of each kind that a case may name; a room is as long as what it is for. */
enum { TABLE = 16400, WORK = 20000, SHEET = 1000, TEXT = 2000, CARD = 1100 };

typedef struct {
    uint8_t *bytes;
    size_t length;
} area;

/* Every lent byte before a call. */
extern uint8_t preset;

/* The code of the next case, or -1 where the input ends. */
int next_code(void);

/* The next field of the case. Once one can't be had, all that follow are 0 or empty: ask whole() before the call. */
uint64_t number(size_t width);
double time_number(void); /* the eight bytes of an f64 */
area handed(size_t most); /* bytes to be read */
area lent(size_t most);   /* bytes to be written, preset */
area shared(size_t most); /* bytes to be read and written, as handed over */
bool whole(void);
const char *why_not_whole(void);

/* Right around a call: stop() sees to it that only lent bytes changed, and ends the program with 3 if others did. */
void start(void);
void stop(void);
uint64_t nanoseconds(void); /* of the last call */

/* The next field of the answer. */
void put(size_t width, uint64_t value);
void put_time(double value);
void put_area(area a);
void put_mark(area a); /* W of a work area */

/* Ends the program with 3: a call did what none may. */
void broken(const char *what);

#endif
