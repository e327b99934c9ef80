/* The calls on a card. */
#include "glue.h"

/* A load, whole or cut or one store of it: the same fields and the same answer. */
typedef struct {
    uint64_t desk, n;
    area sheet, card;
} load_case;

static load_case load_fields(void) {
    load_case c;
    c.desk = number(8);
    c.n = number(8);
    c.sheet = handed(SHEET);
    c.card = shared(CARD);
    return c;
}

static void put_loaded(pelzurivan_loaded a, area card) {
    put(1, a.number);
    put(1, a.index);
    put_area(card);
}

void load(void) {
    load_case c = load_fields();
    if (!whole()) return;
    start();
    pelzurivan_loaded a = pelzurivan_load(c.card.bytes, c.card.length, c.desk, c.n, c.sheet.bytes, c.sheet.length);
    stop();
    put_loaded(a, c.card);
}

void load_cut(void) {
    uint64_t stores = number(8);
    load_case c = load_fields();
    if (!whole()) return;
    start();
    pelzurivan_loaded a = pelzurivan_load_cut(c.card.bytes, c.card.length, c.desk, c.n, c.sheet.bytes, c.sheet.length,
                                              stores);
    stop();
    put_loaded(a, c.card);
}

void load_store(void) {
    uint64_t which = number(8);
    load_case c = load_fields();
    if (!whole()) return;
    start();
    pelzurivan_loaded a = pelzurivan_load_store(c.card.bytes, c.card.length, c.desk, c.n, c.sheet.bytes,
                                                c.sheet.length, which);
    stop();
    put_loaded(a, c.card);
}

void run_desk(void) {
    uint64_t desk = number(8), x = number(8);
    area card = handed(CARD);
    if (!whole()) return;
    start();
    pelzurivan_ran a = pelzurivan_run_desk(card.bytes, card.length, desk, x);
    stop();
    put_ran(a);
}
