/* What the files with the glue of the calls have in common. */
#ifndef GLUE_H
#define GLUE_H

#include "fields.h"
#include "pelzurivan.h"

/* The answers that several calls have. */
static inline void put_sought(pelzurivan_sought a, area work) {
    put(1, a.number);
    put(2, a.own);
    put(2, a.shared);
    put_mark(work);
}

static inline void put_made(pelzurivan_made a, area sheet, area work) {
    put(1, a.number);
    put(1, a.count);
    put_area(sheet);
    put_mark(work);
}

static inline void put_ran(pelzurivan_ran a) {
    put(1, a.number);
    put(1, a.bit);
    put(1, a.index);
}

static inline void put_rebuilt(pelzurivan_rebuilt a, area table) {
    put(1, a.number);
    put(1, a.index);
    put_area(table);
}

static inline void put_checked(pelzurivan_checked a) {
    put(1, a.number);
    put(8, a.place);
}

/* The calls that are told the edition, and the one that rewrites a sheet. The glue of each stands in told.c. */
void try_told(void);
void find_told(void);
void make_told(void);
void run_told(void);
void rebuild_told(void);
void check_told(void);
void rewrite(void);
void bound(void);

/* The calls on a card, in cards.c. */
void load(void);
void load_cut(void);
void load_store(void);
void run_desk(void);

#endif
