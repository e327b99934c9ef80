/* The calls that are told the edition of the sheet, and the one that rewrites a sheet in the second. */
#include "glue.h"

void try_told(void) {
    uint64_t edition = number(8), n = number(8), k = number(8), own = number(2), shared = number(2);
    area table = handed(TABLE), room = lent(TABLE);
    if (!whole()) return;
    start();
    pelzurivan_tried_told a = pelzurivan_try_told(edition, n, k, own, shared, table.bytes, table.length, room.bytes,
                                                  room.length);
    stop();
    put(1, a.number);
    put(8, a.d0);
    put(8, a.d1);
    put(8, a.d2);
    put(8, a.d3);
    put(2, a.b);
    put(2, a.columns);
    put_area(room);
}

void find_told(void) {
    uint64_t edition = number(8), n = number(8), k = number(8);
    area table = handed(TABLE), work = lent(WORK);
    if (!whole()) return;
    start();
    pelzurivan_sought a = pelzurivan_find_told(edition, n, k, table.bytes, table.length, work.bytes, work.length);
    stop();
    put_sought(a, work);
}

void make_told(void) {
    uint64_t edition = number(8), n = number(8), k = number(8), desk = number(8);
    area table = handed(TABLE), sheet = lent(SHEET), work = lent(WORK);
    if (!whole()) return;
    start();
    pelzurivan_made a = pelzurivan_make_told(edition, n, k, desk, table.bytes, table.length, sheet.bytes, sheet.length,
                                             work.bytes, work.length);
    stop();
    put_made(a, sheet, work);
}

void run_told(void) {
    uint64_t edition = number(8), n = number(8), x = number(8);
    area sheet = handed(SHEET);
    if (!whole()) return;
    start();
    pelzurivan_ran a = pelzurivan_run_told(edition, n, sheet.bytes, sheet.length, x);
    stop();
    put_ran(a);
}

void rebuild_told(void) {
    uint64_t edition = number(8), n = number(8);
    area sheet = handed(SHEET), table = lent(TABLE);
    if (!whole()) return;
    start();
    pelzurivan_rebuilt a = pelzurivan_rebuild_told(edition, n, sheet.bytes, sheet.length, table.bytes, table.length);
    stop();
    put_rebuilt(a, table);
}

void check_told(void) {
    uint64_t edition = number(8), n = number(8);
    area table = handed(TABLE), sheet = handed(SHEET);
    if (!whole()) return;
    start();
    pelzurivan_checked a = pelzurivan_check_told(edition, n, table.bytes, table.length, sheet.bytes, sheet.length);
    stop();
    put_checked(a);
}

void rewrite(void) {
    uint64_t n = number(8);
    area sheet = handed(SHEET), room = lent(SHEET);
    if (!whole()) return;
    start();
    pelzurivan_rewritten a = pelzurivan_rewrite(n, sheet.bytes, sheet.length, room.bytes, room.length);
    stop();
    put(1, a.number);
    put(1, a.index);
    put(1, a.count);
    put_area(room);
}

void bound(void) {
    uint64_t edition = number(8), n = number(8), k = number(8);
    area table = handed(TABLE), work = lent(WORK);
    if (!whole()) return;
    start();
    pelzurivan_bounded a = pelzurivan_bound(edition, n, k, table.bytes, table.length, work.bytes, work.length);
    stop();
    put(1, a.number);
    put(1, a.least);
    put_mark(work);
}
