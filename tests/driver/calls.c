/* One function a call, and the table of codes. A call is added by its function and its line below. */
#include "calls.h"

#include "fields.h"
#include "glue.h"

static void try_split(void) {
    uint64_t n = number(8), k = number(8), own = number(2), shared = number(2);
    area table = handed(TABLE), room = lent(TABLE);
    if (!whole()) return;
    start();
    pelzurivan_tried a = pelzurivan_try(n, k, own, shared, table.bytes, table.length, room.bytes, room.length);
    stop();
    put(1, a.number);
    put(8, a.d);
    put(2, a.b);
    put(2, a.columns);
    put_area(room);
}

static void find(void) {
    uint64_t n = number(8), k = number(8);
    area table = handed(TABLE), work = lent(WORK);
    if (!whole()) return;
    start();
    pelzurivan_sought a = pelzurivan_find(n, k, table.bytes, table.length, work.bytes, work.length);
    stop();
    put_sought(a, work);
}

static void make(void) {
    uint64_t n = number(8), k = number(8);
    area table = handed(TABLE), sheet = lent(SHEET), work = lent(WORK);
    if (!whole()) return;
    start();
    pelzurivan_made a = pelzurivan_make(n, k, table.bytes, table.length, sheet.bytes, sheet.length, work.bytes,
                                        work.length);
    stop();
    put_made(a, sheet, work);
}

static void make_for_desk(void) {
    uint64_t n = number(8), k = number(8), desk = number(8);
    area table = handed(TABLE), sheet = lent(SHEET), work = lent(WORK);
    if (!whole()) return;
    start();
    pelzurivan_made a = pelzurivan_make_for_desk(n, k, desk, table.bytes, table.length, sheet.bytes, sheet.length,
                                                 work.bytes, work.length);
    stop();
    put_made(a, sheet, work);
}

static void make_any(void) {
    uint64_t n = number(8), k = number(8), desk = number(8);
    area table = handed(TABLE), sheet = lent(SHEET), work = lent(WORK);
    if (!whole()) return;
    start();
    pelzurivan_made a = pelzurivan_make_any(n, k, desk, table.bytes, table.length, sheet.bytes, sheet.length,
                                            work.bytes, work.length);
    stop();
    put_made(a, sheet, work);
}

static void run(void) {
    uint64_t n = number(8), x = number(8);
    area sheet = handed(SHEET);
    if (!whole()) return;
    start();
    pelzurivan_ran a = pelzurivan_run(n, sheet.bytes, sheet.length, x);
    stop();
    put_ran(a);
}

static void rebuild(void) {
    uint64_t n = number(8);
    area sheet = handed(SHEET), table = lent(TABLE);
    if (!whole()) return;
    start();
    pelzurivan_rebuilt a = pelzurivan_rebuild(n, sheet.bytes, sheet.length, table.bytes, table.length);
    stop();
    put_rebuilt(a, table);
}

static void check(void) {
    uint64_t n = number(8);
    area table = handed(TABLE), sheet = handed(SHEET);
    if (!whole()) return;
    start();
    pelzurivan_checked a = pelzurivan_check(n, table.bytes, table.length, sheet.bytes, sheet.length);
    stop();
    put_checked(a);
}

static pelzurivan_times input_times(void) {
    pelzurivan_times times;
    for (size_t i = 0; i < sizeof times.kind; i++) {
        times.kind[i] = (uint8_t)number(1);
        times.first[i] = time_number();
        times.second[i] = time_number();
    }
    return times;
}

static void settle(void) {
    uint64_t n = number(8);
    area sheet = handed(SHEET);
    double delay = time_number();
    pelzurivan_times times = input_times();
    if (!whole()) return;
    start();
    pelzurivan_settled a = pelzurivan_settle(n, sheet.bytes, sheet.length, delay, times);
    stop();
    put(1, a.number);
    put(1, a.index);
    put_time(a.earliest);
    put_time(a.latest);
}

static void slack(void) {
    uint64_t n = number(8);
    area sheet = handed(SHEET);
    double delay = time_number();
    pelzurivan_times times = input_times();
    int64_t deadline = (int64_t)number(8);
    if (!whole()) return;
    start();
    pelzurivan_slack_answer a = pelzurivan_slack(n, sheet.bytes, sheet.length, delay, times, deadline);
    stop();
    put(1, a.number);
    put(1, a.index);
    put(8, (uint64_t)a.slack);
}

static void shorter(void) {
    uint64_t n = number(8);
    area table = handed(TABLE), first = handed(SHEET), second = handed(SHEET);
    if (!whole()) return;
    start();
    pelzurivan_shorter_answer a = pelzurivan_shorter(n, table.bytes, table.length, first.bytes, first.length,
                                                     second.bytes, second.length);
    stop();
    put(1, a.which);
    put(2, a.length);
    put(1, a.number);
}

static void read_formula(void) {
    uint64_t n = number(8);
    area text = handed(TEXT), table = lent(TABLE);
    if (!whole()) return;
    start();
    pelzurivan_formula_read a = pelzurivan_read_formula(n, text.bytes, text.length, table.bytes, table.length);
    stop();
    put(1, a.number);
    put(8, a.place);
    put_area(table);
}

static void write_formula(void) {
    uint64_t n = number(8);
    area sheet = handed(SHEET), text = lent(TEXT);
    if (!whole()) return;
    start();
    pelzurivan_formula_written a = pelzurivan_write_formula(n, sheet.bytes, sheet.length, text.bytes, text.length);
    stop();
    put(1, a.number);
    put(8, a.place);
    put(2, a.length);
    put_area(text);
}

static void turn(void) {
    uint8_t first = (uint8_t)number(1), second = (uint8_t)number(1);
    if (!whole()) return;
    start();
    pelzurivan_turned a = pelzurivan_turn(first, second);
    stop();
    put(1, a.number);
    put(1, a.flip);
    put(1, a.mask);
    put(1, a.p0);
    put(1, a.p1);
    put(1, a.p2);
}

static void look_up(void) {
    uint8_t table = (uint8_t)number(1);
    if (!whole()) return;
    start();
    uint8_t entry = pelzurivan_look_up(table);
    stop();
    put(1, entry);
}

static void try_several(void) {
    uint64_t n = number(8), k = number(8), r = number(8), own = number(2), shared = number(2);
    area table = handed(TABLE), room = lent(TABLE);
    if (!whole()) return;
    start();
    pelzurivan_tried_several a = pelzurivan_try_several(n, k, r, own, shared, table.bytes, table.length, room.bytes,
                                                        room.length);
    stop();
    put(1, a.number);
    put(8, a.first);
    put(8, a.second);
    put(8, a.third);
    put(2, a.b);
    put(2, a.columns);
    put_area(room);
}

static void find_several(void) {
    uint64_t n = number(8), k = number(8);
    area table = handed(TABLE), work = lent(WORK);
    if (!whole()) return;
    start();
    pelzurivan_sought_several a = pelzurivan_find_several(n, k, table.bytes, table.length, work.bytes, work.length);
    stop();
    put(1, a.number);
    put(1, a.r);
    put(2, a.own);
    put(2, a.shared);
    put_mark(work);
}

static const call CALLS[] = {
    {0x01, try_split},     {0x02, find},          {0x03, make},         {0x04, run},        {0x05, rebuild},
    {0x06, check},         {0x07, settle},        {0x08, slack},        {0x09, shorter},    {0x0A, read_formula},
    {0x0B, write_formula}, {0x0C, make_for_desk}, {0x0D, load},         {0x0E, run_desk},   {0x0F, load_cut},
    {0x10, try_several},   {0x11, find_several},  {0x12, try_told},     {0x13, find_told},  {0x14, make_told},
    {0x15, run_told},      {0x16, rebuild_told},  {0x17, check_told},   {0x18, rewrite},    {0x19, turn},
    {0x1A, look_up},       {0x1B, bound},         {0x1C, load_store},   {0x1D, make_any},
};

const call *call_of(int code) {
    for (size_t i = 0; i < sizeof CALLS / sizeof CALLS[0]; i++)
        if (CALLS[i].code == code) return &CALLS[i];
    return NULL;
}
