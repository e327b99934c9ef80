/* The calls that split a table or make a sheet. */
#include "sheet.h"

#include <string.h>

static void make_and_run(void) {
    uint8_t sheet[PELZURIVAN_SHEET + 1], work[PELZURIVAN_WORK + 1];
    memset(sheet, PRESET, sizeof sheet);
    memset(work, PRESET, sizeof work);
    pelzurivan_made made = pelzurivan_make(3, 2, AND_OF_3, 1, sheet, PELZURIVAN_SHEET, work, PELZURIVAN_WORK);
    expect(made.number == 0 && made.count == 2, "make: done, two cells");
    expect(memcmp(sheet, EXAMPLE_2, sizeof EXAMPLE_2) == 0, "make: the records of example 2");
    expect(all_are(PRESET, sheet + sizeof EXAMPLE_2, sizeof sheet - sizeof EXAMPLE_2), "make: the other bytes stay");
    expect(all_are(0, work, PELZURIVAN_WORK) && work[PELZURIVAN_WORK] == PRESET, "make: the work area is zeros");

    for (uint64_t x = 0; x < 8; x++) {
        pelzurivan_ran ran = pelzurivan_run(3, sheet, sizeof EXAMPLE_2, x);
        expect(ran.number == 0 && ran.bit == (x == 7) && ran.index == 0, "run: the AND of three");
    }
    uint8_t table[] = {PRESET, PRESET};
    pelzurivan_rebuilt rebuilt = pelzurivan_rebuild(3, sheet, sizeof EXAMPLE_2, table, 1);
    expect(rebuilt.number == 0 && rebuilt.index == 0, "rebuild: done");
    expect(table[0] == 0x80 && table[1] == PRESET, "rebuild: the table");
}

/* The same gate for a desk: byte 7 of each record is the desk, and every reader takes the sheet. */
static void a_sheet_for_a_desk(void) {
    uint8_t sheet[PELZURIVAN_SHEET], work[PELZURIVAN_WORK], expected[sizeof EXAMPLE_2];
    for (uint64_t desk = 0; desk <= 5; desk++) {
        memset(sheet, PRESET, sizeof sheet);
        pelzurivan_made made =
            pelzurivan_make_for_desk(3, 2, desk, AND_OF_3, 1, sheet, sizeof sheet, work, sizeof work);
        if (desk == 5) {
            expect(made.number == 5 && made.count == 0 && all_are(PRESET, sheet, sizeof sheet), "make: 5 for desk 5");
            break;
        }
        memcpy(expected, EXAMPLE_2, sizeof expected);
        expected[7] = expected[PELZURIVAN_RECORD + 7] = (uint8_t)desk;
        expect(made.number == 0 && made.count == 2, "make for a desk: done, two cells");
        expect(memcmp(sheet, expected, sizeof expected) == 0, "make for a desk: byte 7 is the desk");
        pelzurivan_ran ran = pelzurivan_run(3, sheet, sizeof expected, 7);
        expect(ran.number == 0 && ran.bit == 1, "run: a sheet for a desk");
        pelzurivan_checked checked = pelzurivan_check(3, AND_OF_3, 1, sheet, sizeof expected);
        expect(checked.number == 0, "check: a sheet for a desk is accepted");
        sheet[7] = (uint8_t)(desk + 1);
        checked = pelzurivan_check(3, AND_OF_3, 1, sheet, sizeof expected);
        expect(checked.number == 10 && checked.place == (desk < 4), "check: 10 at the first record of another desk");
    }
}

static void find_and_try(void) {
    uint8_t work[PELZURIVAN_WORK], room[] = {PRESET, PRESET, PRESET};
    const uint8_t select[] = {0xCA};
    memset(work, PRESET, sizeof work);
    pelzurivan_sought sought = pelzurivan_find(3, 2, AND_OF_3, 1, work, sizeof work);
    expect(sought.number == 0 && sought.own == 3 && sought.shared == 0, "find: own 3, shared 0");
    pelzurivan_tried tried = pelzurivan_try(3, 3, 3, 4, select, 1, room, sizeof room);
    expect(tried.number == 0 && tried.d == 0xCA, "try: D of example 5");
    expect(tried.b == 0 && tried.columns == 0, "try: no b is named where the split is possible");
    expect(room[0] == 0x0C && room[1] == PRESET && room[2] == PRESET, "try: H of example 5");
}

/* Inputs that do nothing are set aside: table C0 is input 1 AND input 2, table FF is a constant (example 6). */
static void unused_inputs(void) {
    uint8_t sheet[PELZURIVAN_SHEET] = {0}, work[PELZURIVAN_WORK] = {0};
    const uint8_t and_of_two[] = {0xC0}, constant[] = {0xFF};
    const uint8_t and_cell[PELZURIVAN_RECORD] = {2, 1, 2, 255, 255, 255, 255, 0, 8};
    const uint8_t constant_cell[PELZURIVAN_RECORD] = {1, 0, 255, 255, 255, 255, 255, 0, 3};
    pelzurivan_made made = pelzurivan_make(3, 2, and_of_two, 1, sheet, sizeof sheet, work, sizeof work);
    expect(made.number == 0 && made.count == 1, "make: one cell, since two inputs count");
    expect(memcmp(sheet, and_cell, sizeof and_cell) == 0, "make: the cell reads the inputs that count");
    made = pelzurivan_make(3, 2, constant, 1, sheet, sizeof sheet, work, sizeof work);
    expect(made.number == 0 && made.count == 1, "make: one cell for a constant");
    expect(memcmp(sheet, constant_cell, sizeof constant_cell) == 0, "make: it reads signal 0, with table 3");
    expect(pelzurivan_find(3, 2, and_of_two, 1, work, sizeof work).number == 7, "find: 7, since two inputs count");
}

/* The majority of three out of cells of two, which no chain of splits makes: inputs 0 and 1 are each read twice. */
static void a_sheet_for_any_gate(void) {
    static const uint8_t two_of_four[] = {0xE8, 0xFE}, majority[] = {0xE8};
    uint8_t sheet[PELZURIVAN_SHEET], work[PELZURIVAN_WORK], same[PELZURIVAN_SHEET];
    memset(sheet, PRESET, sizeof sheet);
    memset(work, PRESET, sizeof work);
    pelzurivan_made made =
        pelzurivan_make(4, 3, two_of_four, sizeof two_of_four, sheet, sizeof sheet, work, sizeof work);
    expect(made.number == 8 && made.count == 0, "make: at least 2 of 4 with cells of 3 is 8");
    memset(work, PRESET, sizeof work);
    made = pelzurivan_make_any(4, 3, 2, two_of_four, sizeof two_of_four, sheet, sizeof sheet, work, sizeof work);
    expect(made.number == 0 && made.count == 3, "make_any: three cells");
    expect(sheet[7] == 2 && all_are(PRESET, sheet + 3 * PELZURIVAN_RECORD, sizeof sheet - 3 * PELZURIVAN_RECORD),
           "make_any: for the desk, and the bytes after the records stay");
    expect(all_are(0, work, sizeof work), "make_any: the work area is zeros");
    pelzurivan_checked checked = pelzurivan_check(4, two_of_four, sizeof two_of_four, sheet, sizeof EXAMPLE_2 / 2 * 3);
    expect(checked.number == 0, "make_any: the check accepts the sheet");
    memset(sheet, PRESET, sizeof sheet);
    made = pelzurivan_make_any(3, 2, 0, majority, sizeof majority, sheet, sizeof sheet, work, sizeof work);
    expect(made.number == 8 && made.count == 0 && all_are(PRESET, sheet, sizeof sheet), "make_any: 8 touches no byte");
    made = pelzurivan_make_any(3, 2, 1, AND_OF_3, sizeof AND_OF_3, sheet, sizeof sheet, work, sizeof work);
    memset(same, PRESET, sizeof same);
    pelzurivan_made as_make = pelzurivan_make_for_desk(3, 2, 1, AND_OF_3, sizeof AND_OF_3, same, sizeof same, work,
                                                       sizeof work);
    expect(made.number == as_make.number && made.count == as_make.count && !memcmp(sheet, same, sizeof same),
           "make_any: make's sheet where there is one");
}

/* XOR of three where input 3 is 0, else their majority: with input 3 shared it breaks only where that is 1. */
static void where_a_split_breaks(void) {
    const uint8_t table[] = {0x96, 0xE8};
    uint8_t room[] = {PRESET, PRESET};
    pelzurivan_tried tried = pelzurivan_try(4, 3, 3, 8, table, sizeof table, room, sizeof room);
    expect(tried.number == 8 && tried.d == 0 && room[0] == PRESET, "try: 8 leaves the room");
    expect(tried.b == 1 && tried.columns == 3, "try: 8, three columns at b = 1");
}

/* Masks are whole numbers: 65,539 names a position from n up, whatever its low 16 bits say. */
static void masks_above_16_bits(void) {
    static uint8_t table[8192], room[4096];
    const uint64_t beyond[] = {65539, (UINT64_C(1) << 32) + 3, (UINT64_C(1) << 63) + 3};
    memset(room, PRESET, sizeof room);
    for (size_t i = 0; i < sizeof beyond / sizeof beyond[0]; i++) {
        pelzurivan_tried own = pelzurivan_try(16, 6, beyond[i], 0, table, sizeof table, room, sizeof room);
        expect(own.number == 5 && own.d == 0, "try: 5 for an own mask above 16 bits");
        pelzurivan_tried shared = pelzurivan_try(16, 6, 12, beyond[i], table, sizeof table, room, sizeof room);
        expect(shared.number == 5 && shared.d == 0, "try: 5 for a shared mask above 16 bits");
    }
    expect(all_are(PRESET, room, sizeof room), "try: 5 leaves the room");
    expect(pelzurivan_try(16, 6, 3, 0, table, sizeof table, room, sizeof room).number == 0, "try: 3 is a mask");
}

static void refusals(void) {
    uint8_t sheet[PELZURIVAN_SHEET], work[PELZURIVAN_WORK], bad[sizeof EXAMPLE_2];
    memset(sheet, PRESET, sizeof sheet);
    memset(work, PRESET, sizeof work);
    const uint8_t majority[] = {0xE8};
    pelzurivan_made made = pelzurivan_make(3, 2, majority, 1, sheet, sizeof sheet, work, sizeof work);
    expect(made.number == 8 && made.count == 0, "make: 8 for the majority of three");
    expect(all_are(PRESET, sheet, sizeof sheet) && all_are(0, work, sizeof work), "make: 8 leaves the sheet");
    expect(pelzurivan_find(3, 3, majority, 1, work, sizeof work).number == 7, "find: 7");
    expect(pelzurivan_try(3, 2, 7, 0, majority, 1, sheet, 1).number == 5, "try: 5");
    expect(pelzurivan_run(3, EXAMPLE_2, sizeof EXAMPLE_2, 8).number == 11, "run: 11");
    memcpy(bad, EXAMPLE_2, sizeof bad);
    bad[PELZURIVAN_RECORD + 7] = 1;
    pelzurivan_ran ran = pelzurivan_run(3, bad, sizeof bad, 0);
    expect(ran.number == 10 && ran.bit == 0 && ran.index == 1, "run: 10, record 1");
    pelzurivan_rebuilt rebuilt = pelzurivan_rebuild(3, bad, sizeof bad, work, 1);
    expect(rebuilt.number == 10 && rebuilt.index == 1 && work[0] == 0, "rebuild: 10, record 1");
}

void making(void) {
    make_and_run();
    a_sheet_for_a_desk();
    find_and_try();
    unused_inputs();
    a_sheet_for_any_gate();
    where_a_split_breaks();
    masks_above_16_bits();
    refusals();
}
