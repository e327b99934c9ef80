/* The calls that read a sheet, a card or a text. */
#include "sheet.h"

#include <string.h>

static void check_a_suppliers_sheet(void) {
    static const uint8_t majority[] = {0xE8};
    uint8_t sheet[] = {
        2, 0, 1, 255, 255, 255, 255, 0, 8, 0, 0, 0, 0, 0, 0, 0,
        2, 0, 1, 255, 255, 255, 255, 0, 14, 0, 0, 0, 0, 0, 0, 0,
        2, 2, 4, 255, 255, 255, 255, 0, 8, 0, 0, 0, 0, 0, 0, 0,
        2, 3, 5, 255, 255, 255, 255, 0, 14, 0, 0, 0, 0, 0, 0, 0,
    };
    pelzurivan_checked ours = pelzurivan_check(3, AND_OF_3, 1, EXAMPLE_2, sizeof EXAMPLE_2);
    expect(ours.number == 0 && ours.place == 0, "check: the sheet of example 2 is accepted");
    pelzurivan_checked theirs = pelzurivan_check(3, majority, 1, sheet, sizeof sheet);
    expect(theirs.number == 0 && theirs.place == 0, "check: a hand-wired majority is accepted");
    pelzurivan_checked other = pelzurivan_check(3, AND_OF_3, 1, sheet, sizeof sheet);
    expect(other.number == 12 && other.place == 3, "check: 12, the majority isn't the AND, first at assignment 3");
    sheet[2 * PELZURIVAN_RECORD + 8] = 0;
    pelzurivan_checked damaged = pelzurivan_check(3, majority, 1, sheet, sizeof sheet);
    expect(damaged.number == 12 && damaged.place == 5, "check: 12, a changed table, first seen at assignment 5");
    sheet[3 * PELZURIVAN_RECORD] = 7;
    pelzurivan_checked bad = pelzurivan_check(3, majority, 1, sheet, sizeof sheet);
    expect(bad.number == 10 && bad.place == 3, "check: 10, record 3");
}

/* The sheet of example 2 with inputs 0 and 1 at 1 and from 1/2 to 2, input 2 at 3 1/4, and 1/4 a cell: the first cell
 * settles from 3/4 to 2 1/4, the second from 1 to 3 1/2. */
static void settle_and_slack(void) {
    pelzurivan_times times = {.kind = {1, 2, 1}, .first = {1, 0.5, 3.25}, .second = {-1, 2, -1}};
    pelzurivan_settled settled = pelzurivan_settle(3, EXAMPLE_2, sizeof EXAMPLE_2, 0.25, times);
    expect(settled.number == 0 && settled.index == 0, "settle: done");
    expect(settled.earliest == 1 && settled.latest == 3.5, "settle: from 1 to 3 1/2");
    pelzurivan_slack_answer slack = pelzurivan_slack(3, EXAMPLE_2, sizeof EXAMPLE_2, 0.25, times, 48);
    expect(slack.number == 0 && slack.index == 0 && slack.slack == -8, "slack: half a nanosecond too late");
    slack = pelzurivan_slack(3, EXAMPLE_2, sizeof EXAMPLE_2, 0.3, times, 48);
    expect(slack.number == 14 && slack.slack == 0, "slack: 14, the delay isn't in sixteenths");
    times.kind[2] = 0;
    settled = pelzurivan_settle(3, EXAMPLE_2, sizeof EXAMPLE_2, 0.25, times);
    expect(settled.number == 13 && settled.earliest == 0 && settled.latest == 0, "settle: 13, a missing time");
}

/* The sheet of example 2 padded with a cell that nobody reads, as record 1. */
static const uint8_t PADDED[] = {
    2, 0, 1, 255, 255, 255, 255, 0, 8, 0, 0, 0, 0, 0, 0, 0,
    1, 0, 255, 255, 255, 255, 255, 0, 2, 0, 0, 0, 0, 0, 0, 0,
    2, 2, 3, 255, 255, 255, 255, 0, 8, 0, 0, 0, 0, 0, 0, 0,
};

static void a_cell_that_nobody_reads(void) {
    uint8_t table[] = {PRESET};
    pelzurivan_ran ran = pelzurivan_run(3, PADDED, sizeof PADDED, 7);
    expect(ran.number == 15 && ran.bit == 0 && ran.index == 1, "run: 15, record 1");
    expect(pelzurivan_run(3, PADDED, sizeof PADDED, 8).number == 11, "run: 11 comes before 15");
    pelzurivan_rebuilt rebuilt = pelzurivan_rebuild(3, PADDED, sizeof PADDED, table, 1);
    expect(rebuilt.number == 15 && rebuilt.index == 1 && table[0] == PRESET, "rebuild: 15, record 1");
    pelzurivan_checked checked = pelzurivan_check(3, AND_OF_3, 1, PADDED, sizeof PADDED);
    expect(checked.number == 15 && checked.place == 1, "check: 15, record 1");
}

static pelzurivan_shorter_answer shorter_for_and(const uint8_t *first, size_t first_length, const uint8_t *second,
                                                 size_t second_length) {
    return pelzurivan_shorter(3, AND_OF_3, 1, first, first_length, second, second_length);
}

/* The AND of three in one cell of three, in two of two, and padded. */
static void the_shorter_sheet(void) {
    static const uint8_t one_cell[PELZURIVAN_RECORD] = {3, 0, 1, 2, 255, 255, 255, 0, 0x80};
    pelzurivan_shorter_answer a = shorter_for_and(EXAMPLE_2, sizeof EXAMPLE_2, one_cell, sizeof one_cell);
    expect(a.which == 2 && a.length == sizeof one_cell && a.number == 0, "shorter: the second has fewer records");
    a = shorter_for_and(EXAMPLE_2, sizeof EXAMPLE_2, EXAMPLE_2, sizeof EXAMPLE_2);
    expect(a.which == 1 && a.length == sizeof EXAMPLE_2 && a.number == 0, "shorter: the first on a tie");
    a = shorter_for_and(one_cell, 1, EXAMPLE_2, sizeof EXAMPLE_2);
    expect(a.which == 2 && a.length == sizeof EXAMPLE_2 && a.number == 0, "shorter: only the second is accepted");
    a = shorter_for_and(PADDED, sizeof PADDED, EXAMPLE_2, PELZURIVAN_RECORD);
    expect(a.which == 0 && a.length == 0 && a.number == 15, "shorter: neither, and the first's refusal");
}

/* The sheet of example 2, for a desk. */
static void for_desk(uint8_t desk, uint8_t sheet[sizeof EXAMPLE_2]) {
    memcpy(sheet, EXAMPLE_2, sizeof EXAMPLE_2);
    sheet[7] = sheet[PELZURIVAN_RECORD + 7] = desk;
}

/* Desk 2 is loaded, cut before its last store, and finished; then desks 1 and 3 store by store in turns. */
static void four_desks(void) {
    enum { STORES = 257 };
    uint8_t card[PELZURIVAN_CARD], other[PELZURIVAN_CARD], one[sizeof EXAMPLE_2], two[sizeof EXAMPLE_2];
    memset(card, PRESET, sizeof card);
    for_desk(2, two);
    pelzurivan_loaded loaded = pelzurivan_load_cut(card, sizeof card, 2, 3, two, sizeof two, STORES - 1);
    expect(loaded.number == 0 && pelzurivan_run_desk(card, sizeof card, 2, 7).number == 18, "a cut load: 18");
    loaded = pelzurivan_load(card, sizeof card, 2, 3, two, sizeof two);
    expect(loaded.number == 0 && loaded.index == 0, "load: done");
    for (uint64_t x = 0; x < 8; x++) {
        pelzurivan_ran ran = pelzurivan_run_desk(card, sizeof card, 2, x);
        expect(ran.number == 0 && ran.bit == (x == 7) && ran.index == 0, "run a desk: the AND of three");
    }
    expect(all_are(PRESET, card, 256) && all_are(PRESET, card + 512, 512), "load: the other desks' bytes stay");

    memcpy(other, card, sizeof card);
    for_desk(1, one);
    for_desk(3, two);
    for (uint64_t i = 0; i <= STORES; i++) {
        pelzurivan_load_store(card, sizeof card, 1, 3, one, sizeof one, i);
        pelzurivan_load_store(card, sizeof card, 3, 3, two, sizeof two, i);
    }
    pelzurivan_load(other, sizeof other, 3, 3, two, sizeof two);
    pelzurivan_load(other, sizeof other, 1, 3, one, sizeof one);
    expect(memcmp(card, other, sizeof card) == 0, "two loads at once: the card of one after the other");

    expect(pelzurivan_load(card, sizeof card, 1, 3, two, sizeof two).number == 19, "load: 19, another desk's sheet");
    expect(pelzurivan_run_desk(card, sizeof card, 5, 0).number == 19, "run a desk: 19");
    expect(pelzurivan_run_desk(card, sizeof card - 1, 5, 0).number == 20, "run a desk: 20 comes before 19");
    two[PELZURIVAN_RECORD + 7] = 0;
    loaded = pelzurivan_load(card, sizeof card, 3, 3, two, sizeof two);
    expect(loaded.number == 10 && loaded.index == 1, "load: 10, record 1");
    expect(memcmp(card, other, sizeof card) == 0, "load: a refusal leaves the card");
}

/* The sheet of example 2 prints (c&(a&b)), which reads as its table. */
static void formulas_both_ways(void) {
    static const char text[] = "(c&(a&b))";
    const size_t length = sizeof text - 1;
    uint8_t room[PELZURIVAN_TEXT + 1], table[] = {PRESET};
    memset(room, PRESET, sizeof room);
    pelzurivan_formula_written written = pelzurivan_write_formula(3, EXAMPLE_2, sizeof EXAMPLE_2, room, sizeof room);
    expect(written.number == 0 && written.length == length && written.place == 0, "write: done, nine bytes");
    expect(memcmp(room, text, length) == 0, "write: the formula of example 2");
    expect(all_are(PRESET, room + length, sizeof room - length), "write: the bytes past the text stay");
    pelzurivan_formula_read read = pelzurivan_read_formula(3, room, written.length, table, sizeof table);
    expect(read.number == 0 && table[0] == AND_OF_3[0], "read: the table back");
    read = pelzurivan_read_formula(2, room, written.length, table, sizeof table);
    expect(read.number == 16 && read.place == 1, "read: 16 at a letter beyond n");
    written = pelzurivan_write_formula(3, EXAMPLE_2, sizeof EXAMPLE_2, room, PELZURIVAN_TEXT - 1);
    expect(written.number == 6 && written.length == 0, "write: 6, a short room");
    written = pelzurivan_write_formula(3, PADDED, sizeof PADDED, room, sizeof room);
    expect(written.number == 16 && written.place == 0 && written.length == 0, "write: 16, a cell that nobody reads");
}

void reading(void) {
    check_a_suppliers_sheet();
    settle_and_slack();
    a_cell_that_nobody_reads();
    the_shorter_sheet();
    four_desks();
    formulas_both_ways();
}
