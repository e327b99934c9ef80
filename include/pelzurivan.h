/* The calls of the Pelzurivan bench, for C. Link libpelzurivan.a (rt lib in crates/pelzurivan), on x86-64.
 *
 * Anyone may make any call with any numbers and any bytes; each ends with an answer or one refusal. A slice is a
 * pointer and then a length. C must see to two things: every pointer is valid for its length and not null, not even
 * for an empty slice; and an area that is lent for writing overlaps no other area of the call. The calls see to
 * everything else.
 *
 * A gate has n inputs, 1 to 16. Its table has bit x mod 8 of byte x div 8 for each assignment x: 1 byte up to n = 3,
 * else 2^(n-3) bytes. An input counts if flipping it alone changes the table's bit at some assignment. A cell has at
 * most k inputs, 2 to 6. A sheet is records of 16 bytes, the last is the output; byte 7 of each is the sheet's desk,
 * 0 for bench use or 1 to 4. A call that reads a sheet takes one of any desk. A card has four desks of 256 bytes: 15
 * record places, then the status record, which is an open mark, n, the count of cells and 13 zero bytes.
 *
 * That is the first edition of the sheet. In the second k goes up to 8, and a record is 48 bytes: byte 0 how many
 * signals the cell reads, bytes 1 to 8 the signals, increasing, then 255 for each unused place, byte 9 the desk, bytes
 * 10 to 15 zero, bytes 16 to 47 the cell's table. The calls whose names end in _told are told the edition, 1 or 2;
 * told the first, each answers as the call without that ending (make as make_for_desk). All others know only the first.
 *
 * number is 0 where the call is done, else the first of these that holds:
 *    1  n outside 1 to 16
 *    2  an edition other than 1 or 2; k outside 2 to 6, in the second edition 2 to 8
 *    3  table, read or to be rebuilt, has a wrong length
 *    4  n below 3 and a spare bit set
 *    5  own or shared names a position from n up; they overlap; own below 2 (with r first cells, own not above r, or r
 *       outside 1 to 3); both together above k; a desk above 4
 *    6  room for H shorter than its table, room for the sheet under 240 bytes (of the second edition 720), a work area
 *       under 16,384 bytes, or room for a text under 1,024 bytes
 *    7  at most k inputs count, so nothing to split
 *    8  the split isn't possible; none is; a table in the chain has none
 *    9  sheet empty, not a multiple of 16, or over 240 bytes; in the second edition of 48, or over 720 bytes
 *   10  a record breaks the record rules of its edition, or its desk isn't that of the first record; index is the first
 *       such
 *   11  assignment 2^n or more
 *   12  the sheet doesn't give the table's bit everywhere; place is the least assignment at which it doesn't
 *   13  the delay or a time of the n inputs is not a number, outside 0 to 4,096 or crossed, or missing for an input
 *       that some cell reads
 *   14  the delay or a time of the n inputs isn't a whole number of sixteenths, or the deadline is outside
 *       -1,048,576 to 1,048,576
 *   15  some record but the last is read by no later record; index (or place) is the first such
 *   16  text is no formula of n inputs; place is the first byte at which it can't be continued (a letter beyond n and
 *       a 33rd level are such bytes), its length if it ends too soon or is over 1,024 bytes; or no formula is printed
 *       for the sheet: place is 0
 *   17  the chain with several first cells has a split at every step, but would take more than 15 records
 *   18  the desk is closed: its mark isn't 1
 *   19  the desk is outside 1 to 4, or at a load the sheet, of 16 bytes or more, has another desk in its byte 7
 *   20  the card isn't 1,024 bytes
 *   21  no swapped inputs, flipped inputs or flipped output turn the first table into the second
 * For cards the order is its own: 20, 19, 18, then 1, 9, 10, 15 and 11.
 * After a refusal every other value is 0 (but for what 8 of a named split, 10, 12, 15 and 16 name), and no result byte
 * is touched.
 */
#ifndef PELZURIVAN_H
#define PELZURIVAN_H

#include <stddef.h>
#include <stdint.h>

#ifdef __cplusplus
extern "C" {
#endif

enum { PELZURIVAN_RECORD = 16, PELZURIVAN_SHEET = 240, PELZURIVAN_WORK = 16384, PELZURIVAN_TEXT = 1024,
       PELZURIVAN_CARD = 1024, PELZURIVAN_RECORD_2 = 48, PELZURIVAN_SHEET_2 = 720 };

typedef struct { uint64_t number, d, b, columns; } pelzurivan_tried;
typedef struct { uint64_t number, own, shared; } pelzurivan_sought;
typedef struct { uint64_t number, first, second, third, b, columns; } pelzurivan_tried_several;
typedef struct { uint64_t number, r, own, shared; } pelzurivan_sought_several;
typedef struct { uint64_t number, count; } pelzurivan_made;
typedef struct { uint64_t number, bit, index; } pelzurivan_ran;
typedef struct { uint64_t number, index; } pelzurivan_rebuilt;
typedef struct { uint64_t number, place; } pelzurivan_checked;
typedef struct { uint64_t number, place; } pelzurivan_formula_read;
typedef struct { uint64_t number, place, length; } pelzurivan_formula_written;

/* The inputs' times, in nanoseconds. kind 1 is one arrival (first), 2 an earliest (first) and a latest (second), any
 * other is not read. Only those of the n inputs are looked at, and of those only what their kind says. */
typedef struct { uint8_t kind[16]; double first[16], second[16]; } pelzurivan_times;
typedef struct { uint64_t number, index; double earliest, latest; } pelzurivan_settled;
typedef struct { uint64_t number, index; int64_t slack; } pelzurivan_slack_answer;
typedef struct { uint64_t which, length, number; } pelzurivan_shorter_answer;
typedef struct { uint64_t number, index; } pelzurivan_loaded;
typedef struct { uint64_t number, flip, mask, p0, p1, p2; } pelzurivan_turned;
typedef struct { uint64_t number, d0, d1, d2, d3, b, columns; } pelzurivan_tried_told;
typedef struct { uint64_t number, index, count; } pelzurivan_rewritten;
typedef struct { uint64_t number, least; } pelzurivan_bounded;

/* Tries a named split: D in d, H in the first bytes of room, the bytes after its table stay. 1 to 6, 8: b is then the
 * least assignment of shared (its members in increasing position, lowest as bit 0) with more than two different
 * columns, and columns is how many it has. */
pelzurivan_tried pelzurivan_try(uint64_t n, uint64_t k, uint64_t own, uint64_t shared, const uint8_t *table,
                                size_t table_length, uint8_t *room, size_t room_length);

/* Finds the best split of the inputs that count: its masks, in the gate's own positions. After 0 and 8 the work area
 * is zeros, else as it was. 1 to 4, 6, 7, 8. */
pelzurivan_sought pelzurivan_find(uint64_t n, uint64_t k, const uint8_t *table, size_t table_length, uint8_t *work,
                                  size_t work_length);

/* Makes a sheet over the inputs that count (of a constant one cell that reads signal 0): count records, the bytes
 * after them stay; the work area as in find. The desk is 0. 1 to 4, 6, 8. */
pelzurivan_made pelzurivan_make(uint64_t n, uint64_t k, const uint8_t *table, size_t table_length, uint8_t *sheet,
                                size_t sheet_length, uint8_t *work, size_t work_length);

/* The same for a desk. 1 to 6, 8. */
pelzurivan_made pelzurivan_make_for_desk(uint64_t n, uint64_t k, uint64_t desk, const uint8_t *table,
                                         size_t table_length, uint8_t *sheet, size_t sheet_length, uint8_t *work,
                                         size_t work_length);

/* Runs a sheet at the assignment x: the bit. 1, 9, 10, 11, 15. */
pelzurivan_ran pelzurivan_run(uint64_t n, const uint8_t *sheet, size_t sheet_length, uint64_t x);

/* Rebuilds a gate's table from a sheet, written whole, spare bits zero. 1, 3, 9, 10, 15. */
pelzurivan_rebuilt pelzurivan_rebuild(uint64_t n, const uint8_t *sheet, size_t sheet_length, uint8_t *table,
                                      size_t table_length);

/* Checks anyone's sheet against a gate's table: place is a record's index (10, 15) or the least assignment at which
 * the two differ (12). 1, 3, 4, 9, 10, 12, 15. */
pelzurivan_checked pelzurivan_check(uint64_t n, const uint8_t *table, size_t table_length, const uint8_t *sheet,
                                    size_t sheet_length);

/* When the output settles: its earliest and latest time, where each cell takes the same delay. 1, 9, 10, 13. */
pelzurivan_settled pelzurivan_settle(uint64_t n, const uint8_t *sheet, size_t sheet_length, double delay,
                                     pelzurivan_times times);

/* The slack: a deadline in sixteenths of a nanosecond less the output's latest time; below zero is an answer.
 * 1, 9, 10, 13, 14. */
pelzurivan_slack_answer pelzurivan_slack(uint64_t n, const uint8_t *sheet, size_t sheet_length, double delay,
                                         pelzurivan_times times, int64_t deadline);

/* The shorter of two sheets for one table: of those that check accepts the one with fewer records, the first on a tie.
 * which is 1 or 2, and the sheet is the first length bytes of that one, where it lies; both are 0 if neither is
 * accepted, and number is then the refusal of the first: 1, 3, 4, 9, 10, 12, 15. The two sheets may overlap. */
pelzurivan_shorter_answer pelzurivan_shorter(uint64_t n, const uint8_t *table, size_t table_length,
                                             const uint8_t *first, size_t first_length, const uint8_t *second,
                                             size_t second_length);

/* Reads a formula of n inputs, letters a to p, into a table, written whole, spare bits zero. A sum is terms joined by
 * |, a term parts by ^, a part factors by &; a factor is a letter, 0, 1, ! before a factor, or a sum in parentheses.
 * 1, 3, 16. */
pelzurivan_formula_read pelzurivan_read_formula(uint64_t n, const uint8_t *text, size_t text_length, uint8_t *table,
                                                size_t table_length);

/* Writes a sheet as a formula: length bytes of room, the bytes after them stay. Printed is every sheet whose records
 * read one or two signals, whose two-signal tables depend on both, and whose records but the last are each read once;
 * so is every sheet made with k = 2. place is the index of a bad record (10). 1, 6, 9, 10, 16. */
pelzurivan_formula_written pelzurivan_write_formula(uint64_t n, const uint8_t *sheet, size_t sheet_length,
                                                    uint8_t *room, size_t room_length);

/* Loads a sheet onto a desk, 1 to 4, of a card, in 257 stores of a byte: mark to 0; the 240 bytes of the record places
 * upward, unused places zero; the rest of the status upward; mark to 1. Each store changes the desk's own bytes alone.
 * A record of another desk is bad. 20, 19, 1, 9, 10, 15. */
pelzurivan_loaded pelzurivan_load(uint8_t *card, size_t card_length, uint64_t desk, uint64_t n, const uint8_t *sheet,
                                  size_t sheet_length);

/* A load that is cut after at most so many stores. The answer is the load's own, wherever it is cut. */
pelzurivan_loaded pelzurivan_load_cut(uint8_t *card, size_t card_length, uint64_t desk, uint64_t n,
                                      const uint8_t *sheet, size_t sheet_length, uint64_t stores);

/* One store of a load, 0 to 256 (more is none), and no other. The answer is the load's own. */
pelzurivan_loaded pelzurivan_load_store(uint8_t *card, size_t card_length, uint64_t desk, uint64_t n,
                                        const uint8_t *sheet, size_t sheet_length, uint64_t which);

/* Runs a desk at the assignment x: the bit. Beyond the card's length only the desk's own bytes are looked at, and of
 * these neither unused places nor the 13 last. index is counted within the desk. 20, 19, 18, 1, 9, 10, 15, 11. */
pelzurivan_ran pelzurivan_run_desk(const uint8_t *card, size_t card_length, uint64_t desk, uint64_t x);

/* Turns one three-input table into another. The second at x is the first at y, flipped if flip is 1, where bit j of y
 * is bit pj of x, flipped if bit j of mask is set; it is the first such way by flip, then mask, then p0 p1 p2 read as
 * one number. 21. */
pelzurivan_turned pelzurivan_turn(uint8_t first, uint8_t second);

/* Looks a three-input table up in the book: the least table that it can be turned into. */
uint8_t pelzurivan_look_up(uint8_t table);

/* Tries a named split with r first cells, 1 to 3: for each assignment of shared the columns are numbered in order of
 * first appearance over own, and first cell i gives bit i of the number. Their tables come back in first, second and
 * third (0 from r up), H, whose last r inputs are their outputs, in the first bytes of room. 1 to 6, 8: b is then the
 * least assignment of shared with more than 2^r different columns. With r = 1 it is pelzurivan_try. */
pelzurivan_tried_several pelzurivan_try_several(uint64_t n, uint64_t k, uint64_t r, uint64_t own, uint64_t shared,
                                                const uint8_t *table, size_t table_length, uint8_t *room,
                                                size_t room_length);

/* Finds the best split of the inputs that count with 1, 2 or 3 first cells: the largest own less r, then the least r,
 * then as in find. The work area as in find. 1 to 4, 6, 7, 8. */
pelzurivan_sought_several pelzurivan_find_several(uint64_t n, uint64_t k, const uint8_t *table, size_t table_length,
                                                  uint8_t *work, size_t work_length);

/* pelzurivan_try, told the edition: D has up to 256 bits, the first 64 in d0, the last in d3; told the first edition,
 * d1 to d3 are 0. 1 to 6, 8. */
pelzurivan_tried_told pelzurivan_try_told(uint64_t edition, uint64_t n, uint64_t k, uint64_t own, uint64_t shared,
                                          const uint8_t *table, size_t table_length, uint8_t *room, size_t room_length);

/* pelzurivan_find, told the edition. 1 to 4, 6, 7, 8. */
pelzurivan_sought pelzurivan_find_told(uint64_t edition, uint64_t n, uint64_t k, const uint8_t *table,
                                       size_t table_length, uint8_t *work, size_t work_length);

/* pelzurivan_make_for_desk, told the edition that the sheet is to be in. 1 to 6, 8. */
pelzurivan_made pelzurivan_make_told(uint64_t edition, uint64_t n, uint64_t k, uint64_t desk, const uint8_t *table,
                                     size_t table_length, uint8_t *sheet, size_t sheet_length, uint8_t *work,
                                     size_t work_length);

/* pelzurivan_run, told the edition that the sheet is in. 1, 2, 9, 10, 11, 15. */
pelzurivan_ran pelzurivan_run_told(uint64_t edition, uint64_t n, const uint8_t *sheet, size_t sheet_length, uint64_t x);

/* pelzurivan_rebuild, told the edition that the sheet is in. 1, 2, 3, 9, 10, 15. */
pelzurivan_rebuilt pelzurivan_rebuild_told(uint64_t edition, uint64_t n, const uint8_t *sheet, size_t sheet_length,
                                           uint8_t *table, size_t table_length);

/* pelzurivan_check, told the edition that the sheet is in. 1 to 4, 9, 10, 12, 15. */
pelzurivan_checked pelzurivan_check_told(uint64_t edition, uint64_t n, const uint8_t *table, size_t table_length,
                                         const uint8_t *sheet, size_t sheet_length);

/* Rewrites a sheet of the first edition in the second, each record with its desk: count records of 48 bytes in the
 * first bytes of room, which is 720 bytes or more; the bytes after them stay. The new sheet rebuilds the same table.
 * 1, 6, 9, 10, 15. */
pelzurivan_rewritten pelzurivan_rewrite(uint64_t n, const uint8_t *sheet, size_t sheet_length, uint8_t *room,
                                        size_t room_length);

/* As pelzurivan_make_for_desk; but where that gives 8, with several first cells: at each step the best split as
 * pelzurivan_find_several has it, and its r first cells as the next r records, the first cell's first. After 0, 8 and
 * 17 the work area is zeros, else as it was. 1 to 6, 8, 17. */
pelzurivan_made pelzurivan_make_any(uint64_t n, uint64_t k, uint64_t desk, const uint8_t *table, size_t table_length,
                                    uint8_t *sheet, size_t sheet_length, uint8_t *work, size_t work_length);

/* A lower bound, told the edition: no network of cells of at most k inputs that carries the table, wired in any way,
 * has fewer than least. It is 1 if at most k inputs count; 2 if more do and two cells carry the table; else the greater
 * of 3 and the least m for which m cells can read the inputs that count, which are at most m(k - 1) + 1. With k = 2 a
 * table that is no tree of two-input nodes has as many as inputs count. The work area as in find. 1 to 4, 6. */
pelzurivan_bounded pelzurivan_bound(uint64_t edition, uint64_t n, uint64_t k, const uint8_t *table,
                                    size_t table_length, uint8_t *work, size_t work_length);

#ifdef __cplusplus
}
#endif

#endif
