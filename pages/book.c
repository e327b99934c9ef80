/* The book of three-input cells as a page to hang up: for each wiring board a map of its least table, and every table
 * that can be wired on it. Which those are the library says; nothing is reckoned here. */
#include <stdint.h>
#include <stdio.h>

#include "pelzurivan.h"

enum { TABLES = 256, A_ROW = 16, ROWS = 3 };

static int members_of(uint8_t board, uint8_t *members) {
    int count = 0;
    for (int table = 0; table < TABLES; table++)
        if (pelzurivan_look_up((uint8_t)table) == board) members[count++] = (uint8_t)table;
    return count;
}

/* Row 0 says a and b over each column, row 1 is where c is 0, row 2 where it is 1. */
static void map_row(uint8_t table, int row) {
    static const int across[] = {0, 1, 3, 2};
    fputs(row == 0 ? "  ab " : row == 1 ? "c=0  " : "c=1  ", stdout);
    for (int i = 0; i < 4; i++) {
        int ab = across[i];
        if (row == 0)
            printf(" %d%d", ab & 1, ab >> 1);
        else
            printf("  %c", table >> (ab + 4 * (row - 1)) & 1 ? '#' : '.');
    }
}

static void print_board(uint8_t board) {
    uint8_t members[TABLES];
    int count = members_of(board, members);
    printf("\nBoard %02X: %d table%s\n", board, count, count == 1 ? "" : "s");
    for (int row = 0; row < ROWS; row++) {
        map_row(board, row);
        for (int i = row * A_ROW; i < count && (i < (row + 1) * A_ROW || row + 1 == ROWS); i++)
            printf("%s%02X", i == row * A_ROW ? "    " : " ", members[i]);
        putchar('\n');
    }
}

int main(void) {
    int boards = 0;
    for (int table = 0; table < TABLES; table++) boards += pelzurivan_look_up((uint8_t)table) == table;
    printf("The book of three-input cells: %d tables on %d wiring boards\n", TABLES, boards);
    puts("A table's bit x is its value at x = a + 2b + 4c. Tables on one board differ only by swapped inputs, flipped");
    puts("inputs or a flipped output; the board has the number of the least, whose map stands beside (# is 1).");
    for (int table = 0; table < TABLES; table++)
        if (pelzurivan_look_up((uint8_t)table) == table) print_board((uint8_t)table);
    return fflush(stdout) == 0 && !ferror(stdout) ? 0 : 1;
}
