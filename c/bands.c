/* Tests of haircut bands from C: the limits and one past them, what each refusal shows, and worths worked out by hand. Exit status 1 where
 * anything is not as expected. */
#include "mixegorta.h"

#include <inttypes.h>
#include <stdio.h>
#include <string.h>

#define TOP MIXEGORTA_MAX_VALUE

enum { ROOM = 64 };

static struct table {
    uint64_t first_rows[ROOM], last_rows[ROOM], lowest[ROOM], highest[ROOM], haircuts[ROOM];
    size_t count;
} table;

static unsigned checks, failures;

static void start(void) { memset(&table, 0, sizeof table); }

static void add(uint64_t first_row, uint64_t last_row, uint64_t lowest, uint64_t highest, uint64_t haircut) {
    size_t k = table.count++;
    table.first_rows[k] = first_row;
    table.last_rows[k] = last_row;
    table.lowest[k] = lowest;
    table.highest[k] = highest;
    table.haircuts[k] = haircut;
}

/* One band for each of the rows 1 to count - 1, and one for all later ones. */
static void add_rows(uint64_t count) {
    for (uint64_t row = 1; row < count; row++) add(row, row, 0, TOP, 100 * row);
    add(count, MIXEGORTA_MAX_STEPS, 0, TOP, 0);
}

#define LISTS                                                                                                                     \
    table.first_rows, table.count, table.last_rows, table.count, table.lowest, table.count, table.highest, table.count,          \
        table.haircuts, table.count

static void same(int line, struct mixegorta_verdict v, uint64_t number, uint64_t row, uint64_t price, uint64_t place) {
    checks++;
    if (v.number == number && v.row == row && v.price == price && v.place == place) return;
    failures++;
    printf("line %d: %" PRIu64 " %" PRIu64 " %" PRIu64 " %" PRIu64 "\n", line, v.number, v.row, v.price, v.place);
}

#define VERDICT(number, row, price, place) same(__LINE__, mixegorta_check_bands(LISTS), number, row, price, place)

static void worth(int line, uint64_t row, uint64_t price, uint64_t number, uint64_t wanted) {
    struct mixegorta_worth found = mixegorta_lending_worth(LISTS, row, price);
    same(line, found.verdict, number, 0, 0, 0);
    checks++;
    if (found.worth == wanted) return;
    failures++;
    printf("line %d: worth %" PRIu64 "\n", line, found.worth);
}

#define WORTH(row, price, number, wanted) worth(__LINE__, row, price, number, wanted)

/* One band over everything, with one of its numbers changed. */
static void one_band(void) {
    start();
    VERDICT(17, 1, 0, 0);
    add(1, 60, 0, TOP, 250);
    VERDICT(0, 0, 0, 0);
    struct { uint64_t *number, bad[6]; } each[] = {
        {table.first_rows, {0, 61, 256 + 1, (UINT64_C(1) << 32) + 1, UINT64_MAX, 65536 + 1}},
        {table.last_rows, {0, 61, 256 + 60, (UINT64_C(1) << 32) + 60, UINT64_MAX, 65536 + 60}},
        {table.lowest, {TOP + 1, (UINT64_C(1) << 33), UINT64_MAX, (UINT64_C(1) << 40), TOP + 256, 2 * TOP}},
        {table.highest, {TOP + 1, TOP + 256, TOP + (UINT64_C(1) << 32), UINT64_MAX, 2 * TOP, (UINT64_C(1) << 63)}},
        {table.haircuts, {10001, (UINT64_C(1) << 32) + 250, 65536 + 250, UINT64_MAX, 20000, 10256}},
    };
    for (size_t k = 0; k < 5; k++) {
        uint64_t kept = *each[k].number;
        for (size_t i = 0; i < 6; i++) {
            *each[k].number = each[k].bad[i];
            VERDICT(16, 0, 0, 1);
        }
        *each[k].number = kept;
    }
    table.first_rows[0] = 2;
    VERDICT(17, 1, 0, 0);
    table.first_rows[0] = 1;
    table.last_rows[0] = 59;
    VERDICT(17, 60, 0, 0);
    table.last_rows[0] = 60;
    table.lowest[0] = 1;
    VERDICT(17, 1, 0, 0);
    table.lowest[0] = 0;
    table.highest[0] = TOP - 1;
    VERDICT(17, 1, TOP, 0);
}

/* Ends belong to their band, and the earlier pair decides. */
static void pairs(void) {
    start(), add(1, 60, 0, 99, 0), add(1, 60, 100, TOP, 0);
    VERDICT(0, 0, 0, 0);
    table.highest[0] = 100;
    VERDICT(18, 1, 100, 0);
    table.highest[0] = 98;
    VERDICT(17, 1, 99, 0);
    start(), add(1, 1, 0, TOP, 0), add(1, 1, 7, 7, 0), add(3, 60, 0, TOP, 0);
    VERDICT(18, 1, 7, 0);
    start(), add(1, 1, 1, TOP, 0), add(2, 60, 0, TOP, 0), add(2, 60, 0, TOP, 0);
    VERDICT(17, 1, 0, 0);
    start(), add(1, 59, 0, TOP, 0), add(60, 60, 0, TOP - 1, 0);
    VERDICT(17, 60, TOP, 0);
}

/* Bad bands come before pairs, the first of them first; 41 is for a table whose only fault is its length. */
static void places(void) {
    start(), add(1, 1, 0, 5, 0), add(1, 60, 9, 8, 0), add(0, 60, 0, TOP, 0);
    VERDICT(16, 0, 0, 2);
    start(), add_rows(40);
    VERDICT(0, 0, 0, 0);
    start(), add_rows(41);
    VERDICT(16, 0, 0, 41);
    add(1, 61, 0, TOP, 0);
    VERDICT(16, 0, 0, 42);
    table.haircuts[39] = 10001;
    VERDICT(16, 0, 0, 40);
}

static void lengths(void) {
    start(), add(1, 60, 0, TOP, 250);
    for (size_t k = 0; k < 5; k++) {
        size_t n[5] = {1, 1, 1, 1, 1};
        n[k] = k % 2 == 0 ? 2 : 0;
        same(__LINE__, mixegorta_check_bands(table.first_rows, n[0], table.last_rows, n[1], table.lowest, n[2], table.highest, n[3],
                                             table.haircuts, n[4]), 6, 0, 0, 0);
        struct mixegorta_worth found = mixegorta_lending_worth(table.first_rows, n[0], table.last_rows, n[1], table.lowest, n[2],
                                                               table.highest, n[3], table.haircuts, n[4], 1, TOP + 1);
        same(__LINE__, found.verdict, 6, 0, 0, 0);
    }
    same(__LINE__, mixegorta_check_bands(NULL, 0, NULL, 0, NULL, 0, NULL, 0, NULL, 0), 17, 1, 0, 0);
}

static void worths(void) {
    start(), add(1, 20, 0, MIXEGORTA_ONE, 250), add(1, 20, MIXEGORTA_ONE + 1, TOP, 10000), add(21, 60, 0, TOP, 0);
    WORTH(20, MIXEGORTA_ONE, 0, 975000000);
    WORTH(20, MIXEGORTA_ONE + 1, 0, 0);
    WORTH(1, 1, 0, 0);
    WORTH(1, 41, 0, 39);
    WORTH(21, MIXEGORTA_ONE + 1, 0, MIXEGORTA_ONE + 1);
    WORTH(60, TOP, 0, TOP);
    WORTH(0, 0, 6, 0);
    WORTH(61, TOP + 1, 6, 0);
    WORTH(256 + 1, 0, 6, 0);
    WORTH((UINT64_C(1) << 32) + 1, 0, 6, 0);
    WORTH(60, TOP + 1, 12, 0);
    WORTH(60, (UINT64_C(1) << 32) + TOP, 12, 0);
    table.haircuts[1] = 10001;
    struct mixegorta_worth found = mixegorta_lending_worth(LISTS, 60, 0);
    same(__LINE__, found.verdict, 16, 0, 0, 2);
    WORTH(61, 0, 6, 0);
    WORTH(60, TOP + 1, 12, 0);
    table.haircuts[1] = 0, table.lowest[1]++;
    found = mixegorta_lending_worth(LISTS, 60, 0);
    same(__LINE__, found.verdict, 17, 1, MIXEGORTA_ONE + 1, 0);
    table.lowest[1] -= 2;
    found = mixegorta_lending_worth(LISTS, 60, 0);
    same(__LINE__, found.verdict, 18, 1, MIXEGORTA_ONE, 0);
}

int main(void) {
    one_band();
    pairs();
    places();
    lengths();
    worths();
    printf("%u checks, %u failures\n", checks, failures);
    return failures == 0 ? 0 : 1;
}
