/* Prices on a rate tree and a spread tree together (document 02, request (xiii)) through the C header: figures by hand, the order of the causes, the
 * limits and one past them, and a tree of ones on either side. Exit status 1 where a check fails. */
#include "mixegorta.h"

#include <inttypes.h>
#include <stdio.h>
#include <string.h>

#define ONE MIXEGORTA_ONE
#define TOP MIXEGORTA_MAX_NODE_DISCOUNT

enum { STEPS = MIXEGORTA_MAX_PAIR_STEPS, ROOM = MIXEGORTA_MAX_DISCOUNTS };

typedef struct mixegorta_price price;

static unsigned checks, failures;

/* What a call is handed. */
static struct tree {
    size_t steps;
    uint64_t reversion, discounts[ROOM];
    size_t count;
} rates, spreads;

static uint64_t flows[MIXEGORTA_MAX_STEPS + 1], side, strike;
static size_t flows_count, dates_count;
static uint8_t dates[MIXEGORTA_MAX_STEPS + 1];

static price bond(void) {
    return mixegorta_pair_bond_price(rates.steps, rates.reversion, rates.discounts, rates.count, spreads.steps, spreads.reversion,
                                     spreads.discounts, spreads.count, flows, flows_count);
}

static price option(void) {
    return mixegorta_pair_dated_option_price(rates.steps, rates.reversion, rates.discounts, rates.count, spreads.steps, spreads.reversion,
                                             spreads.discounts, spreads.count, flows, flows_count, side, dates, dates_count, strike);
}

static price bond_alone(const struct tree *tree) {
    return mixegorta_bond_price(tree->steps, tree->reversion, tree->discounts, tree->count, flows, flows_count);
}

static price option_alone(const struct tree *tree) {
    return mixegorta_dated_option_price(tree->steps, tree->reversion, tree->discounts, tree->count, flows, flows_count, side, dates,
                                        dates_count, strike);
}

static void same(int line, price found, uint64_t number, uint64_t value, uint64_t bound) {
    checks++;
    if (found.number == number && found.value == value && found.bound == bound) return;
    failures++;
    printf("pair.c:%d: %" PRIu64 " %" PRIu64 " %" PRIu64 "\n", line, found.number, found.value, found.bound);
}

#define SAME(found, number, value, bound) same(__LINE__, found, number, value, bound)
#define ALIKE(found, other) SAME(found, (other).number, (other).value, (other).bound)
#define REFUSED(number) (SAME(bond(), number, 0, 0), SAME(option(), number, 0, 0))

static void fill(struct tree *tree, size_t steps, uint64_t reversion, uint64_t discount) {
    tree->steps = steps;
    tree->reversion = reversion;
    tree->count = ROOM;
    for (size_t k = 0; k < ROOM; k++) tree->discounts[k] = discount;
}

/* Two trees of so many steps with one discount each, a flow of one on the last row, and a call at half of one on row 0. */
static void start(size_t steps, uint64_t rate, uint64_t spread) {
    fill(&rates, steps, 0, rate);
    fill(&spreads, steps, 0, spread);
    memset(flows, 0, sizeof flows);
    flows_count = steps;
    if (0 < steps && steps <= MIXEGORTA_MAX_STEPS) flows[steps - 1] = ONE;
    side = 1, strike = ONE / 2, dates[0] = 0, dates_count = 1;
}

static void by_hand(void) {
    start(1, TOP, TOP);
    SAME(bond(), 0, 1210000000, 2);
    SAME(option(), 0, 710000000, 2);
    side = 2, strike = 1300000000;
    SAME(option(), 0, 90000000, 2);
    start(1, 30000, 30000);
    REFUSED(9);
    start(1, 31622, 31622);
    REFUSED(9);
    start(1, 31623, 31623);
    SAME(bond(), 0, 1, 2);
    start(3, TOP, TOP);
    SAME(bond(), 0, 1771561000, 9);
}

/* Each cause beside causes that come after it. */
static void order(void) {
    start(61, 0, 0), rates.reversion = 6001;
    REFUSED(3);
    start(0, 0, 0);
    REFUSED(3);
    start(60, 0, 0), rates.steps = 0;
    REFUSED(3);
    start(60, 0, 0), spreads.steps = 61;
    REFUSED(3);
    start(21, 0, 0), rates.reversion = 7000;
    REFUSED(19);
    start(20, 0, 0), spreads.steps = 19, spreads.reversion = 6001;
    REFUSED(19);
    start(20, 0, 0), rates.steps = 19;
    REFUSED(19);
    start(20, 0, 0), spreads.reversion = 6001, flows_count = 3;
    REFUSED(4);
    start(20, 0, 0), rates.reversion = 6001, spreads.count = 3;
    REFUSED(4);
    start(20, 0, 0), spreads.count = 399;
    REFUSED(6);
    start(20, 0, 0), rates.count = 399;
    REFUSED(6);
    start(20, 30000, 30000), flows_count = 19;
    REFUSED(6);
    start(20, ONE, 0), flows[0] = 2 * ONE + 1;
    REFUSED(9);
    start(20, TOP + 1, ONE), flows[0] = 2 * ONE + 1;
    REFUSED(9);
    start(20, 30000, 30000), flows[0] = 2 * ONE + 1, side = 3;
    REFUSED(9);
    start(20, ONE, ONE), flows[0] = 2 * ONE + 1, side = 3;
    REFUSED(10);
    start(20, TOP, TOP), side = 3, dates_count = 0;
    SAME(option(), 11, 0, 0);
    start(20, TOP, TOP), strike = 4 * ONE + 1, dates_count = 0;
    SAME(option(), 11, 0, 0);
    start(20, TOP, TOP), dates[0] = 20;
    SAME(option(), 13, 0, 0);
    start(20, TOP, TOP);
    REFUSED(12);
    start(5, TOP, TOP), flows[4] = 0, side = 2, strike = 4 * ONE, dates[0] = 4;
    SAME(bond(), 0, 0, 18);
    SAME(option(), 12, 0, 0);
}

/* Numbers that would pass if they were cut to fewer bits. */
static void widths(void) {
    start(20, ONE, ONE);
    SAME(bond(), 0, ONE, 40);
    rates.reversion = (UINT64_C(1) << 32) + 1000;
    REFUSED(4);
    start(20, ONE, ONE), spreads.reversion = 65536;
    REFUSED(4);
    start(20, ONE, ONE), spreads.steps = 256 + 20;
    REFUSED(3);
    start(20, ONE, ONE), rates.discounts[399] = (UINT64_C(1) << 32) + ONE;
    REFUSED(9);
    start(20, ONE, ONE), spreads.discounts[0] = (UINT64_C(1) << 32) + ONE;
    REFUSED(9);
    start(20, ONE, ONE), rates.discounts[400] = 0, spreads.discounts[400] = UINT64_MAX;
    SAME(bond(), 0, ONE, 40);
}

/* Pairs of one row alone: a low rate of row 0 beside low spreads of row 1 is none. */
static void rows(void) {
    start(2, ONE, ONE), rates.discounts[0] = 30000;
    for (size_t k = 1; k < 4; k++) spreads.discounts[k] = 30000;
    SAME(bond(), 0, 1, 3);
    start(2, ONE, ONE), rates.discounts[3] = 30000, spreads.discounts[1] = 30000;
    REFUSED(9);
}

/* With one tree of ones, whatever its reversion, every answer is the other tree's, a refusal too. */
static void ones(void) {
    static const uint64_t reversions[] = {0, 200, 6000};
    for (size_t k = 0; k < 3 * STEPS; k++) {
        start(k % STEPS + 1, ONE, ONE);
        rates.reversion = reversions[k % 3], spreads.reversion = reversions[k / STEPS];
        for (size_t node = 0; node < 400; node++) rates.discounts[node] = 930000000 + node * 7919003 % 150000001;
        if (k % 7 == 0) rates.discounts[0] = k % 2 == 0 ? 0 : TOP + 1;
        for (size_t row = 0; row < rates.steps; row++) flows[row] = 40000000 + row * (k % 5 == 0 ? 900000000 : 1000000);
        dates[0] = 0, dates[1] = (uint8_t)(rates.steps / 2), dates_count = rates.steps < 2 ? 1 : 2;
        ALIKE(bond(), bond_alone(&rates));
        ALIKE(option(), option_alone(&rates));
        const struct tree kept = rates;
        rates = spreads, spreads = kept;
        ALIKE(bond(), bond_alone(&spreads));
        ALIKE(option(), option_alone(&spreads));
    }
}

int main(void) {
    by_hand();
    order();
    widths();
    rows();
    ones();
    printf("%u checks of pairs, %u failures\n", checks, failures);
    return failures == 0 ? 0 : 1;
}
