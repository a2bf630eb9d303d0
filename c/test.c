/* The figures of the scope (document 01) and its requests (02), and every refusal, through the C header. Exit status 1 where a check fails. */
#include "mixegorta.h"

#include <math.h>
#include <stdbool.h>
#include <stdio.h>
#include <string.h>

#define ONE MIXEGORTA_ONE

static unsigned checks, failures;

static void check(bool holds, int line, const char *text) {
    checks++;
    if (!holds) {
        failures++;
        printf("test.c:%d: not so: %s\n", line, text);
    }
}

#define CHECK(condition) check((condition), __LINE__, #condition)

static bool answered(struct mixegorta_answer a, uint64_t value) { return a.number == 0 && a.value == value; }
static bool refused(struct mixegorta_answer a, uint64_t number) { return a.number == number && a.value == 0; }

static bool priced(struct mixegorta_price p, uint64_t value, uint64_t bound) {
    return p.number == 0 && p.value == value && p.bound == bound;
}

static bool unpriced(struct mixegorta_price p, uint64_t number) { return p.number == number && p.value == 0 && p.bound == 0; }

static bool same_price(struct mixegorta_price a, struct mixegorta_price b) {
    return a.number == b.number && a.value == b.value && a.bound == b.bound;
}

static bool ranged(struct mixegorta_row_place r, size_t start, size_t count) { return r.start == start && r.count == count; }

static bool branched(struct mixegorta_node_branches b, int64_t lowest, uint64_t up, uint64_t middle, uint64_t down) {
    return b.number == 0 && b.lowest == lowest && b.probabilities[0] == up && b.probabilities[1] == middle && b.probabilities[2] == down;
}

static bool unbranched(struct mixegorta_node_branches b, uint64_t number) {
    return b.number == number && b.lowest == 0 && b.probabilities[0] == 0 && b.probabilities[1] == 0 && b.probabilities[2] == 0;
}

/* A curve of n quotes of one kind, and both memories of a tree with room to spare. */
enum { SPARE = 5, QUOTES = MIXEGORTA_MAX_STEPS + 1 };

static uint64_t rows[QUOTES];
static uint8_t kinds[QUOTES];
static double figures[QUOTES];
static uint64_t discounts[MIXEGORTA_MAX_DISCOUNTS + SPARE];
static uint64_t prices[MIXEGORTA_MAX_STATE_PRICES + SPARE];
static const size_t discounts_size = sizeof discounts / sizeof discounts[0];
static const size_t prices_size = sizeof prices / sizeof prices[0];

/* What stands in a memory before a call. */
static uint64_t pattern(size_t i) { return 0xA5A5000000000000u + i; }

static void reset(void) {
    for (size_t i = 0; i < discounts_size; i++) discounts[i] = pattern(i);
    for (size_t i = 0; i < prices_size; i++) prices[i] = pattern(i);
}

static bool untouched_from(size_t discount, size_t price) {
    for (size_t i = discount; i < discounts_size; i++)
        if (discounts[i] != pattern(i)) return false;
    for (size_t i = price; i < prices_size; i++)
        if (prices[i] != pattern(i)) return false;
    return true;
}

static bool zeros(const uint64_t *memory, size_t count) {
    for (size_t i = 0; i < count; i++)
        if (memory[i] != 0) return false;
    return true;
}

/* Quotes of rows 1 to QUOTES: yearly discount factors that fall by the same part. */
static void falling_curve(double part) {
    double factor = 1;
    for (size_t i = 0; i < QUOTES; i++) {
        factor *= part;
        rows[i] = i + 1;
        kinds[i] = MIXEGORTA_DISCOUNT_FACTOR;
        figures[i] = factor;
    }
}

static uint64_t fit(uint64_t frequency, size_t steps, uint64_t reversion, uint64_t volatility) {
    reset();
    return mixegorta_fit(frequency, steps, reversion, volatility, rows, steps, kinds, steps, figures, steps, discounts,
                         discounts_size, prices, prices_size);
}

static uint64_t sum(const uint64_t *memory, size_t count) {
    uint64_t total = 0;
    for (size_t i = 0; i < count; i++) total += memory[i];
    return total;
}

static void shapes(void) {
    CHECK(answered(mixegorta_half_width(1840, 60), 2));
    CHECK(answered(mixegorta_half_width(1841, 60), 1));
    CHECK(answered(mixegorta_half_width(1000, 60), 2));
    CHECK(answered(mixegorta_half_width(1000, 1), 1));
    CHECK(answered(mixegorta_half_width(0, 60), 60));
    CHECK(refused(mixegorta_half_width(6001, 61), 4));
    CHECK(refused(mixegorta_half_width(6000, 61), 6));
    CHECK(answered(mixegorta_node_count(0, 60), MIXEGORTA_MAX_NODES));
    CHECK(answered(mixegorta_node_count(1000, 3), 5));
    CHECK(refused(mixegorta_node_count(6001, 0), 4));
    CHECK(refused(mixegorta_node_count(0, SIZE_MAX), 6));
    CHECK(answered(mixegorta_row_start(0, 7), 49));
    CHECK(answered(mixegorta_row_start(1000, 4), 1 + 3 + 5 + 5));
    CHECK(refused(mixegorta_row_start(UINT64_MAX, 0), 4));
    CHECK(refused(mixegorta_row_start(0, 61), 6));
    CHECK(answered(mixegorta_discounts_needed(60, 0), MIXEGORTA_MAX_DISCOUNTS));
    CHECK(answered(mixegorta_state_prices_needed(60, 0), MIXEGORTA_MAX_STATE_PRICES));
    CHECK(answered(mixegorta_discounts_needed(1, 0), 1));
    CHECK(answered(mixegorta_state_prices_needed(1, 0), 4));
    CHECK(refused(mixegorta_discounts_needed(0, 6001), 3));
    CHECK(refused(mixegorta_discounts_needed(61, 0), 3));
    CHECK(refused(mixegorta_discounts_needed(60, 6001), 4));
    CHECK(refused(mixegorta_state_prices_needed(0, 0), 3));
    CHECK(refused(mixegorta_state_prices_needed(60, 6001), 4));
}

static void branches(void) {
    CHECK(branched(mixegorta_branches(1000, 1, 1), 0, 73000000, 394000000, 133000000));
    CHECK(branched(mixegorta_branches(1000, 1, -1), -2, 133000000, 394000000, 73000000));
    CHECK(branched(mixegorta_branches(1000, 2, 2), 0, 532000000, 16000000, 52000000));
    CHECK(branched(mixegorta_branches(1000, 2, -2), -2, 52000000, 16000000, 532000000));
    CHECK(branched(mixegorta_branches(0, 59, 59), 58, 100000000, 400000000, 100000000));
    CHECK(unbranched(mixegorta_branches(6001, 60, 0), 4));
    CHECK(unbranched(mixegorta_branches(0, 60, 0), 6));
    CHECK(unbranched(mixegorta_branches(0, 1, 2), 6));
    CHECK(unbranched(mixegorta_branches(0, 1, INT64_MIN), 6));
    CHECK(unbranched(mixegorta_branches(0, 1, INT64_MAX), 6));
    for (uint64_t reversion = 0; reversion <= MIXEGORTA_MAX_REVERSION; reversion += 250) {
        int64_t width = (int64_t)mixegorta_half_width(reversion, 59).value;
        for (int64_t node = -width; node <= width; node++) {
            struct mixegorta_node_branches b = mixegorta_branches(reversion, 59, node);
            int64_t up = (int64_t)b.probabilities[0], middle = (int64_t)b.probabilities[1], down = (int64_t)b.probabilities[2];
            int64_t low = b.lowest - node;
            CHECK(up + middle + down == (int64_t)MIXEGORTA_PROBABILITY_ONE);
            CHECK(up * (low + 2) + middle * (low + 1) + down * low == -60000 * node * (int64_t)reversion);
        }
    }
}

static void quotes(void) {
    struct mixegorta_point point = {1, -0.0025};
    CHECK(answered(mixegorta_quote_discount(1, MIXEGORTA_YEARLY_RATE, point), 1002506265));
    CHECK(refused(mixegorta_quote_discount(1, MIXEGORTA_DISCOUNT_FACTOR, point), 7));
    point.figure = 0.0009765625; /* 976,563 billionths: half a billionth goes away from zero */
    CHECK(answered(mixegorta_quote_discount(1, MIXEGORTA_YEARLY_RATE, point), ONE * ONE / (ONE + 976563)));
    point.figure = 1.0025;
    CHECK(answered(mixegorta_quote_discount(1, MIXEGORTA_DISCOUNT_FACTOR, point), 1002500000));
    CHECK(refused(mixegorta_quote_discount(3, 0, point), 2));
    CHECK(refused(mixegorta_quote_discount(1, 4, point), 7));
    CHECK(refused(mixegorta_quote_discount(1, 255, point), 7));
    point.row = 0;
    CHECK(refused(mixegorta_quote_discount(1, 0, point), 6));
    point.row = 61;
    CHECK(refused(mixegorta_quote_discount(1, MIXEGORTA_DISCOUNT_FACTOR, point), 6));
    point.row = 60;
    const double bad[] = {NAN, -NAN, INFINITY, -INFINITY, 10.5, -10.5, 0.0, -0.0, 0.0999, 2.0001};
    for (size_t i = 0; i < sizeof bad / sizeof bad[0]; i++) {
        point.figure = bad[i];
        CHECK(refused(mixegorta_quote_discount(1, MIXEGORTA_DISCOUNT_FACTOR, point), 7));
    }
    point.figure = -1.0; /* divisor 12 - 60 x 1 is below 0 */
    CHECK(refused(mixegorta_quote_discount(12, MIXEGORTA_YEARLY_RATE, point), 7));
}

static void yields(void) {
    struct mixegorta_point point = {1, 0.000000007}; /* 7 / 2 is 3, whose quarter is 0 */
    CHECK(answered(mixegorta_quote_discount(2, MIXEGORTA_YEARLY_YIELD, point), ONE));
    point.figure = -0.000000007; /* -7 / 2 is -4, down */
    CHECK(answered(mixegorta_quote_discount(2, MIXEGORTA_YEARLY_YIELD, point), 1000000004));
    point.figure = 4.0; /* within its limit, its discount out of range */
    CHECK(refused(mixegorta_quote_discount(1, MIXEGORTA_YEARLY_YIELD, point), 7));
    struct mixegorta_rate rate = mixegorta_continuous_rate(484106437);
    CHECK(rate.number == 0 && rate.value == 725450480);
    rate = mixegorta_continuous_rate(1);
    CHECK(rate.number == 0 && rate.value == INT64_C(3999999988));
    rate = mixegorta_continuous_rate(18315638);
    CHECK(rate.number == 0 && rate.value == INT64_C(3999999988));
    for (uint64_t discount = 999999998; discount <= 1000000002; discount++) {
        rate = mixegorta_continuous_rate(discount);
        CHECK(rate.number == 0 && rate.value == 0);
    }
    rate = mixegorta_continuous_rate(1000000003);
    CHECK(rate.number == 0 && rate.value == -4);
    rate = mixegorta_continuous_rate(0);
    CHECK(rate.number == 9 && rate.value == 0);
    rate = mixegorta_continuous_rate(MIXEGORTA_MAX_NODE_DISCOUNT + 1);
    CHECK(rate.number == 9 && rate.value == 0);
}

static uint64_t curve(uint64_t frequency, size_t steps, size_t count, size_t room) {
    reset();
    return mixegorta_curve_discounts(frequency, steps, rows, count, kinds, count, figures, count, discounts, room);
}

static void curves(void) {
    falling_curve(0.98);
    CHECK(curve(4, 3, 3, 3) == 0);
    CHECK(discounts[0] == 980000000 && discounts[1] == 960400000 && discounts[2] == 941192000);
    CHECK(untouched_from(3, 0));
    CHECK(curve(3, 0, 3, 3) == 2 && untouched_from(0, 0));
    CHECK(curve(4, 0, 3, 3) == 3 && untouched_from(0, 0));
    CHECK(curve(4, 61, 61, 61) == 3 && untouched_from(0, 0));
    CHECK(curve(4, 3, 2, 3) == 6 && untouched_from(0, 0));
    CHECK(curve(4, 3, 3, 2) == 6 && untouched_from(0, 0));
    figures[0] = NAN;
    rows[2] = 2;
    CHECK(curve(4, 3, 3, 3) == 6 && untouched_from(0, 0));
    rows[2] = 3;
    CHECK(curve(4, 3, 3, 3) == 7 && untouched_from(0, 0));
    CHECK(mixegorta_curve_discounts(4, 3, NULL, 0, NULL, 0, NULL, 0, NULL, 0) == 6);
}

/* The tree and bond that the scope prints, one yearly step without reversion and volatility; an option for today, since row 1 is the last. */
static void example(void) {
    const uint64_t flow[] = {ONE}, payoffs[] = {ONE, ONE, ONE};
    rows[0] = 1;
    kinds[0] = MIXEGORTA_DISCOUNT_FACTOR;
    figures[0] = 1.0025;
    CHECK(fit(1, 1, 0, 0) == 0);
    CHECK(discounts[0] == 1002500000);
    CHECK(prices[0] == ONE && prices[1] == 167083333 && prices[2] == 668333333 && prices[3] == 167083333);
    CHECK(untouched_from(1, 4));
    struct mixegorta_rate rate = mixegorta_step_rate(discounts[0]);
    CHECK(rate.number == 0 && rate.value == -2493766);
    CHECK(sum(prices + 1, 3) == 1002499999);
    CHECK(answered(mixegorta_state_price_error_bound(1, 0, discounts, 1, 1), 4));
    CHECK(priced(mixegorta_bond_price(1, 0, discounts, 1, flow, 1), 1002500000, 2));
    CHECK(priced(mixegorta_option_price(1, 0, discounts, 1, flow, 1, MIXEGORTA_AMERICAN_PUT, 0, 1010000000), 7500000, 2));
    struct mixegorta_bond_and_option_prices both = mixegorta_bond_and_option(1, 0, discounts, 1, flow, 1, MIXEGORTA_AMERICAN_PUT, 0, 1010000000);
    CHECK(priced(both.bond, 1002500000, 2) && priced(both.option, 7500000, 2));
    CHECK(unpriced(mixegorta_option_price(1, 0, discounts, 1, flow, 1, MIXEGORTA_AMERICAN_PUT, 1, 1010000000), 11));
    CHECK(answered(mixegorta_value_by_state_prices(prices + 1, 3, payoffs, 3), 1002499999));
    CHECK(answered(mixegorta_valuation_error_bound(1, 0, discounts, 1, 1, payoffs, 3), 5));
}

static void rates(void) {
    struct mixegorta_rate rate = mixegorta_step_rate(1000000001);
    CHECK(rate.number == 0 && rate.value == -1);
    rate = mixegorta_step_rate(ONE);
    CHECK(rate.number == 0 && rate.value == 0);
    rate = mixegorta_step_rate(1);
    CHECK(rate.number == 0 && rate.value == INT64_C(999999999000000000));
    rate = mixegorta_step_rate(0);
    CHECK(rate.number == 9 && rate.value == 0);
    rate = mixegorta_step_rate(MIXEGORTA_MAX_NODE_DISCOUNT + 1);
    CHECK(rate.number == 9 && rate.value == 0);
}

static uint64_t fit_rooms(size_t steps, size_t discount_room, size_t price_room) {
    reset();
    return mixegorta_fit(4, steps, 1000, 10000, rows, steps, kinds, steps, figures, steps, discounts, discount_room, prices,
                         price_room);
}

static void fits(void) {
    falling_curve(0.98);
    for (size_t steps = 1; steps <= MIXEGORTA_MAX_STEPS; steps++) {
        CHECK(fit(4, steps, 1000, 10000) == 0);
        size_t needed = mixegorta_discounts_needed(steps, 1000).value, needed_prices = mixegorta_state_prices_needed(steps, 1000).value;
        CHECK(untouched_from(needed, needed_prices));
        CHECK(fit_rooms(steps, needed, needed_prices) == 0);
        CHECK(fit_rooms(steps, needed - 1, needed_prices) == 6 && untouched_from(0, 0));
        CHECK(fit_rooms(steps, needed, needed_prices - 1) == 6 && untouched_from(0, 0));
    }
    CHECK(fit(0, 0, 6001, 50001) == 2 && untouched_from(0, 0));
    CHECK(fit(12, 0, 6001, 50001) == 3 && untouched_from(0, 0));
    CHECK(fit(12, 61, 6001, 50001) == 3 && untouched_from(0, 0));
    CHECK(fit(12, 60, 6001, 50001) == 4 && untouched_from(0, 0));
    CHECK(fit(12, 60, 6000, 50001) == 5 && untouched_from(0, 0));
    CHECK(mixegorta_fit(12, 60, 0, 0, NULL, 0, NULL, 0, NULL, 0, NULL, 0, NULL, 0) == 6);
    kinds[1] = 7;
    CHECK(fit(4, 2, 1000, 10000) == 7 && untouched_from(0, 0));
    kinds[1] = MIXEGORTA_DISCOUNT_FACTOR;
    falling_curve(0.9);
    CHECK(fit(1, 13, 0, 50000) == 8 && untouched_from(0, 0));
    CHECK(fit(1, 12, 0, 50000) == 9);
    CHECK(zeros(discounts, 144) && zeros(prices, 169) && untouched_from(144, 169));
    figures[0] = 1.2;
    CHECK(fit(1, 1, 0, 0) == 9);
    CHECK(zeros(discounts, 1) && zeros(prices, 4) && untouched_from(1, 4));
}

/* Numbers that pass for version 1 where they are cut to 8 or 32 bits, and others that are no version. */
static const uint64_t unknown[] = {0, 3, 4, 256, 256 + 1, 256 + 2, (UINT64_C(1) << 32) + 1, (UINT64_C(1) << 32) + 2, UINT64_MAX};
enum { UNKNOWN = sizeof unknown / sizeof unknown[0] };

static void working_reversions(void) {
    const uint64_t pairs[][2] = {{0, 0}, {1, 1}, {100, 100}, {101, 100}, {103, 102}, {1000, 952}, {2034, 1840}, {2035, 1841}, {6000, 4512}};
    for (size_t i = 0; i < sizeof pairs / sizeof pairs[0]; i++) {
        CHECK(answered(mixegorta_working_reversion(1, pairs[i][0]), pairs[i][0]));
        CHECK(answered(mixegorta_working_reversion(2, pairs[i][0]), pairs[i][1]));
    }
    CHECK(answered(mixegorta_half_width(1840, 60), 2) && answered(mixegorta_half_width(1841, 60), 1));
    CHECK(refused(mixegorta_working_reversion(1, 6001), 4) && refused(mixegorta_working_reversion(2, UINT64_MAX), 4));
    for (size_t i = 0; i < UNKNOWN; i++) {
        CHECK(refused(mixegorta_working_reversion(unknown[i], 6001), 4));
        CHECK(refused(mixegorta_working_reversion(unknown[i], 6000), 7) && refused(mixegorta_working_reversion(unknown[i], 0), 7));
    }
}

static uint64_t fit_version(uint64_t version, uint64_t frequency, size_t steps, uint64_t reversion, uint64_t volatility, size_t discount_room,
                            size_t price_room) {
    reset();
    return mixegorta_fit_version(version, frequency, steps, reversion, volatility, rows, steps, kinds, steps, figures, steps, discounts,
                                 discount_room, prices, price_room);
}

/* Three yearly steps with reversion 1,000: the tree of version 2 has the branches of 952 and a spacing of 16,489,507. */
static void fits_by_version(void) {
    static uint64_t kept[MIXEGORTA_MAX_DISCOUNTS + SPARE], kept_prices[MIXEGORTA_MAX_STATE_PRICES + SPARE];
    const uint64_t second[] = {980000000, 996248537, 979955592, 963929104, 1012691750, 996129886, 979838881, 963814302, 948051795};
    const uint64_t third[] = {44626241, 221365327, 418964443, 214602061, 41633924}, flows[] = {40000000, 40000000, 1040000000};
    falling_curve(0.98);
    for (uint64_t reversion = 0; reversion <= MIXEGORTA_MAX_REVERSION; reversion += 750) {
        CHECK(fit(4, 30, reversion, 9000) == 0);
        memcpy(kept, discounts, sizeof kept);
        memcpy(kept_prices, prices, sizeof kept_prices);
        CHECK(fit_version(1, 4, 30, reversion, 9000, discounts_size, prices_size) == 0);
        CHECK(memcmp(kept, discounts, sizeof kept) == 0 && memcmp(kept_prices, prices, sizeof kept_prices) == 0);
        CHECK(fit_version(2, 4, 30, reversion, 9000, discounts_size, prices_size) == 0);
        CHECK((memcmp(kept, discounts, sizeof kept) == 0) == (reversion == 0));
        CHECK((memcmp(kept_prices, prices, sizeof kept_prices) == 0) == (reversion == 0));
    }
    CHECK(fit_version(2, 1, 3, 1000, 10000, 9, 14) == 0);
    CHECK(memcmp(discounts, second, sizeof second) == 0 && memcmp(prices + 9, third, sizeof third) == 0 && untouched_from(9, 14));
    CHECK(priced(mixegorta_option_price(3, 952, discounts, 9, flows, 3, MIXEGORTA_AMERICAN_CALL, 2, ONE), 56455684, 6));
    CHECK(priced(mixegorta_option_price(3, 1000, discounts, 9, flows, 3, MIXEGORTA_AMERICAN_CALL, 2, ONE), 56454873, 6)); /* another tree's */
}

/* With reversion 103 and 60 steps version 2 needs 1,960 discounts, and version 1, by which an unknown version is judged, 1,878. */
static void rooms_by_version(void) {
    falling_curve(0.995);
    const size_t wide = mixegorta_discounts_needed(60, 102).value, wide_prices = mixegorta_state_prices_needed(60, 102).value;
    const size_t narrow = mixegorta_discounts_needed(60, 103).value, narrow_prices = mixegorta_state_prices_needed(60, 103).value;
    CHECK(wide == 1960 && narrow == 1878);
    CHECK(fit_version(2, 12, 60, 103, 5000, narrow, narrow_prices) == 6 && untouched_from(0, 0));
    CHECK(fit_version(2, 12, 60, 103, 5000, wide - 1, wide_prices) == 6 && untouched_from(0, 0));
    CHECK(fit_version(2, 12, 60, 103, 5000, wide, wide_prices - 1) == 6 && untouched_from(0, 0));
    CHECK(fit_version(2, 12, 60, 103, 5000, wide, wide_prices) == 0 && untouched_from(wide, wide_prices));
    CHECK(fit_version(1, 12, 60, 103, 5000, narrow, narrow_prices) == 0 && untouched_from(narrow, narrow_prices));
    for (size_t i = 0; i < UNKNOWN; i++) {
        CHECK(fit_version(unknown[i], 12, 60, 103, 5000, narrow - 1, narrow_prices) == 6 && untouched_from(0, 0));
        CHECK(fit_version(unknown[i], 12, 60, 103, 5000, narrow, narrow_prices - 1) == 6 && untouched_from(0, 0));
        CHECK(fit_version(unknown[i], 12, 60, 103, 5000, narrow, narrow_prices) == 7 && untouched_from(0, 0));
    }
}

static void version_refusals(void) {
    falling_curve(0.9);
    for (uint64_t version = 0; version <= 3; version++) {
        const bool known = version == 1 || version == 2;
        CHECK(fit_version(version, 0, 0, 6001, 50001, 0, 0) == 2 && untouched_from(0, 0));
        CHECK(fit_version(version, 1, 61, 6001, 50001, 0, 0) == 3 && untouched_from(0, 0));
        CHECK(fit_version(version, 1, 13, 6001, 50001, 0, 0) == 4 && untouched_from(0, 0));
        CHECK(fit_version(version, 1, 13, 6000, 50001, 0, 0) == 5 && untouched_from(0, 0));
        CHECK(fit_version(version, 1, 13, 0, 50000, 168, 196) == 6 && untouched_from(0, 0));
        CHECK(fit_version(version, 1, 13, 0, 50000, 169, 196) == (known ? 8 : 7) && untouched_from(0, 0));
        CHECK(fit_version(version, 1, 12, 0, 50000, 144, 169) == (known ? 9 : 7) && (known || untouched_from(0, 0)));
        CHECK(!known || (zeros(discounts, 144) && zeros(prices, 169) && untouched_from(144, 169)));
    }
    CHECK(mixegorta_fit_version(2, 12, 60, 0, 0, NULL, 0, NULL, 0, NULL, 0, NULL, 0, NULL, 0) == 6);
    CHECK(fit_version(1, 1, 13, 168, 50000, discounts_size, prices_size) == 9); /* 11 nodes to a side, by the working reversion 12 */
    CHECK(fit_version(2, 1, 13, 168, 50000, discounts_size, prices_size) == 8 && untouched_from(0, 0));
}

static struct mixegorta_row_place range(uint64_t kind, size_t steps, uint64_t reversion, size_t row) {
    return mixegorta_row_range(discounts, discounts_size, prices, prices_size, kind, steps, reversion, row);
}

static void ranges(void) {
    for (size_t row = 0; row <= 60; row++) {
        size_t start = mixegorta_row_start(700, row).value, count = mixegorta_node_count(700, row).value;
        CHECK(ranged(range(MIXEGORTA_STATE_PRICES, 60, 700, row), start, count));
        CHECK(ranged(range(MIXEGORTA_DISCOUNTS, 60, 700, row), row < 60 ? start : 0, row < 60 ? count : 0));
    }
    CHECK(ranged(range(MIXEGORTA_STATE_PRICES, 60, 700, 61), 0, 0));
    CHECK(ranged(range(0, 60, 700, 1), 0, 0));
    CHECK(ranged(range(3, 60, 700, 1), 0, 0));
    CHECK(ranged(range(MIXEGORTA_DISCOUNTS, 0, 700, 0), 0, 0));
    CHECK(ranged(range(MIXEGORTA_DISCOUNTS, 61, 700, 1), 0, 0));
    CHECK(ranged(range(MIXEGORTA_DISCOUNTS, 60, 6001, 1), 0, 0));
    CHECK(ranged(mixegorta_row_range(discounts, 1, prices, 4, MIXEGORTA_DISCOUNTS, 1, 0, 0), 0, 1));
    CHECK(ranged(mixegorta_row_range(discounts, 1, prices, 3, MIXEGORTA_DISCOUNTS, 1, 0, 0), 0, 0));
    CHECK(ranged(mixegorta_row_range(NULL, 0, prices, 4, MIXEGORTA_STATE_PRICES, 1, 0, 0), 0, 0));
}

/* The header's limits are the engine's: each limit is accepted, and one more is not. */
static void limits(void) {
    struct mixegorta_point point = {1, 0.1};
    CHECK(answered(mixegorta_quote_discount(1, MIXEGORTA_DISCOUNT_FACTOR, point), MIXEGORTA_MIN_QUOTE_DISCOUNT));
    point.figure = 0.099999999;
    CHECK(refused(mixegorta_quote_discount(1, MIXEGORTA_DISCOUNT_FACTOR, point), 7));
    point.figure = 2.0;
    CHECK(answered(mixegorta_quote_discount(1, MIXEGORTA_DISCOUNT_FACTOR, point), MIXEGORTA_MAX_QUOTE_DISCOUNT));
    point.figure = 2.000000001;
    CHECK(refused(mixegorta_quote_discount(1, MIXEGORTA_DISCOUNT_FACTOR, point), 7));
    CHECK(mixegorta_half_width(MIXEGORTA_MAX_REVERSION, 0).number == 0);
    CHECK(mixegorta_half_width(MIXEGORTA_MAX_REVERSION + 1, 0).number == 4);
    CHECK(mixegorta_discounts_needed(MIXEGORTA_MAX_STEPS, 0).number == 0);
    CHECK(mixegorta_discounts_needed(MIXEGORTA_MAX_STEPS + 1, 0).number == 3);
    falling_curve(0.98);
    CHECK(fit(12, 1, 0, MIXEGORTA_MAX_VOLATILITY) == 0);
    CHECK(fit(12, 1, 0, MIXEGORTA_MAX_VOLATILITY + 1) == 5);
    uint64_t discount[] = {MIXEGORTA_MAX_NODE_DISCOUNT}, flow[] = {MIXEGORTA_MAX_FLOW};
    CHECK(priced(mixegorta_bond_price(1, 0, discount, 1, flow, 1), 2200000000, 2));
    struct mixegorta_price put = mixegorta_option_price(1, 0, discount, 1, flow, 1, MIXEGORTA_EUROPEAN_PUT, 0, MIXEGORTA_MAX_STRIKE);
    CHECK(priced(put, 1800000000, 2));
    uint64_t row[] = {MIXEGORTA_MAX_STATE_PRICE_SUM}, payoff[] = {ONE};
    CHECK(answered(mixegorta_value_by_state_prices(row, 1, payoff, 1), MIXEGORTA_MAX_STATE_PRICE_SUM));
    row[0] = ONE;
    payoff[0] = MIXEGORTA_MAX_VALUE;
    CHECK(answered(mixegorta_value_by_state_prices(row, 1, payoff, 1), MIXEGORTA_MAX_VALUE));
}

/* A fit takes a node discount of its limit and not one billionth more, on row 0 and on row 1, whose state prices sum to two less than one. */
static void fitted_limit(void) {
    struct mixegorta_point point = {1, 1.100000001};
    CHECK(answered(mixegorta_quote_discount(1, MIXEGORTA_DISCOUNT_FACTOR, point), MIXEGORTA_MAX_NODE_DISCOUNT + 1));
    falling_curve(1.1);
    CHECK(fit(1, 1, 0, 0) == 0 && discounts[0] == MIXEGORTA_MAX_NODE_DISCOUNT);
    figures[0] = 1.100000001;
    CHECK(fit(1, 1, 0, 0) == 9 && zeros(discounts, 1) && zeros(prices, 4) && untouched_from(1, 4));
    figures[0] = 1;
    figures[1] = 1.099999998;
    CHECK(fit(1, 2, 0, 0) == 0 && discounts[3] == MIXEGORTA_MAX_NODE_DISCOUNT);
    figures[1] = 1.099999999;
    CHECK(fit(1, 2, 0, 0) == 9 && zeros(discounts, 4) && zeros(prices, 9) && untouched_from(4, 9));
}

/* Every row of a fit reprices its quote by its state prices within 300. */
static void repricing(void) {
    enum { STEPS = 60 };
    uint64_t quoted[STEPS] = {0};
    falling_curve(0.99);
    CHECK(mixegorta_curve_discounts(12, STEPS, rows, STEPS, kinds, STEPS, figures, STEPS, quoted, STEPS) == 0);
    CHECK(fit(12, STEPS, 50, 10000) == 0);
    for (size_t row = 1; row <= STEPS; row++) {
        struct mixegorta_row_place r = range(MIXEGORTA_STATE_PRICES, STEPS, 50, row);
        uint64_t total = sum(prices + r.start, r.count);
        CHECK(total <= quoted[row - 1] + 300 && quoted[row - 1] <= total + 300);
        uint64_t payoffs[MIXEGORTA_MAX_NODES];
        for (size_t i = 0; i < r.count; i++) payoffs[i] = ONE;
        CHECK(answered(mixegorta_value_by_state_prices(prices + r.start, r.count, payoffs, r.count), total));
        uint64_t bound = mixegorta_state_price_error_bound(STEPS, 50, discounts, discounts_size, row).value;
        CHECK(answered(mixegorta_valuation_error_bound(STEPS, 50, discounts, discounts_size, row, payoffs, r.count), bound + 1));
    }
}

static void price_refusals(void) {
    uint64_t flat[4] = {ONE, ONE, ONE, ONE}, flows[2] = {0, ONE};
    CHECK(priced(mixegorta_bond_price(2, 0, flat, 4, flows, 2), ONE, 4));
    CHECK(priced(mixegorta_option_price(2, 0, flat, 4, flows, 2, MIXEGORTA_EUROPEAN_CALL, 1, 900000000), 100000000, 4));
    CHECK(priced(mixegorta_option_price(2, 0, flat, 4, flows, 2, MIXEGORTA_EUROPEAN_PUT, 1, 900000000), 0, 4));
    CHECK(priced(mixegorta_option_price(2, 0, flat, 4, flows, 2, MIXEGORTA_AMERICAN_CALL, 0, 0), ONE, 4));
    CHECK(unpriced(mixegorta_bond_price(0, 6001, NULL, 0, NULL, 0), 3));
    CHECK(unpriced(mixegorta_bond_price(2, 6001, NULL, 0, NULL, 0), 4));
    CHECK(unpriced(mixegorta_bond_price(2, 0, NULL, 0, NULL, 0), 6));
    CHECK(unpriced(mixegorta_bond_price(2, 0, flat, 3, flows, 2), 6));
    CHECK(unpriced(mixegorta_bond_price(2, 0, flat, 4, flows, 1), 6));
    for (uint64_t kind = 0; kind <= 5; kind += 5)
        CHECK(unpriced(mixegorta_option_price(2, 0, flat, 4, flows, 2, kind, 1, ONE), 11));
    CHECK(unpriced(mixegorta_option_price(2, 0, flat, 4, flows, 2, 1, 3, ONE), 11));
    CHECK(unpriced(mixegorta_option_price(2, 0, flat, 4, flows, 2, 1, 1, MIXEGORTA_MAX_STRIKE + 1), 11));
    CHECK(unpriced(mixegorta_option_price(61, 0, flat, 4, flows, 2, 0, 1, ONE), 3));
    flows[0] = MIXEGORTA_MAX_FLOW + 1;
    CHECK(unpriced(mixegorta_bond_price(2, 0, flat, 4, flows, 2), 10));
    flat[3] = 0;
    CHECK(unpriced(mixegorta_bond_price(2, 0, flat, 4, flows, 2), 9));
    CHECK(unpriced(mixegorta_option_price(2, 0, flat, 4, flows, 2, 0, 1, ONE), 9));
    flat[3] = MIXEGORTA_MAX_NODE_DISCOUNT + 1;
    CHECK(unpriced(mixegorta_bond_price(2, 0, flat, 4, flows, 2), 9));
}

static struct mixegorta_price one_step(uint64_t flow, uint64_t discount) { return mixegorta_bond_price(1, 0, &discount, 1, &flow, 1); }

/* The values of row 1 are tenths of a flow of 10. Their mean, a sixth of the outer two and four times the middle one, goes by the
 * discount of row 0. */
static struct mixegorta_price two_steps(uint64_t low, uint64_t middle, uint64_t high, uint64_t root) {
    const uint64_t tenth = ONE / 10, flows[2] = {0, 10};
    const uint64_t tree[4] = {root, low * tenth, middle * tenth, high * tenth};
    return mixegorta_bond_price(2, 0, tree, 4, flows, 2);
}

/* Both divisions of a roll go to the nearest, halves up, each on its own. */
static void rolls(void) {
    CHECK(priced(one_step(1, ONE / 2 - 1), 0, 2));
    CHECK(priced(one_step(1, ONE / 2), 1, 2));
    CHECK(priced(one_step(3, ONE / 2), 2, 2));
    CHECK(priced(one_step(5, ONE / 2), 3, 2));
    CHECK(priced(two_steps(4, 4, 6, ONE), 4, 4));
    CHECK(priced(two_steps(5, 2, 2, ONE), 3, 4));
    CHECK(priced(two_steps(4, 4, 7, ONE), 5, 4));
    CHECK(priced(two_steps(5, 2, 2, ONE / 2), 2, 3));                    /* the whole quotient is 1.25 */
    CHECK(priced(two_steps(4, 4, 6, MIXEGORTA_MAX_NODE_DISCOUNT), 4, 5)); /* 4.77 */
    CHECK(priced(two_steps(4, 4, 7, MIXEGORTA_MAX_NODE_DISCOUNT), 6, 5)); /* 4.95 */
}

/* The coupon of the exercise day stays with the seller: on row 1 these bonds are worth 1, 1.1 and 0.99 without their coupon of 0.1. On the
 * last row the bond has been repaid. */
static void exercise_days(void) {
    const uint64_t flat[4] = {ONE, ONE, ONE, ONE}, flows[2] = {100000000, ONE}, later[3] = {100000000, 100000000, ONE};
    CHECK(priced(mixegorta_option_price(2, 0, flat, 4, flows, 2, MIXEGORTA_EUROPEAN_CALL, 1, 900000000), 100000000, 4));
    CHECK(priced(mixegorta_option_price(2, 0, flat, 4, flows, 2, MIXEGORTA_AMERICAN_CALL, 1, 900000000), 200000000, 4));
    CHECK(priced(mixegorta_option_price(2, 0, flat, 4, flows, 2, MIXEGORTA_EUROPEAN_PUT, 1, 1050000000), 50000000, 4));
    CHECK(priced(mixegorta_option_price(2, 0, flat, 4, flows, 2, MIXEGORTA_AMERICAN_PUT, 1, 1050000000), 50000000, 4));
    for (uint64_t kind = 1; kind <= 4; kind++) CHECK(unpriced(mixegorta_option_price(2, 0, flat, 4, flows, 2, kind, 2, 900000000), 11));
    uint64_t tree[9] = {900000000, ONE, ONE, ONE, ONE, ONE, ONE, ONE, ONE};
    CHECK(priced(mixegorta_option_price(3, 0, tree, 9, later, 3, MIXEGORTA_AMERICAN_CALL, 2, ONE), 90000000, 6));
    tree[0] = ONE;
    tree[1] = tree[2] = tree[3] = 900000000;
    CHECK(priced(mixegorta_option_price(3, 0, tree, 9, later, 3, MIXEGORTA_AMERICAN_PUT, 2, 1050000000), 60000000, 6));
}

/* Both prices at once have these numbers, and each is what its own entry answers. */
static bool agree(struct mixegorta_bond_and_option_prices both, struct mixegorta_price bond, struct mixegorta_price option, uint64_t bond_number,
                  uint64_t option_number) {
    return both.bond.number == bond_number && both.option.number == option_number && same_price(both.bond, bond) &&
           same_price(both.option, option);
}

static bool each_its_own(size_t steps, const uint64_t *lent, size_t lent_len, const uint64_t *flows, size_t flows_len, uint64_t kind,
                         size_t expiry, uint64_t strike, uint64_t bond, uint64_t option) {
    return agree(mixegorta_bond_and_option(steps, 0, lent, lent_len, flows, flows_len, kind, expiry, strike),
                 mixegorta_bond_price(steps, 0, lent, lent_len, flows, flows_len),
                 mixegorta_option_price(steps, 0, lent, lent_len, flows, flows_len, kind, expiry, strike), bond, option);
}

static void bond_and_option(void) {
    uint64_t flat[9], flows[3] = {0, ONE, MIXEGORTA_MAX_FLOW};
    for (size_t i = 0; i < 9; i++) flat[i] = ONE;
    for (uint64_t kind = 1; kind <= 4; kind++)
        for (size_t expiry = 0; expiry <= 3; expiry++)
            CHECK(each_its_own(3, flat, 9, flows, 3, kind, expiry, ONE, 0, expiry < 3 ? 0 : 11));
    CHECK(each_its_own(3, flat, 9, flows, 3, 5, 1, ONE, 0, 11));
    CHECK(each_its_own(3, flat, 9, flows, 3, 1, 4, ONE, 0, 11));
    CHECK(each_its_own(3, flat, 9, flows, 3, 1, 1, MIXEGORTA_MAX_STRIKE + 1, 0, 11));
    CHECK(each_its_own(61, flat, 9, flows, 3, 5, 1, ONE, 3, 3));
    CHECK(each_its_own(3, flat, 8, flows, 3, 5, 1, ONE, 6, 6));
    CHECK(each_its_own(3, flat, 9, flows, 2, 1, 1, ONE, 6, 6));
    CHECK(each_its_own(3, NULL, 0, NULL, 0, 1, 1, ONE, 6, 6));
    flows[0] = MIXEGORTA_MAX_FLOW + 1;
    CHECK(each_its_own(3, flat, 9, flows, 3, 5, 1, ONE, 10, 10));
    flat[8] = 0;
    CHECK(each_its_own(3, flat, 9, flows, 3, 5, 1, ONE, 9, 9));
}

/* A bond of four steps that is worth so much on row 1, then by the discount of row 0. */
static struct mixegorta_price from_row_one(uint64_t value, uint64_t discount) {
    const uint64_t most = MIXEGORTA_MAX_FLOW, flows[4] = {value - 3 * most, most, most, most};
    uint64_t tree[16] = {discount};
    for (size_t i = 1; i < 16; i++) tree[i] = ONE;
    return mixegorta_bond_price(4, 0, tree, 16, flows, 4);
}

static void value_limits(void) {
    uint64_t flat[25], flows[5];
    for (size_t i = 0; i < 25; i++) flat[i] = ONE;
    for (size_t i = 0; i < 5; i++) flows[i] = MIXEGORTA_MAX_FLOW;
    CHECK(unpriced(mixegorta_bond_price(5, 0, flat, 25, flows, 5), 12));
    CHECK(unpriced(mixegorta_option_price(5, 0, flat, 25, flows, 5, 1, 4, 0), 12));
    CHECK(each_its_own(5, flat, 25, flows, 5, 1, 4, 0, 12, 12));
    CHECK(each_its_own(5, flat, 25, flows, 5, 5, 4, 0, 12, 11));
    CHECK(each_its_own(5, flat, 25, flows, 5, 1, 5, 0, 12, 11));
    flows[0] = 0;
    CHECK(priced(mixegorta_bond_price(5, 0, flat, 25, flows, 5), MIXEGORTA_MAX_VALUE, 10));
    /* Judged after rounding: past the limit these have 0.488, 0.5 and 0.998 billionths. */
    CHECK(priced(from_row_one(7999936001, 1000008000), MIXEGORTA_MAX_VALUE, 9));
    CHECK(unpriced(from_row_one(7746425600, 1032734375), 12));
    CHECK(unpriced(from_row_one(7999996001, 1000000500), 12));
    uint64_t high[81], nothing[9] = {0}; /* a strike of 4 grows above 8 in eight steps */
    for (size_t i = 0; i < 81; i++) high[i] = MIXEGORTA_MAX_NODE_DISCOUNT;
    CHECK(each_its_own(9, high, 81, nothing, 9, MIXEGORTA_EUROPEAN_PUT, 8, MIXEGORTA_MAX_STRIKE, 0, 12));
    CHECK(each_its_own(9, high, 81, nothing, 9, MIXEGORTA_EUROPEAN_PUT, 7, MIXEGORTA_MAX_STRIKE, 0, 0));
}

/* A note of six steps, whose nodes have their row's discount. It pays 0.05 on rows 2 and 4 and 1.05 on row 6, and is worth
 * 1.05 on row 4, 1.1 on row 3, 1.078 on row 2, 1.0152 on row 1 and 0.91368 on row 0, each without the flow of its row. */
enum { NOTE_STEPS = 6, NOTE_DISCOUNTS = NOTE_STEPS * NOTE_STEPS };
static uint64_t note_discounts[NOTE_DISCOUNTS];
static uint64_t note_flows[NOTE_STEPS];

static void write_note(void) {
    const uint64_t row_discounts[NOTE_STEPS] = {900000000, 900000000, 980000000, ONE, ONE, ONE};
    const uint64_t coupons[NOTE_STEPS] = {0, 50000000, 0, 50000000, 0, 1050000000};
    for (size_t row = 0; row < NOTE_STEPS; row++)
        for (size_t i = row * row; i < (row + 1) * (row + 1); i++) note_discounts[i] = row_discounts[row];
    memcpy(note_flows, coupons, sizeof coupons);
}

static struct mixegorta_price note_option(uint64_t side, const uint8_t *dates, size_t count, uint64_t strike) {
    return mixegorta_dated_option_price(NOTE_STEPS, 0, note_discounts, NOTE_DISCOUNTS, note_flows, NOTE_STEPS, side, dates, count,
                                        strike);
}

/* Of the coupon days the call is best exercised on row 2, the put on row 4; of all rows the call on row 3, the put on row 0. */
static void callable_notes(void) {
    const uint8_t coupon_days[] = {2, 4}, all[] = {0, 1, 2, 3, 4};
    const uint64_t put_strike = 1100000000;
    write_note();
    struct mixegorta_price bond = mixegorta_bond_price(NOTE_STEPS, 0, note_discounts, NOTE_DISCOUNTS, note_flows, NOTE_STEPS);
    CHECK(priced(bond, 913680000, bond.bound) && bond.bound > 0);
    CHECK(priced(note_option(MIXEGORTA_CALL, coupon_days, 2, ONE), 63180000, bond.bound));
    CHECK(priced(note_option(MIXEGORTA_CALL, coupon_days, 1, ONE), 63180000, bond.bound));
    CHECK(priced(note_option(MIXEGORTA_CALL, coupon_days + 1, 1, ONE), 39690000, bond.bound));
    CHECK(priced(note_option(MIXEGORTA_CALL, all + 3, 1, ONE), 79380000, bond.bound));
    CHECK(priced(note_option(MIXEGORTA_CALL, all, 5, ONE), 79380000, bond.bound));
    CHECK(priced(note_option(MIXEGORTA_PUT, coupon_days, 2, put_strike), 39690000, bond.bound));
    CHECK(priced(note_option(MIXEGORTA_PUT, coupon_days, 1, put_strike), 17820000, bond.bound));
    CHECK(priced(note_option(MIXEGORTA_PUT, all, 5, put_strike), 186320000, bond.bound));
    struct mixegorta_bond_and_option_prices both = mixegorta_bond_and_dated_option(
        NOTE_STEPS, 0, note_discounts, NOTE_DISCOUNTS, note_flows, NOTE_STEPS, MIXEGORTA_CALL, coupon_days, 2, ONE);
    CHECK(agree(both, bond, note_option(MIXEGORTA_CALL, coupon_days, 2, ONE), 0, 0));
}

/* The list of a kind: expiry alone, or every row from 0 to expiry. Gives its count. */
static size_t list_of_kind(uint64_t kind, size_t expiry, uint8_t *dates) {
    size_t first = kind <= MIXEGORTA_EUROPEAN_PUT ? expiry : 0;
    for (size_t row = first; row <= expiry; row++) dates[row - first] = (uint8_t)row;
    return expiry - first + 1;
}

/* A kind and its list give one answer; on the last row, where the bond has been repaid, a kind gives 11 and its list 13. */
static void kinds_and_lists(void) {
    enum { STEPS = MIXEGORTA_MAX_STEPS };
    uint64_t flows[STEPS];
    uint8_t dates[STEPS + 1];
    falling_curve(0.995);
    CHECK(fit(4, STEPS, 1000, 10000) == 0);
    for (size_t i = 0; i < STEPS; i++) flows[i] = i + 1 < STEPS ? 5000000 : ONE;
    for (uint64_t kind = 1; kind <= 4; kind++)
        for (size_t expiry = 0; expiry <= STEPS; expiry++) {
            size_t count = list_of_kind(kind, expiry, dates);
            struct mixegorta_price listed = mixegorta_dated_option_price(STEPS, 1000, discounts, discounts_size, flows, STEPS,
                                                                         2 - kind % 2, dates, count, ONE);
            struct mixegorta_price of_kind =
                mixegorta_option_price(STEPS, 1000, discounts, discounts_size, flows, STEPS, kind, expiry, ONE);
            if (expiry < STEPS)
                CHECK(of_kind.number == 0 && same_price(listed, of_kind));
            else
                CHECK(unpriced(of_kind, 11) && unpriced(listed, 13));
        }
}

/* Bond and option of five steps without reversion, by the numbers they are refused with. */
static bool five_steps(const uint64_t *lent, const uint64_t *flows, uint64_t side, const uint8_t *dates, size_t count, uint64_t strike,
                       uint64_t bond, uint64_t option) {
    return agree(mixegorta_bond_and_dated_option(5, 0, lent, 25, flows, 5, side, dates, count, strike),
                 mixegorta_bond_price(5, 0, lent, 25, flows, 5),
                 mixegorta_dated_option_price(5, 0, lent, 25, flows, 5, side, dates, count, strike), bond, option);
}

/* Lists that are none, do not rise, or reach row 5. */
static const uint8_t last[] = {5}, equal[] = {1, 1}, falling[] = {3, 1}, past[] = {1, 61, 255}, zero_rows[4672];
static const struct {
    const uint8_t *rows;
    size_t count;
} bad_lists[] = {{NULL, 0}, {last, 1}, {equal, 2}, {falling, 2}, {past, 3}, {zero_rows, sizeof zero_rows}};

/* The dates come after side and strike, and before a bond above the limit. */
static void date_refusals(void) {
    const uint8_t good[] = {1, 4};
    uint64_t flat[25], flows[5];
    for (size_t i = 0; i < 25; i++) flat[i] = ONE;
    for (size_t i = 0; i < 5; i++) flows[i] = MIXEGORTA_MAX_FLOW;
    for (uint64_t side = MIXEGORTA_CALL; side <= MIXEGORTA_PUT; side++) {
        uint64_t bond = side == MIXEGORTA_CALL ? 12 : 0;
        flows[0] = bond == 12 ? MIXEGORTA_MAX_FLOW : 0;
        CHECK(five_steps(flat, flows, side, good, 1, ONE, bond, bond));
        CHECK(five_steps(flat, flows, side, good, 2, MIXEGORTA_MAX_STRIKE, bond, bond));
        for (size_t i = 0; i < sizeof bad_lists / sizeof bad_lists[0]; i++) {
            CHECK(five_steps(flat, flows, side, bad_lists[i].rows, bad_lists[i].count, ONE, bond, 13));
            CHECK(five_steps(flat, flows, side, bad_lists[i].rows, bad_lists[i].count, MIXEGORTA_MAX_STRIKE + 1, bond, 11));
            CHECK(five_steps(flat, flows, 0, bad_lists[i].rows, bad_lists[i].count, ONE, bond, 11));
        }
        CHECK(five_steps(flat, flows, 3, good, 2, ONE, bond, 11));
        CHECK(five_steps(flat, flows, UINT64_MAX, good, 2, ONE, bond, 11));
    }
    flows[0] = MIXEGORTA_MAX_FLOW + 1;
    CHECK(five_steps(flat, flows, 0, NULL, 0, ONE, 10, 10));
    flat[24] = 0;
    CHECK(five_steps(flat, flows, 0, NULL, 0, ONE, 9, 9));
    CHECK(unpriced(mixegorta_dated_option_price(5, 0, flat, 24, flows, 5, 0, NULL, 0, ONE), 6));
    CHECK(unpriced(mixegorta_dated_option_price(5, 6001, NULL, 0, NULL, 0, 0, NULL, 0, ONE), 4));
    CHECK(unpriced(mixegorta_dated_option_price(0, 6001, NULL, 0, NULL, 0, 0, NULL, 0, ONE), 3));
}

static void values(void) {
    uint64_t row[3] = {ONE, ONE, 100}, payoffs[3] = {ONE, 2 * ONE, 3 * ONE}, many[122] = {0};
    CHECK(answered(mixegorta_value_by_state_prices(row, 3, payoffs, 3), 3 * ONE + 300));
    CHECK(refused(mixegorta_value_by_state_prices(row, 3, payoffs, 2), 6));
    CHECK(refused(mixegorta_value_by_state_prices(row, 2, payoffs, 2), 6));
    CHECK(refused(mixegorta_value_by_state_prices(NULL, 0, NULL, 0), 6));
    CHECK(refused(mixegorta_value_by_state_prices(many, 122, many, 122), 6));
    CHECK(answered(mixegorta_value_by_state_prices(many, 121, many, 121), 0)); /* read-only slices may overlap */
    row[2] = 101;
    CHECK(refused(mixegorta_value_by_state_prices(row, 3, payoffs, 3), 12));
    row[2] = UINT64_MAX;
    CHECK(refused(mixegorta_value_by_state_prices(row, 3, payoffs, 3), 12));
    row[2] = 0;
    payoffs[0] = MIXEGORTA_MAX_VALUE + 1;
    CHECK(refused(mixegorta_value_by_state_prices(row, 3, payoffs, 3), 12));
    payoffs[0] = payoffs[1] = MIXEGORTA_MAX_VALUE;
    CHECK(refused(mixegorta_value_by_state_prices(row, 3, payoffs, 3), 12));
}

static void bounds(void) {
    uint64_t flat[4] = {ONE, ONE, ONE, ONE}, payoffs[5] = {0, 0, 2 * ONE, 0, 0};
    CHECK(answered(mixegorta_state_price_error_bound(2, 0, flat, 4, 0), 0));
    CHECK(answered(mixegorta_state_price_error_bound(2, 0, flat, 4, 2), 4 + 8));
    CHECK(refused(mixegorta_state_price_error_bound(0, 6001, NULL, 0, 0), 3));
    CHECK(refused(mixegorta_state_price_error_bound(2, 6001, NULL, 0, 0), 4));
    CHECK(refused(mixegorta_state_price_error_bound(2, 0, NULL, 0, 0), 6));
    CHECK(refused(mixegorta_state_price_error_bound(2, 0, flat, 4, 3), 6));
    CHECK(answered(mixegorta_valuation_error_bound(2, 0, flat, 4, 2, payoffs, 5), 2 * 12 + 1));
    CHECK(refused(mixegorta_valuation_error_bound(0, 6001, NULL, 0, 0, NULL, 0), 3));
    CHECK(refused(mixegorta_valuation_error_bound(2, 6001, NULL, 0, 0, NULL, 0), 4));
    CHECK(refused(mixegorta_valuation_error_bound(2, 0, flat, 4, 2, payoffs, 3), 6));
    CHECK(refused(mixegorta_valuation_error_bound(2, 0, flat, 4, 3, payoffs, 5), 6));
    payoffs[0] = MIXEGORTA_MAX_VALUE + 1;
    CHECK(refused(mixegorta_valuation_error_bound(2, 0, flat, 4, 2, payoffs, 5), 12));
    flat[0] = 0;
    CHECK(refused(mixegorta_valuation_error_bound(2, 0, flat, 4, 2, payoffs, 5), 9));
    CHECK(refused(mixegorta_state_price_error_bound(2, 0, flat, 4, 0), 9));
}

static bool no_bounds(struct mixegorta_tree_error_bounds known, uint64_t number) {
    for (size_t row = 0; row < MIXEGORTA_MAX_STEPS; row++)
        if (known.greatest[row] != 0) return false;
    return known.number == number && known.bound == 0;
}

/* Both functions refuse together, with the lowest number. */
static bool no_bound_of(size_t steps, uint64_t reversion, const uint64_t *discounts, size_t count, uint64_t number) {
    return refused(mixegorta_price_error_bound(steps, reversion, discounts, count), number) &&
           no_bounds(mixegorta_tree_bounds(steps, reversion, discounts, count), number);
}

/* The bound and the greatest discounts of a tree of three steps; the rows behind it are 0. */
static bool bounded(const uint64_t *discounts, size_t count, uint64_t bound, const uint64_t greatest[3]) {
    const struct mixegorta_tree_error_bounds known = mixegorta_tree_bounds(3, 0, discounts, count);
    for (size_t row = 0; row < MIXEGORTA_MAX_STEPS; row++)
        if (known.greatest[row] != (row < 3 ? greatest[row] : 0)) return false;
    return known.number == 0 && known.bound == bound && answered(mixegorta_price_error_bound(3, 0, discounts, count), bound);
}

static void bounds_of_trees(void) {
    uint64_t discounts[10] = {900000000, 1, 800000000, 2, 3, 4, 5, 6, 700000000, 0};
    CHECK(bounded(discounts, 9, 6, (uint64_t[]){900000000, 800000000, 700000000}));
    CHECK(bounded(discounts, 10, 6, (uint64_t[]){900000000, 800000000, 700000000})); /* a longer memory is read no further */
    discounts[0] = discounts[3] = ONE;
    CHECK(bounded(discounts, 9, 6, (uint64_t[]){ONE, ONE, 700000000}));
    discounts[8] = MIXEGORTA_MAX_NODE_DISCOUNT; /* the last row's discount adds nothing: 2 it is */
    CHECK(bounded(discounts, 9, 6, (uint64_t[]){ONE, ONE, MIXEGORTA_MAX_NODE_DISCOUNT}));
    discounts[2] = ONE + 1; /* 2 x (one + 1) / one, up, is 3 */
    CHECK(bounded(discounts, 9, 3 + 2 + 2, (uint64_t[]){ONE, ONE + 1, MIXEGORTA_MAX_NODE_DISCOUNT}));
    discounts[0] = MIXEGORTA_MAX_NODE_DISCOUNT; /* 5 x 1.1, up, is 6 */
    CHECK(bounded(discounts, 9, 6 + 2, (uint64_t[]){MIXEGORTA_MAX_NODE_DISCOUNT, ONE + 1, MIXEGORTA_MAX_NODE_DISCOUNT}));
    discounts[5] = 0;
    CHECK(no_bound_of(0, 6001, NULL, 0, 3) && no_bound_of(61, 6001, discounts, 9, 3));
    CHECK(no_bound_of(3, 6001, NULL, 0, 4) && no_bound_of(3, 0, NULL, 0, 6) && no_bound_of(3, 0, discounts, 8, 6));
    CHECK(no_bound_of(3, 0, discounts, 9, 9));
    discounts[5] = MIXEGORTA_MAX_NODE_DISCOUNT + 1;
    CHECK(no_bound_of(3, 0, discounts, 9, 9));
}

/* The scope's job with an option for today; without its option, its last nine bytes, it is still a job. */
static const uint8_t example_job[] = {1, 0, 1, 1, 2, 0, 1, 1, 3, 0, 2, 0, 0, 4, 0, 4, 0, 0, 0, 0,
                                      5, 0, 8, 0x3F, 0xF0, 0x0A, 0x3D, 0x70, 0xA3, 0xD7, 0x0A,
                                      7, 0, 4, 0x3B, 0x9A, 0xCA, 0x00, 8, 0, 6, 4, 0, 0x3C, 0x33, 0x60, 0x80};
enum { JOB = sizeof example_job, OPTION = 9 };
static const char example_sheet[] = "node 0 0 1.002500000 -0.2493766\n"
                                    "row 1 1.002500000 1.002499999 4\n"
                                    "bond 1.002500000 2\n"
                                    "option 0.007500000 2\n";
static const size_t option_line = sizeof "option 0.007500000 2\n" - 1;

static uint8_t out[MIXEGORTA_SHEET_ROOM + SPARE];

static uint8_t out_pattern(size_t i) { return (uint8_t)(0xA5 ^ i % 251); }

/* The sheet of a job, drawn in the first room bytes of out. */
static struct mixegorta_written sheet(const uint8_t *job, size_t size, size_t room) {
    for (size_t i = 0; i < sizeof out; i++) out[i] = out_pattern(i);
    return mixegorta_sheet(job, size, out, room);
}

static bool out_kept(size_t start, size_t end) {
    for (size_t i = start; i < end; i++)
        if (out[i] != out_pattern(i)) return false;
    return true;
}

static bool unprinted(struct mixegorta_written w, uint64_t number) {
    return w.number == number && w.size == 0 && out_kept(0, sizeof out);
}

/* Whether the first size bytes of the example's sheet stand at the end of the room, and all else is as it was. */
static bool printed(struct mixegorta_written w, size_t size, size_t room) {
    return w.number == 0 && w.size == size && memcmp(out + room - size, example_sheet, size) == 0 && out_kept(0, room - size) &&
           out_kept(room, sizeof out);
}

static void sheets(void) {
    const size_t room = MIXEGORTA_SHEET_ROOM, size = sizeof example_sheet - 1;
    CHECK(printed(sheet(example_job, JOB, room), size, room));
    CHECK(printed(sheet(example_job, JOB, room + 3), size, room + 3));
    CHECK(printed(sheet(example_job, JOB - OPTION, room), size - option_line, room));
    CHECK(unprinted(sheet(example_job, JOB, room - 1), 6));
    CHECK(unprinted(sheet(example_job, JOB, size), 6));
    CHECK(unprinted(sheet(example_job, JOB, 0), 6));
    CHECK(mixegorta_sheet(example_job, JOB, NULL, 0).number == 6);
}

/* A job cut short anywhere, longer than any job, with a byte more, or of rubbish. */
static void malformed_jobs(void) {
    const size_t room = MIXEGORTA_SHEET_ROOM;
    uint8_t job[MIXEGORTA_MAX_JOB + 1] = {0};
    CHECK(unprinted(sheet(NULL, 0, room), 1));
    for (size_t size = 0; size < JOB; size++)
        if (size != JOB - OPTION) CHECK(unprinted(sheet(example_job, size, room), 1));
    memcpy(job, example_job, JOB);
    CHECK(unprinted(sheet(job, JOB + 1, room), 1));
    CHECK(unprinted(sheet(job, MIXEGORTA_MAX_JOB, room), 1));
    CHECK(unprinted(sheet(job, MIXEGORTA_MAX_JOB + 1, room), 1));
    for (size_t i = 0; i < sizeof job; i++) job[i] = (uint8_t)(i * 167 + 13);
    CHECK(unprinted(sheet(job, JOB, room), 1));
    CHECK(unprinted(sheet(job, sizeof job, room), 1));
    CHECK(unprinted(sheet(job, JOB, 0), 1));
}

/* The example job with its bytes from a place on replaced. */
static struct mixegorta_written altered(size_t place, const char *bytes, size_t count, size_t room) {
    uint8_t job[JOB];
    memcpy(job, example_job, JOB);
    memcpy(job + place, bytes, count);
    return sheet(job, JOB, room);
}

static void refused_jobs(void) {
    const size_t room = MIXEGORTA_SHEET_ROOM;
    const uint8_t no_steps[] = {1, 0, 1, 1, 2, 0, 1, 0, 3, 0, 2, 0, 0, 4, 0, 4, 0, 0, 0, 0};
    CHECK(unprinted(altered(3, "\3", 1, room), 2));
    CHECK(unprinted(altered(3, "\3", 1, 0), 2)); /* the lowest number, with too little room too */
    CHECK(unprinted(sheet(no_steps, sizeof no_steps, room), 3));
    CHECK(unprinted(altered(11, "\x17\x71", 2, room), 4));
    CHECK(unprinted(altered(16, "\0\0\xC3\x51", 4, room), 5));
    CHECK(unprinted(altered(23, "\x7F\xF8", 2, room), 7)); /* not a number */
    CHECK(unprinted(altered(23, "\x7F\xF8", 2, room - 1), 6));
    CHECK(unprinted(altered(23, "\x3F\xF3\x33\x33\x33\x33\x33\x33", 8, room), 9)); /* 1.2 */
    CHECK(unprinted(altered(34, "\x77\x35\x94\x01", 4, room), 10));
    CHECK(unprinted(altered(41, "\5", 1, room), 11));
    CHECK(unprinted(altered(42, "\1", 1, room), 11)); /* the scope's own job: its option expires on the last row */
    CHECK(unprinted(altered(42, "\2", 1, room), 11));
}

/* The example job with other bytes in place of its option. */
static struct mixegorta_written with_option(const char *bytes, size_t count) {
    uint8_t job[2 * JOB];
    memcpy(job, example_job, JOB - OPTION);
    memcpy(job + JOB - OPTION, bytes, count);
    return sheet(job, JOB - OPTION + count, MIXEGORTA_SHEET_ROOM);
}

#define WITH_OPTION(text) with_option(text, sizeof(text) - 1)
#define BY_KIND "\x08\0\6\4\0\x3C\x33\x60\x80"
#define PUT_TERMS "\2\x3C\x33\x60\x80"
#define BY_DATES "\x0A\0\6" PUT_TERMS "\0"

/* The same put by its list, row 0 alone, in field 0A; then lists that are empty, reach row 1 or do not rise. */
static void dated_jobs(void) {
    const size_t room = MIXEGORTA_SHEET_ROOM, size = sizeof example_sheet - 1;
    CHECK(printed(WITH_OPTION(BY_KIND), size, room));
    CHECK(printed(WITH_OPTION(BY_DATES), size, room));
    CHECK(unprinted(WITH_OPTION("\x0A\0\5" PUT_TERMS), 13));
    CHECK(unprinted(WITH_OPTION("\x0A\0\6" PUT_TERMS "\1"), 13));
    CHECK(unprinted(WITH_OPTION("\x0A\0\7" PUT_TERMS "\0\0"), 13));
    CHECK(unprinted(WITH_OPTION("\x0A\0\5\3\x3C\x33\x60\x80"), 11));
    CHECK(unprinted(WITH_OPTION("\x0A\0\5\2\xEE\x6B\x28\x01"), 11)); /* a strike above its limit */
    CHECK(unprinted(WITH_OPTION("\x0A\0\4\2\x3C\x33\x60"), 1));
    CHECK(unprinted(WITH_OPTION(BY_KIND BY_DATES), 1));
    CHECK(unprinted(WITH_OPTION(BY_DATES BY_KIND), 1));
    CHECK(unprinted(WITH_OPTION(BY_DATES BY_DATES), 1));
}

/* The example job with bytes put in at a place; its volatility ends at 20. */
static struct mixegorta_written with_version(size_t place, const char *bytes, size_t count) {
    uint8_t job[2 * JOB];
    memcpy(job, example_job, place);
    memcpy(job + place, bytes, count);
    memcpy(job + place + count, example_job + place, JOB - place);
    return sheet(job, JOB + count, MIXEGORTA_SHEET_ROOM);
}

#define WITH_VERSION(place, text) with_version(place, text, sizeof(text) - 1)

/* Without reversion every version has the same sheet. */
static void jobs_with_versions(void) {
    const size_t room = MIXEGORTA_SHEET_ROOM, size = sizeof example_sheet - 1;
    const size_t places[] = {0, 4, 8, 13, 31, 38, JOB};
    CHECK(printed(WITH_VERSION(20, "\x0B\0\1\1"), size, room));
    CHECK(printed(WITH_VERSION(20, "\x0B\0\1\2"), size, room));
    CHECK(unprinted(WITH_VERSION(20, "\x0B\0\1\0"), 1));
    CHECK(unprinted(WITH_VERSION(20, "\x0B\0\1\3"), 1));
    CHECK(unprinted(WITH_VERSION(20, "\x0B\0\0"), 1));
    CHECK(unprinted(WITH_VERSION(20, "\x0B\0\2\0\2"), 1));
    CHECK(unprinted(WITH_VERSION(20, "\x0B\0\1\2\x0B\0\1\2"), 1));
    for (size_t i = 0; i < sizeof places / sizeof places[0]; i++) CHECK(unprinted(WITH_VERSION(places[i], "\x0B\0\1\2"), 1));
}

int main(void) {
    CHECK(mixegorta_version() == MIXEGORTA_VERSION_NUMBER);
    shapes();
    branches();
    quotes();
    yields();
    curves();
    example();
    rates();
    fits();
    working_reversions();
    fits_by_version();
    rooms_by_version();
    version_refusals();
    ranges();
    limits();
    fitted_limit();
    repricing();
    price_refusals();
    rolls();
    exercise_days();
    bond_and_option();
    value_limits();
    callable_notes();
    kinds_and_lists();
    date_refusals();
    values();
    bounds();
    bounds_of_trees();
    sheets();
    malformed_jobs();
    refused_jobs();
    dated_jobs();
    jobs_with_versions();
    printf("C: %u checks, %u failed\n", checks, failures);
    return failures != 0;
}
