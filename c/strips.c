/* Strips of strikes (document 02, request (x)) through the C header: figures by hand, each place against the call for its strike alone, and the
 * causes of the strip itself. Exit status 1 where a check fails. */
#include "mixegorta.h"

#include <stdbool.h>
#include <stdio.h>
#include <string.h>

#define ONE MIXEGORTA_ONE
#define LIMIT MIXEGORTA_MAX_STRIKE

enum { STEPS = 9, NODES = STEPS * STEPS, STRIKES = MIXEGORTA_MAX_STRIKES, MORE = 17 };

static unsigned checks, failures;

static void check(bool holds, int line, const char *text) {
    checks++;
    if (!holds) {
        failures++;
        printf("strips.c:%d: not so: %s\n", line, text);
    }
}

#define CHECK(condition) check((condition), __LINE__, #condition)

typedef struct mixegorta_strip strip;
typedef struct mixegorta_price price;

static uint64_t discounts[NODES], flows[STEPS], strikes[MORE];
static uint8_t dates[STEPS];

/* What the strips below are handed: a list of dates or a kind, on lent discounts or on a shelf. */
static struct {
    size_t steps;
    uint64_t reversion, side, kind;
    size_t dates, expiry, flows;
} given;

static struct mixegorta_shelf shelf;
static uint64_t memory[MIXEGORTA_SHELF_ROOM];
static size_t name;

static strip dated(size_t count) {
    return mixegorta_option_strip(given.steps, given.reversion, discounts, NODES, flows, given.flows, given.side, dates, given.dates,
                                  count == 0 ? NULL : strikes, count);
}

static strip of_kind(size_t count) {
    return mixegorta_option_strip_of_kind(given.steps, given.reversion, discounts, NODES, flows, given.flows, given.kind, given.expiry,
                                          count == 0 ? NULL : strikes, count);
}

static strip shelf_dated(size_t count) {
    return mixegorta_shelf_option_strip(shelf, memory, name, flows, given.flows, given.side, dates, given.dates, count == 0 ? NULL : strikes,
                                        count);
}

static strip shelf_of_kind(size_t count) {
    return mixegorta_shelf_option_strip_of_kind(shelf, memory, name, flows, given.flows, given.kind, given.expiry,
                                                count == 0 ? NULL : strikes, count);
}

static price dated_alone(uint64_t strike) {
    return mixegorta_dated_option_price(given.steps, given.reversion, discounts, NODES, flows, given.flows, given.side, dates, given.dates, strike);
}

static price kind_alone(uint64_t strike) {
    return mixegorta_option_price(given.steps, given.reversion, discounts, NODES, flows, given.flows, given.kind, given.expiry, strike);
}

static price shelf_dated_alone(uint64_t strike) {
    return mixegorta_shelf_dated_option_price(shelf, memory, name, flows, given.flows, given.side, dates, given.dates, strike);
}

static price shelf_kind_alone(uint64_t strike) {
    return mixegorta_shelf_option_price(shelf, memory, name, flows, given.flows, given.kind, given.expiry, strike);
}

static const struct {
    strip (*together)(size_t);
    price (*alone)(uint64_t);
} entries[] = {{dated, dated_alone}, {of_kind, kind_alone}, {shelf_dated, shelf_dated_alone}, {shelf_of_kind, shelf_kind_alone}};

static bool placed(const strip *s, size_t k, uint64_t number, uint64_t value, uint64_t bound) {
    return s->numbers[k] == number && s->values[k] == value && s->bounds[k] == bound;
}

static bool zeros(const strip *s, size_t from) {
    for (size_t k = from; k < STRIKES; k++)
        if (!placed(s, k, 0, 0, 0)) return false;
    return true;
}

static bool refused(strip s, uint64_t number) { return s.number == number && zeros(&s, 0); }

/* The strip of the first so many strikes is, place for place, what each of them alone gives. */
static bool as_alone(size_t entry, size_t count) {
    const strip s = entries[entry].together(count);
    for (size_t k = 0; k < count; k++) {
        const price p = entries[entry].alone(strikes[k]);
        if (!placed(&s, k, p.number, p.value, p.bound)) return false;
    }
    return s.number == 0 && zeros(&s, count);
}

/* All strips, of every length that is taken. */
static bool all_as_alone(void) {
    static const size_t counts[] = {1, 2, 15, 16};
    for (size_t entry = 0; entry < 4; entry++)
        for (size_t i = 0; i < 4; i++)
            if (!as_alone(entry, counts[i])) return false;
    return true;
}

/* Each place of a strip has this number. */
static bool every(strip s, size_t count, uint64_t number) {
    for (size_t k = 0; k < count; k++)
        if (!placed(&s, k, number, 0, 0)) return false;
    return s.number == 0 && zeros(&s, count);
}

/* A tree of nine steps under name 3, and the same discounts lent: puts on rows 2, 5 and 8, American puts up to 8. */
static void start(void) {
    static const uint64_t some[] = {ONE, 0, LIMIT + 1, ONE, 980000000, LIMIT, 1020000000};
    uint64_t rows[STEPS];
    uint8_t kinds[STEPS];
    double figures[STEPS];
    for (size_t i = 0; i < STEPS; i++) {
        rows[i] = i + 1;
        kinds[i] = MIXEGORTA_DISCOUNT_FACTOR;
        figures[i] = 1 - 0.02 * (double)(i + 1);
        flows[i] = i + 1 < STEPS ? 50000000 : ONE + 50000000;
    }
    for (size_t k = 0; k < MORE; k++) strikes[k] = some[k % 7];
    const struct mixegorta_shelved asked = mixegorta_shelf_ask(mixegorta_empty_shelf(), memory, 3, STEPS, 0);
    const struct mixegorta_shelved fitted =
        mixegorta_shelf_commit(asked.shelf, memory, 3, 1, 3000, rows, STEPS, kinds, STEPS, figures, STEPS);
    CHECK(asked.number == 0 && fitted.number == 0);
    shelf = fitted.shelf;
    name = 3;
    memcpy(discounts, memory, sizeof discounts);
    for (uint8_t i = 0; i < 3; i++) dates[i] = (uint8_t)(3 * i + 2);
    given.steps = given.flows = STEPS;
    given.reversion = 0;
    given.side = MIXEGORTA_PUT;
    given.kind = MIXEGORTA_AMERICAN_PUT;
    given.dates = 3;
    given.expiry = STEPS - 1;
}

/* On 1.1 eight times a put at 4 x one passes 8 x one, at 3 x one and at one it does not. */
static void by_hand(void) {
    static const uint64_t struck[] = {4 * ONE, 3 * ONE, 4 * ONE, ONE};
    start();
    for (size_t i = 0; i < NODES; i++) discounts[i] = MIXEGORTA_MAX_NODE_DISCOUNT;
    memset(flows, 0, sizeof flows);
    memcpy(strikes, struck, sizeof struck);
    dates[0] = 8;
    given.dates = 1;
    given.kind = MIXEGORTA_EUROPEAN_PUT;
    const strip found[] = {dated(4), of_kind(4)};
    for (size_t i = 0; i < 2; i++) {
        CHECK(found[i].number == 0 && zeros(&found[i], 4));
        CHECK(placed(&found[i], 0, 12, 0, 0) && placed(&found[i], 1, 0, UINT64_C(6430766430), 33));
        CHECK(placed(&found[i], 2, 12, 0, 0) && placed(&found[i], 3, 0, UINT64_C(2143588810), 33));
    }
}

static void single_calls(void) {
    start();
    const strip s = dated(STRIKES);
    CHECK(s.numbers[2] == 11 && s.numbers[0] == 0 && s.values[0] == s.values[3] && s.values[5] > s.values[6] && s.bounds[0] == s.bounds[6]);
    CHECK(all_as_alone());
    given.side = MIXEGORTA_CALL;
    for (given.kind = 0; given.kind <= 5; given.kind++) CHECK(all_as_alone());
    given.side = given.kind = (UINT64_C(1) << 32) + 1;
    CHECK(all_as_alone() && every(dated(2), 2, 11) && every(shelf_of_kind(2), 2, 11));
}

/* 11 by a strike stands in its place alone, also where the list is bad; an expiry at row n is 11 everywhere. */
static void bad_lists(void) {
    start();
    dates[2] = STEPS;
    CHECK(all_as_alone() && dated(3).numbers[0] == 13 && dated(3).numbers[2] == 11 && shelf_dated(3).numbers[1] == 13);
    given.dates = 0;
    given.expiry = STEPS;
    CHECK(all_as_alone() && dated(2).numbers[1] == 13 && every(of_kind(STRIKES), STRIKES, 11));
}

/* Causes of the tree's own numbers stand in every answer; 12 of the bond in every one that is not 11 or 13. */
static void shared_causes(void) {
    start();
    given.flows = STEPS - 1;
    CHECK(all_as_alone() && every(dated(16), 16, 6) && every(shelf_dated(16), 16, 6));
    start();
    discounts[NODES - 1] = 0;
    CHECK(all_as_alone() && every(of_kind(15), 15, 9));
    start();
    flows[4] = MIXEGORTA_MAX_FLOW + 1;
    CHECK(all_as_alone() && every(dated(1), 1, 10) && every(shelf_of_kind(2), 2, 10));
    start();
    for (size_t i = 0; i < STEPS; i++) flows[i] = MIXEGORTA_MAX_FLOW;
    CHECK(all_as_alone() && dated(4).numbers[1] == 12 && dated(4).numbers[2] == 11 && shelf_dated(4).numbers[3] == 12);
    given.dates = 0;
    CHECK(all_as_alone() && dated(4).numbers[1] == 13 && dated(4).numbers[2] == 11);
}

/* 3, 4, then the number of strikes; on a shelf 15, then that number; whatever the list is. */
static void own_causes(void) {
    static const size_t wrong[] = {0, MORE}, names[] = {0, 1, 9, 256 + 3, SIZE_MAX};
    start();
    given.dates = 0;
    for (size_t i = 0; i < 2; i++) {
        CHECK(refused(dated(wrong[i]), 6) && refused(of_kind(wrong[i]), 6));
        CHECK(refused(shelf_dated(wrong[i]), 6) && refused(shelf_of_kind(wrong[i]), 6));
    }
    for (size_t i = 0; i < 5; i++) {
        name = names[i];
        CHECK(refused(shelf_dated(0), 15) && refused(shelf_dated(1), 15) && refused(shelf_of_kind(MORE), 15) && refused(shelf_of_kind(2), 15));
    }
    given.reversion = MIXEGORTA_MAX_REVERSION + 1;
    CHECK(refused(dated(0), 4) && refused(of_kind(MORE), 4) && refused(dated(1), 4));
    given.steps = 0;
    CHECK(refused(dated(0), 3) && refused(of_kind(MORE), 3) && refused(dated(1), 3));
    given.steps = 61;
    CHECK(refused(dated(MORE), 3) && refused(of_kind(1), 3));
}

/* A tree that awaits its commit is 9 in each place, after 6; the bound of a fitted one is its slot's, a refused place's is 0. */
static void shelved(void) {
    start();
    shelf.slots[2].bound = 777;
    const strip s = shelf_dated(3);
    CHECK(s.bounds[0] == 777 && s.bounds[1] == 777 && placed(&s, 2, 11, 0, 0));
    CHECK(as_alone(2, STRIKES) && as_alone(3, STRIKES));
    const struct mixegorta_shelved asked = mixegorta_shelf_ask(shelf, memory, 4, STEPS, 0);
    shelf = asked.shelf;
    name = 4;
    CHECK(asked.number == 0 && every(shelf_dated(3), 3, 9) && every(shelf_of_kind(16), 16, 9) && refused(shelf_dated(0), 6));
    given.flows = 0;
    CHECK(every(shelf_dated(3), 3, 6));
    shelf.slots[7].status = 3;
    CHECK(refused(shelf_dated(3), 15) && refused(shelf_of_kind(0), 15));
}

int main(void) {
    by_hand();
    single_calls();
    bad_lists();
    shared_causes();
    own_causes();
    shelved();
    printf("C: %u checks of strips, %u failed\n", checks, failures);
    return failures != 0;
}
