/* Requests (vii) and (viii) of document 02 through the C header: which calls of a shelf are accepted, which cause comes first, what each call leaves as
 * it was, and what a slot carries. Then shelves that no calls lead to. Exit status 1 where a check fails. */
#include "mixegorta.h"

#include <stdbool.h>
#include <stdio.h>
#include <string.h>

#define ONE MIXEGORTA_ONE
#define ROOM MIXEGORTA_SHELF_ROOM

static unsigned checks, failures;

static void check(bool holds, int line, const char *text) {
    checks++;
    if (!holds) {
        failures++;
        printf("shelf.c:%d: not so: %s\n", line, text);
    }
}

#define CHECK(condition) check((condition), __LINE__, #condition)

enum { SPARE = 4, QUOTES = MIXEGORTA_MAX_STEPS };

/* A shelf and its memory, between numbers that no call may write. */
struct desk {
    struct mixegorta_shelf shelf;
    uint64_t front[SPARE], memory[ROOM], behind[SPARE];
};

static struct desk desk, old;
static bool altered; /* whether somebody has written the desk between calls */
static uint64_t rows[QUOTES];
static uint8_t kinds[QUOTES];
static double figures[QUOTES];

static uint64_t pattern(size_t i) { return 0xA5A5000000000000u + i; }

/* The empty shelf beside a memory full of other numbers. */
static void start(void) {
    altered = false;
    desk.shelf = mixegorta_empty_shelf();
    for (size_t i = 0; i < SPARE; i++) desk.front[i] = desk.behind[i] = pattern(i);
    for (size_t i = 0; i < ROOM; i++) desk.memory[i] = pattern(i);
}

/* Quotes of rows 1 to QUOTES: discount factors that fall by the same part. */
static void falling_curve(double part) {
    double factor = 1;
    for (size_t i = 0; i < QUOTES; i++) {
        factor *= part;
        rows[i] = i + 1;
        kinds[i] = MIXEGORTA_DISCOUNT_FACTOR;
        figures[i] = factor;
    }
}

static bool same_slot(const struct mixegorta_slot *a, const struct mixegorta_slot *b) {
    return a->status == b->status && a->steps == b->steps && a->reversion == b->reversion && a->bound == b->bound &&
           memcmp(a->greatest, b->greatest, sizeof a->greatest) == 0;
}

static bool same_shelf(const struct mixegorta_shelf *a, const struct mixegorta_shelf *b) {
    for (size_t i = 0; i < MIXEGORTA_MAX_NAME; i++)
        if (!same_slot(&a->slots[i], &b->slots[i])) return false;
    return true;
}

/* Whether a name has the same tree with the same discounts on both desks. */
static bool same_tree(size_t name, const struct desk *a, const struct desk *b) {
    const struct mixegorta_part x = mixegorta_shelf_part(a->shelf, name), y = mixegorta_shelf_part(b->shelf, name);
    return same_slot(&a->shelf.slots[name - 1], &b->shelf.slots[name - 1]) && x.count == y.count &&
           memcmp(a->memory + x.start, b->memory + y.start, x.count * sizeof a->memory[0]) == 0;
}

/* Whether the slot of a name carries what the rule gives for the tree's discounts, by a walk over its rows; zeros where it is not fitted. */
static bool carries_its_own(size_t name) {
    const struct mixegorta_slot slot = desk.shelf.slots[name - 1];
    const struct mixegorta_part part = mixegorta_shelf_part(desk.shelf, name);
    uint64_t greatest[MIXEGORTA_MAX_STEPS] = {0}, bound = 0;
    for (size_t row = slot.status == MIXEGORTA_FITTED ? slot.steps : 0; row-- > 0;) {
        const size_t first = part.start + mixegorta_row_start(slot.reversion, row).value;
        for (size_t i = 0; i < mixegorta_node_count(slot.reversion, row).value; i++)
            if (desk.memory[first + i] > greatest[row]) greatest[row] = desk.memory[first + i];
        bound = (greatest[row] * bound + ONE - 1) / ONE + 2;
    }
    return slot.bound == bound && memcmp(slot.greatest, greatest, sizeof greatest) == 0;
}

/* What every call keeps to: all of it where it is refused, every other name where not, what stands around the memory, and what slots carry. */
static uint64_t kept_to(struct mixegorta_shelved after, size_t name) {
    desk.shelf = after.shelf;
    CHECK(memcmp(desk.front, old.front, sizeof old.front) == 0 && memcmp(desk.behind, old.behind, sizeof old.behind) == 0);
    if (after.number != 0) CHECK(same_shelf(&desk.shelf, &old.shelf) && memcmp(desk.memory, old.memory, sizeof old.memory) == 0);
    for (size_t other = 1; other <= MIXEGORTA_MAX_NAME; other++)
        if (other != name) CHECK(same_tree(other, &desk, &old));
    for (size_t each = 1; each <= MIXEGORTA_MAX_NAME; each++)
        if (!altered) CHECK(carries_its_own(each));
    return after.number;
}

static uint64_t ask(size_t name, size_t steps, uint64_t reversion) {
    old = desk;
    return kept_to(mixegorta_shelf_ask(desk.shelf, desk.memory, name, steps, reversion), name);
}

static uint64_t commit(size_t name, uint64_t frequency, uint64_t volatility, size_t quotes) {
    old = desk;
    return kept_to(mixegorta_shelf_commit(desk.shelf, desk.memory, name, frequency, volatility, rows, quotes, kinds, quotes, figures,
                                          quotes),
                   name);
}

static uint64_t release(size_t name) {
    old = desk;
    return kept_to(mixegorta_shelf_release(desk.shelf, desk.memory, name), name);
}

static uint64_t status(size_t name) { return desk.shelf.slots[name - 1].status; }

static bool placed(size_t name, size_t start, size_t count) {
    const struct mixegorta_part part = mixegorta_shelf_part(desk.shelf, name);
    return part.start == start && part.count == count;
}

static bool all_zeros(size_t name) {
    const struct mixegorta_part part = mixegorta_shelf_part(desk.shelf, name);
    for (size_t i = 0; i < part.count; i++)
        if (desk.memory[part.start + i] != 0) return false;
    return part.count != 0;
}

static bool same_price(struct mixegorta_price a, struct mixegorta_price b) {
    return a.number == b.number && a.value == b.value && a.bound == b.bound;
}

static bool unpriced(struct mixegorta_price p, uint64_t number) { return p.number == number && p.value == 0 && p.bound == 0; }

/* The five prices of a name refused with one number, shelf and memory as they were. */
static bool all_unpriced(size_t name, const uint64_t *flows, size_t count, uint64_t number) {
    const uint8_t dates[] = {0, 1};
    old = desk;
    const struct mixegorta_bond_and_option_prices both =
        mixegorta_shelf_bond_and_option(desk.shelf, desk.memory, name, flows, count, MIXEGORTA_AMERICAN_CALL, 1, ONE);
    const struct mixegorta_bond_and_option_prices listed =
        mixegorta_shelf_bond_and_dated_option(desk.shelf, desk.memory, name, flows, count, MIXEGORTA_PUT, dates, 2, ONE);
    return unpriced(mixegorta_shelf_bond_price(desk.shelf, desk.memory, name, flows, count), number) &&
           unpriced(mixegorta_shelf_option_price(desk.shelf, desk.memory, name, flows, count, MIXEGORTA_AMERICAN_CALL, 1, ONE), number) &&
           unpriced(mixegorta_shelf_dated_option_price(desk.shelf, desk.memory, name, flows, count, MIXEGORTA_PUT, dates, 2, ONE), number) &&
           unpriced(both.bond, number) && unpriced(both.option, number) && unpriced(listed.bond, number) && unpriced(listed.option, number) &&
           same_shelf(&desk.shelf, &old.shelf) && memcmp(desk.memory, old.memory, sizeof old.memory) == 0;
}

static const struct mixegorta_slot no_tree = {MIXEGORTA_NO_TREE, 0, 0, 0, {0}};

static const size_t outside[] = {0, 9, 258, 65538, (size_t)UINT32_MAX + 3, SIZE_MAX};
enum { OUTSIDE = sizeof outside / sizeof outside[0] };

/* A fitted tree of two steps under 2, and one that awaits its commit under 5. */
static void two_trees(void) {
    start();
    falling_curve(0.97);
    CHECK(ask(2, 2, 0) == 0 && ask(5, 2, 0) == 0 && commit(2, 1, 10000, 2) == 0);
    CHECK(status(2) == MIXEGORTA_FITTED && status(5) == MIXEGORTA_AWAITING && status(1) == MIXEGORTA_NO_TREE);
    CHECK(placed(2, 0, 4) && placed(5, 4, 4) && placed(1, 0, 0) && placed(0, 0, 0) && placed(9, 0, 0) && placed(SIZE_MAX, 0, 0));
}

static void empty(void) {
    const struct mixegorta_shelf shelf = mixegorta_empty_shelf();
    start();
    for (size_t i = 0; i < MIXEGORTA_MAX_NAME; i++)
        CHECK(same_slot(&shelf.slots[i], &no_tree));
    for (size_t name = 1; name <= MIXEGORTA_MAX_NAME; name++) CHECK(placed(name, 0, 0) && release(name) == 15);
}

static void askings(void) {
    two_trees();
    for (size_t i = 0; i < OUTSIDE; i++) CHECK(ask(outside[i], 61, 6001) == 15);
    CHECK(ask(2, 61, 6001) == 15);
    CHECK(ask(5, 2, 0) == 15);
    CHECK(ask(1, 0, 6001) == 3);
    CHECK(ask(1, 61, 6001) == 3);
    CHECK(ask(1, (size_t)UINT32_MAX + 3, 0) == 3);
    CHECK(ask(1, 60, 6001) == 4);
    CHECK(ask(1, 60, (UINT64_C(1) << 32) + 500) == 4);
    CHECK(ask(1, 60, 0) == 14);
    CHECK(ask(1, 3, 1000) == 0 && all_zeros(1));
    CHECK(placed(1, 0, 9) && placed(2, 9, 4) && placed(5, 13, 4)); /* the others have moved */
}

static void commits(void) {
    two_trees();
    CHECK(ask(1, 13, 0) == 0);
    for (size_t i = 0; i < OUTSIDE; i++) CHECK(commit(outside[i], 3, 50001, 0) == 15);
    CHECK(commit(3, 3, 50001, 0) == 15);
    CHECK(commit(2, 1, 10000, 2) == 15); /* fitted already */
    figures[4] = 97;
    CHECK(commit(1, 3, 50001, 2) == 2);
    CHECK(commit(1, 1, 50001, 2) == 5);
    CHECK(commit(1, 1, 50000, 2) == 6);
    CHECK(commit(1, 1, 50000, 14) == 6);
    CHECK(commit(1, 1, 50000, 13) == 7);
    figures[4] = 1.5;
    CHECK(commit(1, 1, 50000, 13) == 8);
    CHECK(commit(1, 1, 10000, 13) == 9);
    CHECK(status(1) == MIXEGORTA_AWAITING && all_zeros(1));
    falling_curve(0.97);
    CHECK(commit(1, 1, 1000, 13) == 0 && status(1) == MIXEGORTA_FITTED);
    CHECK(commit(1, 1, 1000, 13) == 15);
    CHECK(release(1) == 0 && commit(1, 1, 1000, 13) == 15);
}

/* Lengths of the three slices of quotes that differ. */
static void lengths(void) {
    two_trees();
    for (size_t k = 0; k < 3; k++) {
        const size_t count[] = {k == 0 ? 3 : 2, k == 1 ? 3 : 2, k == 2 ? 3 : 2};
        old = desk;
        CHECK(kept_to(mixegorta_shelf_commit(desk.shelf, desk.memory, 5, 1, 0, rows, count[0], kinds, count[1], figures, count[2]), 5) == 6);
    }
    old = desk;
    CHECK(kept_to(mixegorta_shelf_commit(desk.shelf, desk.memory, 5, 1, 0, NULL, 0, NULL, 0, NULL, 0), 5) == 6);
}

static void prices(void) {
    const uint64_t flows[] = {0, 3 * ONE, 0};
    two_trees();
    for (size_t i = 0; i < OUTSIDE; i++) CHECK(all_unpriced(outside[i], flows, 3, 15));
    CHECK(all_unpriced(1, flows, 3, 15));
    CHECK(all_unpriced(5, flows, 3, 6) && all_unpriced(5, flows, 1, 6) && all_unpriced(5, NULL, 0, 6));
    CHECK(all_unpriced(5, flows, 2, 9));
    CHECK(all_unpriced(2, flows, 3, 6));
    CHECK(all_unpriced(2, flows, 2, 10));
    const uint64_t one[] = {0, ONE};
    const uint8_t dates[] = {1, 1};
    const uint64_t kind = MIXEGORTA_EUROPEAN_PUT, side = MIXEGORTA_CALL;
    CHECK(unpriced(mixegorta_shelf_option_price(desk.shelf, desk.memory, 2, one, 2, kind, 2, ONE), 11));
    CHECK(unpriced(mixegorta_shelf_dated_option_price(desk.shelf, desk.memory, 2, one, 2, side, dates, 2, 4 * ONE + 1), 11));
    CHECK(unpriced(mixegorta_shelf_dated_option_price(desk.shelf, desk.memory, 2, one, 2, side, dates, 2, ONE), 13));
    CHECK(mixegorta_shelf_bond_and_option(desk.shelf, desk.memory, 2, one, 2, kind, 2, ONE).bond.number == 0);
}

/* The prices of a tree that has moved are those of the plain functions on its discounts, copied out, and these are a fit's. */
static void same_prices(void) {
    static uint64_t copied[ROOM], fitted[ROOM], state_prices[MIXEGORTA_MAX_STATE_PRICES];
    const uint8_t dates[] = {2, 5, 9};
    uint64_t flows[12];
    two_trees();
    falling_curve(0.985);
    CHECK(ask(3, 12, 700) == 0 && commit(3, 2, 8000, 12) == 0 && ask(1, 40, 0) == 0 && release(2) == 0);
    const struct mixegorta_part part = mixegorta_shelf_part(desk.shelf, 3);
    memcpy(copied, desk.memory + part.start, part.count * sizeof copied[0]);
    CHECK(mixegorta_fit(2, 12, 700, 8000, rows, 12, kinds, 12, figures, 12, fitted, ROOM, state_prices, MIXEGORTA_MAX_STATE_PRICES) == 0);
    CHECK(part.count == mixegorta_discounts_needed(12, 700).value && memcmp(copied, fitted, part.count * sizeof copied[0]) == 0);
    for (size_t i = 0; i < 12; i++) flows[i] = i < 11 ? 20000000 : 20000000 + ONE;
    const struct mixegorta_price bond = mixegorta_shelf_bond_price(desk.shelf, desk.memory, 3, flows, 12);
    CHECK(bond.number == 0 && same_price(bond, mixegorta_bond_price(12, 700, copied, part.count, flows, 12)));
    for (uint64_t kind = 1; kind <= 4; kind++) {
        const struct mixegorta_price option = mixegorta_shelf_option_price(desk.shelf, desk.memory, 3, flows, 12, kind, 9, ONE);
        CHECK(option.number == 0 && same_price(option, mixegorta_option_price(12, 700, copied, part.count, flows, 12, kind, 9, ONE)));
        const struct mixegorta_bond_and_option_prices both =
            mixegorta_shelf_bond_and_option(desk.shelf, desk.memory, 3, flows, 12, kind, 9, ONE);
        CHECK(same_price(both.bond, bond) && same_price(both.option, option));
    }
    for (uint64_t side = 1; side <= 2; side++) {
        const struct mixegorta_price option = mixegorta_shelf_dated_option_price(desk.shelf, desk.memory, 3, flows, 12, side, dates, 3, ONE);
        CHECK(option.number == 0 && same_price(option, mixegorta_dated_option_price(12, 700, copied, part.count, flows, 12, side, dates, 3, ONE)));
        const struct mixegorta_bond_and_option_prices both =
            mixegorta_shelf_bond_and_dated_option(desk.shelf, desk.memory, 3, flows, 12, side, dates, 3, ONE);
        CHECK(same_price(both.bond, bond) && same_price(both.option, option));
    }
}

/* A fitted slot carries the answer of mixegorta_tree_bounds, refused commits leave zeros, and a release every field 0, so that an asking begins anew. */
static void carried(void) {
    const struct mixegorta_slot asked = {MIXEGORTA_AWAITING, 12, 700, 0, {0}};
    start();
    falling_curve(1.01);
    CHECK(ask(4, 12, 700) == 0 && ask(6, 60, 3000) == 0 && same_slot(&desk.shelf.slots[3], &asked));
    figures[5] = 1.6;
    CHECK(commit(4, 1, 8000, 12) == 9 && same_slot(&desk.shelf.slots[3], &asked));
    CHECK(commit(4, 1, 50001, 12) == 5 && same_slot(&desk.shelf.slots[3], &asked));
    falling_curve(1.01);
    CHECK(commit(4, 1, 8000, 12) == 0 && commit(6, 12, 1000, 60) == 0);
    for (size_t name = 4; name <= 6; name += 2) {
        const struct mixegorta_slot slot = desk.shelf.slots[name - 1];
        const struct mixegorta_part part = mixegorta_shelf_part(desk.shelf, name);
        const struct mixegorta_tree_error_bounds known = mixegorta_tree_bounds(slot.steps, slot.reversion, desk.memory + part.start, part.count);
        CHECK(known.number == 0 && slot.bound == known.bound && memcmp(slot.greatest, known.greatest, sizeof known.greatest) == 0);
        CHECK(slot.bound > 2 * slot.steps && slot.greatest[0] > ONE && slot.greatest[slot.steps - 1] > ONE);
        for (size_t row = slot.steps; row < MIXEGORTA_MAX_STEPS; row++) CHECK(slot.greatest[row] == 0);
    }
    CHECK(release(4) == 0 && same_slot(&desk.shelf.slots[3], &no_tree));
    CHECK(ask(4, 12, 700) == 0 && same_slot(&desk.shelf.slots[3], &asked) && release(4) == 0);
    falling_curve(0.97);
    CHECK(ask(4, 3, 0) == 0 && commit(4, 1, 0, 3) == 0 && desk.shelf.slots[3].bound == 6 && desk.shelf.slots[3].greatest[3] == 0);
}

/* 60 steps without reversion have 3,600 nodes; so have 48 and 36 together. */
static void whole_rooms(void) {
    start();
    CHECK(ask(8, 60, 0) == 0 && placed(8, 0, ROOM) && all_zeros(8));
    for (size_t name = 1; name < 8; name++) CHECK(ask(name, 1, 0) == 14);
    falling_curve(0.998);
    CHECK(commit(8, 12, 1000, 60) == 0 && release(8) == 0);
    CHECK(ask(3, 48, 0) == 0 && ask(1, 36, 0) == 0 && placed(1, 0, 1296) && placed(3, 1296, 2304));
    CHECK(ask(2, 1, 6000) == 14);
    CHECK(release(1) == 0 && ask(1, 37, 0) == 14 && ask(2, 36, 0) == 0);
}

/* Old discounts, and whatever stood in the memory at first, are in no new tree. */
static void new_trees(void) {
    start();
    falling_curve(0.99);
    for (size_t name = 8; name >= 1; name--) CHECK(ask(name, 12, 0) == 0 && all_zeros(name) && commit(name, 4, 1000, 12) == 0);
    for (size_t name = 2; name <= 8; name += 3) CHECK(release(name) == 0);
    CHECK(ask(8, 20, 0) == 0 && all_zeros(8) && placed(8, 5 * 144, 400));
    CHECK(ask(2, 30, 0) == 0 && all_zeros(2) && placed(2, 144, 900) && placed(8, 5 * 144 + 900, 400));
    CHECK(release(8) == 0 && ask(5, 44, 0) == 0 && all_zeros(5)); /* 720 and 900 and 1,936 are 3,556 */
    CHECK(ask(8, 7, 0) == 14 && ask(8, 6, 0) == 0 && all_zeros(8));
}

/* Every call on a shelf that no calls lead to is refused with 15, whatever the name, and leaves it as it was. */
static void all_refused(void) {
    const uint64_t flows[] = {0, ONE};
    for (size_t name = 0; name <= MIXEGORTA_MAX_NAME + 1; name++) {
        CHECK(ask(name, 1, 0) == 15 && ask(name, 61, 6001) == 15);
        CHECK(commit(name, 1, 0, 2) == 15);
        CHECK(release(name) == 15);
        CHECK(all_unpriced(name, flows, 2, 15) && placed(name, 0, 0));
    }
}

#define SLOT(status, steps, reversion) {status, steps, reversion, 4, {ONE, ONE}}

static void altered_shelves(void) {
    const struct mixegorta_slot broken[] = {SLOT(3, 2, 0), SLOT(UINT64_MAX, 2, 0), SLOT((UINT64_C(1) << 32) + 1, 2, 0), SLOT(1, 70, 0),
                                            SLOT(2, 70, 0), SLOT(1, 0, 0), SLOT(2, SIZE_MAX, 0), SLOT(2, 2, 6001), SLOT(1, 2, UINT64_MAX)};
    for (size_t i = 0; i < sizeof broken / sizeof broken[0]; i++) {
        two_trees();
        altered = true;
        desk.shelf.slots[6] = broken[i];
        all_refused();
    }
    two_trees();
    altered = true;
    desk.shelf.slots[7] = (struct mixegorta_slot)SLOT(1, 60, 0); /* 3,608 nodes */
    all_refused();
    for (size_t i = 0; i < MIXEGORTA_MAX_NAME; i++) desk.shelf.slots[i] = (struct mixegorta_slot)SLOT(2, 60, 0);
    all_refused();
}

/* A price answers the bound of its slot as it stands, and no call repairs another name's. A commit and a release write a slot whole. */
static void altered_bounds(void) {
    const uint64_t flows[] = {0, ONE}, bounds[] = {0, 3, 5, UINT64_MAX};
    const uint8_t dates[] = {0, 1};
    two_trees();
    altered = true;
    const uint64_t value = mixegorta_shelf_bond_price(desk.shelf, desk.memory, 2, flows, 2).value;
    for (size_t i = 0; i < sizeof bounds / sizeof bounds[0]; i++) {
        desk.shelf.slots[1].bound = bounds[i];
        desk.shelf.slots[1].greatest[0] = desk.shelf.slots[1].greatest[59] = UINT64_MAX;
        const struct mixegorta_price bond = mixegorta_shelf_bond_price(desk.shelf, desk.memory, 2, flows, 2);
        const struct mixegorta_bond_and_option_prices
            both = mixegorta_shelf_bond_and_option(desk.shelf, desk.memory, 2, flows, 2, MIXEGORTA_AMERICAN_CALL, 1, ONE),
            listed = mixegorta_shelf_bond_and_dated_option(desk.shelf, desk.memory, 2, flows, 2, MIXEGORTA_PUT, dates, 2, ONE);
        CHECK(same_price(bond, (struct mixegorta_price){0, value, bounds[i]}) && same_price(both.bond, bond) && same_price(listed.bond, bond));
        CHECK(both.option.bound == bounds[i] && listed.option.bound == bounds[i]);
        CHECK(mixegorta_shelf_option_price(desk.shelf, desk.memory, 2, flows, 2, MIXEGORTA_AMERICAN_CALL, 1, ONE).bound == bounds[i]);
        CHECK(mixegorta_shelf_dated_option_price(desk.shelf, desk.memory, 2, flows, 2, MIXEGORTA_PUT, dates, 2, ONE).bound == bounds[i]);
        CHECK(all_unpriced(2, flows, 1, 6)); /* a refusal has no bound, whatever the slot says */
    }
    desk.shelf.slots[4].bound = desk.shelf.slots[4].greatest[7] = 99;
    desk.shelf.slots[0].bound = desk.shelf.slots[0].greatest[7] = 99;
    CHECK(commit(5, 1, 0, 2) == 0 && carries_its_own(5) && !carries_its_own(2));
    CHECK(ask(1, 2, 0) == 0 && carries_its_own(1) && release(2) == 0 && same_slot(&desk.shelf.slots[1], &no_tree));
}

/* An altered memory under whole slots: lent discounts as any others. */
static void altered_memories(void) {
    const uint64_t flows[] = {0, ONE};
    two_trees();
    altered = true;
    memset(desk.memory, 0, 4 * sizeof desk.memory[0]);
    CHECK(all_unpriced(2, flows, 2, 9));
    for (size_t i = 0; i < 8; i++) desk.memory[i] = ONE;
    CHECK(same_price(mixegorta_shelf_bond_price(desk.shelf, desk.memory, 5, flows, 2), (struct mixegorta_price){0, ONE, 0}));
    figures[1] = 1.5;
    const struct mixegorta_shelved after =
        mixegorta_shelf_commit(desk.shelf, desk.memory, 5, 1, 0, rows, 2, kinds, 2, figures, 2);
    CHECK(after.number == 9 && same_shelf(&after.shelf, &desk.shelf) && all_zeros(5) && desk.memory[3] == ONE);
    desk.shelf.slots[0] = (struct mixegorta_slot)SLOT(0, 70, 9999); /* no tree, whatever else it says */
    CHECK(placed(2, 0, 4) && ask(1, 1, 0) == 0 && placed(2, 1, 4));
}

int main(void) {
    empty();
    askings();
    commits();
    lengths();
    prices();
    same_prices();
    carried();
    whole_rooms();
    new_trees();
    altered_shelves();
    altered_bounds();
    altered_memories();
    printf("C: %u checks of the shelf, %u failed\n", checks, failures);
    return failures != 0;
}
