/* The library against plain C, and against QuantLib where it is there: the same work, taken in turn, medians of many turns. */
#define _POSIX_C_SOURCE 200809L
#include "../c/mixegorta.h"
#include "plain.h"
#include "plain_bands.h"
#include "plain_double.h"
#include "plain_job.h"
#include "plain_pair.h"
#include "plain_sheet.h"
#include <math.h>
#include <stdio.h>
#include <stdlib.h>
#include <string.h>
#include <time.h>

#define ONE 1000000000u
#define MOST_STEPS 60
#define MOST_DISCOUNTS 3600
#define MOST_PRICES 3721
#define MOST_DATES 256
#define MOST_TURNS 1001
#define CURVES 2000

/* Version 0 is the fit that takes none. */
struct work {
    uint64_t version, working, f, b, s, kind, side, strike;
    size_t n, expiry, dates_count, strikes_count;
    uint64_t strikes[PLAIN_STRIKES + 1];
    uint64_t rows[MOST_STEPS], flows[MOST_STEPS];
    uint8_t kinds[MOST_STEPS], dates[MOST_DATES];
    double figures[MOST_STEPS];
};

struct result {
    uint64_t number, discounts[MOST_DISCOUNTS], prices[MOST_PRICES];
    struct plain_price bond, option, dated;
    struct plain_prices both, both_dated;
    struct plain_strip strip, dated_strip;
};

enum part { FIT = 1, BOND = 2, OPTION = 4, BOTH = 8, DATED = 16, BOTH_DATED = 32, STRIP = 64, DATED_STRIP = 128, WHOLE_JOB = FIT | BOTH, ALL = 255 };

static struct plain_price of_library(struct mixegorta_price p)
{
    const struct plain_price out = {p.number, p.value, p.bound};
    return out;
}

static struct plain_prices both_of_library(struct mixegorta_bond_and_option_prices both)
{
    const struct plain_prices out = {of_library(both.bond), of_library(both.option)};
    return out;
}

static struct plain_strip strip_of_library(struct mixegorta_strip s)
{
    struct plain_strip out = {.number = s.number};
    memcpy(out.numbers, s.numbers, sizeof s.numbers);
    memcpy(out.values, s.values, sizeof s.values);
    memcpy(out.bounds, s.bounds, sizeof s.bounds);
    return out;
}

static void strips_by_library(const struct work *w, struct result *r, int parts)
{
    if (parts & STRIP)
        r->strip = strip_of_library(mixegorta_option_strip_of_kind(w->n, w->working, r->discounts, MOST_DISCOUNTS, w->flows, w->n, w->kind,
                                                                   w->expiry, w->strikes, w->strikes_count));
    if (parts & DATED_STRIP)
        r->dated_strip = strip_of_library(mixegorta_option_strip(w->n, w->working, r->discounts, MOST_DISCOUNTS, w->flows, w->n, w->side, w->dates,
                                                                 w->dates_count, w->strikes, w->strikes_count));
}

static void by_library(const struct work *w, struct result *r, int parts)
{
    if (parts & FIT && w->version)
        r->number = mixegorta_fit_version(w->version, w->f, w->n, w->b, w->s, w->rows, w->n, w->kinds, w->n, w->figures, w->n, r->discounts,
                                          MOST_DISCOUNTS, r->prices, MOST_PRICES);
    else if (parts & FIT)
        r->number = mixegorta_fit(w->f, w->n, w->b, w->s, w->rows, w->n, w->kinds, w->n, w->figures, w->n, r->discounts, MOST_DISCOUNTS,
                                  r->prices, MOST_PRICES);
    if (parts & BOND)
        r->bond = of_library(mixegorta_bond_price(w->n, w->working, r->discounts, MOST_DISCOUNTS, w->flows, w->n));
    if (parts & OPTION)
        r->option = of_library(mixegorta_option_price(w->n, w->working, r->discounts, MOST_DISCOUNTS, w->flows, w->n, w->kind, w->expiry, w->strike));
    if (parts & BOTH)
        r->both = both_of_library(
            mixegorta_bond_and_option(w->n, w->working, r->discounts, MOST_DISCOUNTS, w->flows, w->n, w->kind, w->expiry, w->strike));
    if (parts & DATED)
        r->dated = of_library(mixegorta_dated_option_price(w->n, w->working, r->discounts, MOST_DISCOUNTS, w->flows, w->n, w->side, w->dates,
                                                           w->dates_count, w->strike));
    if (parts & BOTH_DATED)
        r->both_dated = both_of_library(mixegorta_bond_and_dated_option(w->n, w->working, r->discounts, MOST_DISCOUNTS, w->flows, w->n, w->side,
                                                                        w->dates, w->dates_count, w->strike));
    strips_by_library(w, r, parts);
}

static void by_plain_c(const struct work *w, struct result *r, int parts)
{
    if (parts & FIT && w->version)
        r->number = plain_fit_version(w->version, w->f, w->n, w->b, w->s, w->rows, w->kinds, w->figures, r->discounts, r->prices);
    else if (parts & FIT)
        r->number = plain_fit(w->f, w->n, w->b, w->s, w->rows, w->kinds, w->figures, r->discounts, r->prices);
    if (parts & BOND)
        r->bond = plain_bond(w->n, w->working, r->discounts, w->flows);
    if (parts & OPTION)
        r->option = plain_option(w->n, w->working, r->discounts, w->flows, w->kind, w->expiry, w->strike);
    if (parts & BOTH)
        r->both = plain_bond_and_option(w->n, w->working, r->discounts, w->flows, w->kind, w->expiry, w->strike);
    if (parts & DATED)
        r->dated = plain_dated_option(w->n, w->working, r->discounts, w->flows, w->side, w->dates, w->dates_count, w->strike);
    if (parts & BOTH_DATED)
        r->both_dated = plain_bond_and_dated_option(w->n, w->working, r->discounts, w->flows, w->side, w->dates, w->dates_count, w->strike);
    if (parts & STRIP)
        r->strip = plain_option_strip_of_kind(w->n, w->working, r->discounts, w->flows, w->kind, w->expiry, w->strikes, w->strikes_count);
    if (parts & DATED_STRIP)
        r->dated_strip = plain_option_strip(w->n, w->working, r->discounts, w->flows, w->side, w->dates, w->dates_count, w->strikes,
                                            w->strikes_count);
}

static double uniform(void)
{
    static uint64_t state = 20240229;
    state = state * 6364136223846793005u + 1442695040888963407u;
    return (double)(state >> 11) / 9007199254740992.0;
}

/* Exercise dates: every so many rows from a first one, up to the last. */
static void list_dates(struct work *w, size_t first, size_t every, size_t last)
{
    w->dates_count = 0;
    for (size_t row = first; row <= last; row += every)
        w->dates[w->dates_count++] = (uint8_t)row;
}

/* Monthly steps, a rising curve quoted as rates, a coupon bond, an American call on it, and a call of every third row to the same expiry; for strips
 * sixteen strikes, one percent of one apart, of which the seventh is the strike. */
static struct work work_of(size_t n, uint64_t b, double level, double slope)
{
    struct work w = {.working = b, .f = 12, .b = b, .s = 8000, .kind = 3, .side = 1, .strike = ONE, .n = n, .expiry = n - n / 5};
    list_dates(&w, w.expiry % 3, 3, w.expiry);
    w.strikes_count = PLAIN_STRIKES;
    for (size_t k = 0; k < PLAIN_STRIKES; k++)
        w.strikes[k] = ONE - 60000000 + 10000000 * k;
    for (size_t t = 1; t <= n; t++) {
        w.rows[t - 1] = t;
        w.kinds[t - 1] = 6;
        w.figures[t - 1] = level + slope * (double)t;
        w.flows[t - 1] = 3000000 + (t == n ? ONE : 0);
    }
    return w;
}

static int same_price(const struct plain_price *x, const struct plain_price *y)
{
    return x->number == y->number && x->value == y->value && x->bound == y->bound;
}

/* The strike of its price, where a strip has it. */
static int same_strike(const struct work *w, const struct result *r)
{
    for (size_t k = 0; k < w->strikes_count && !r->strip.number; k++) {
        const struct plain_price one = {r->strip.numbers[k], r->strip.values[k], r->strip.bounds[k]};
        const struct plain_price listed = {r->dated_strip.numbers[k], r->dated_strip.values[k], r->dated_strip.bounds[k]};
        if (w->strikes[k] == w->strike && (!same_price(&one, &r->option) || !same_price(&listed, &r->dated)))
            return 0;
    }
    return 1;
}

static int same_prices(const struct plain_price *bond, const struct plain_price *option, const struct plain_prices *both)
{
    return same_price(bond, &both->bond) && same_price(option, &both->option);
}

static void show(const char *name, const struct plain_price *p)
{
    fprintf(stderr, ", %s %llu %llu %llu", name, (unsigned long long)p->number, (unsigned long long)p->value, (unsigned long long)p->bound);
}

/* All that two workers write and answer, and both prices at once against each alone. */
static void must_be_equal(const struct work *w, const struct result *x, const struct result *y)
{
    if (memcmp(x, y, sizeof *x) == 0 && same_prices(&x->bond, &x->option, &x->both) && same_prices(&x->bond, &x->dated, &x->both_dated) &&
        same_strike(w, x))
        return;
    fprintf(stderr, "DIFFERENT at n = %zu, b = %llu", w->n, (unsigned long long)w->b);
    for (const struct result *r = x; r; r = r == x ? y : NULL) {
        fprintf(stderr, "\nfit %llu", (unsigned long long)r->number);
        show("bond", &r->bond);
        show("option", &r->option);
        show("dated", &r->dated);
        show("both", &r->both.bond);
        show("and", &r->both.option);
        show("both dated", &r->both_dated.bond);
        show("and", &r->both_dated.option);
        fprintf(stderr, ", strips %llu %llu", (unsigned long long)r->strip.number, (unsigned long long)r->dated_strip.number);
    }
    fprintf(stderr, "\n");
    exit(1);
}

/* A tree's bounds, with the rows' greatest discounts and alone. */
static void must_have_equal_bounds(const struct work *w, const uint64_t *discounts)
{
    const struct mixegorta_tree_error_bounds x = mixegorta_tree_bounds(w->n, w->working, discounts, MOST_DISCOUNTS);
    const struct mixegorta_answer alone = mixegorta_price_error_bound(w->n, w->working, discounts, MOST_DISCOUNTS);
    const struct plain_bounds y = plain_tree_bounds(w->n, w->working, discounts);
    if (x.number == y.number && x.bound == y.bound && !memcmp(x.greatest, y.greatest, sizeof y.greatest) && alone.number == y.number &&
        alone.value == y.bound)
        return;
    fprintf(stderr, "DIFFERENT bounds at n = %zu, b = %llu\n", w->n, (unsigned long long)w->b);
    exit(1);
}

/* Any dates below n; some lists reach n, some repeat a row, some are empty. */
static void any_dates(struct work *w, int i)
{
    const size_t first = (size_t)(uniform() * (double)w->n);
    list_dates(w, first, 1 + (size_t)(uniform() * 6), w->n - (i % 10 ? 1 : 0));
    if (i % 11 == 0)
        w->dates[w->dates_count++] = (uint8_t)first;
    if (i % 40 == 0)
        w->dates_count = 0;
    w->side = i % 50 ? 1 + (uint64_t)(i / 4 % 2) : 3;
}

/* By which both price a tree of that version: the library's answer, which must be plain C's. */
static void set_version(struct work *w, uint64_t version)
{
    const struct mixegorta_answer working = mixegorta_working_reversion(version, w->b);
    const int known = version == 1 || version == 2;
    if (working.number != (known ? 0 : 7) || (known && working.value != plain_working_reversion(version, w->b))) {
        fprintf(stderr, "DIFFERENT working reversions of %llu\n", (unsigned long long)w->b);
        exit(1);
    }
    w->version = version;
    w->working = known ? working.value : w->b;
}

/* Any curve, quoted by rates or by yields, by any version or without one, and a bond and options of which some are refused. */
static struct work any_work(int i)
{
    static const uint64_t reversions[] = {0, 1, 31, 83, 103, 500, 1000, 1840, 1841, 2034, 6000}, frequencies[] = {12, 4, 2, 1};
    struct work w = work_of(1 + (size_t)(uniform() * 60), reversions[i % 11], uniform() * 0.1 - 0.02, uniform() * 0.002 - 0.0005);
    w.f = frequencies[i % 4];
    if (i % 3)
        set_version(&w, i % 60 == 1 ? 3 : 1 + (uint64_t)(i / 3 % 2));
    memset(w.kinds, i % 3 ? 6 : 9, w.n);
    w.kind = i % 50 ? 1 + (uint64_t)(i / 4 % 4) : 5;
    w.s = (uint64_t)(uniform() * 40000);
    w.expiry = (size_t)(uniform() * (double)(w.n + 1));
    w.strike = (uint64_t)(uniform() * (i % 5 ? 2e9 : 4.1e9));
    for (size_t t = 0; i % 7 == 0 && t < w.n; t++)
        w.flows[t] = (uint64_t)(uniform() * (i % 3 ? 8e9 / (double)w.n : 2.01e9));
    any_dates(&w, i);
    w.strikes_count = (size_t)i % (PLAIN_STRIKES + 2);
    for (size_t k = 0; k < w.strikes_count; k++)
        w.strikes[k] = k % 5 == 1 ? w.strikes[k - 1] : (uint64_t)(uniform() * (i % 5 ? 2e9 : 4.3e9));
    return w;
}

/* Both on many curves, accepted and refused: all that they write and answer must be equal. */
static void compare_results(void)
{
    static struct result x, y;
    int fits = 0, bonds = 0, options = 0, dated = 0;
    for (int i = 0; i < CURVES; i++) {
        const struct work w = any_work(i);
        memset(&x, 0, sizeof x);
        memset(&y, 0, sizeof y);
        by_library(&w, &x, ALL);
        by_plain_c(&w, &y, ALL);
        must_be_equal(&w, &x, &y);
        must_have_equal_bounds(&w, x.discounts);
        fits += x.number == 0;
        bonds += x.bond.number == 0;
        options += x.option.number == 0;
        dated += x.dated.number == 0;
    }
    printf("results of library and plain C equal on %d curves; accepted: %d fits, %d bonds, %d options, %d dated options\n", CURVES, fits,
           bonds, options, dated);
}

/* Continuous rates of discounts over the whole range and beyond it. */
static void compare_rates(void)
{
    for (int i = 0; i < CURVES; i++) {
        const uint64_t discount = i < 10 ? (uint64_t)i : (uint64_t)(uniform() * 1.101e9);
        const struct mixegorta_rate x = mixegorta_continuous_rate(discount);
        const struct plain_rate y = plain_continuous_rate(discount);
        if (x.number == y.number && x.value == y.value)
            continue;
        fprintf(stderr, "DIFFERENT continuous rates of %llu: %lld and %lld\n", (unsigned long long)discount, (long long)x.value, (long long)y.value);
        exit(1);
    }
    printf("continuous rates equal on %d discounts\n", CURVES);
}

static double now(void)
{
    struct timespec t;
    clock_gettime(CLOCK_PROCESS_CPUTIME_ID, &t);
    return (double)t.tv_sec * 1e6 + (double)t.tv_nsec / 1e3;
}

static int ascending(const void *a, const void *b)
{
    const double x = *(const double *)a, y = *(const double *)b;
    return (x > y) - (x < y);
}

static double median(double *list, int count)
{
    qsort(list, (size_t)count, sizeof *list, ascending);
    return list[count / 2];
}

typedef void (*worker)(const struct work *, struct result *, int);

static double microseconds(worker run, const struct work *w, struct result *r, int parts, int repeats)
{
    const double start = now();
    for (int i = 0; i < repeats; i++)
        run(w, r, parts);
    return (now() - start) / repeats;
}

struct timing {
    double first, second, ratio;
};

/* The two workers in turn; the ratio is the median of the turns' own ratios. */
static struct timing side_by_side(worker a, worker b, const struct work *w, int parts, int turns, int repeats)
{
    static struct result x, y;
    static double first[MOST_TURNS], second[MOST_TURNS], ratio[MOST_TURNS];
    memset(&x, 0, sizeof x);
    memset(&y, 0, sizeof y);
    a(w, &x, ALL);
    b(w, &y, ALL);
    for (int i = 0; i < turns; i++) {
        first[i] = microseconds(a, w, &x, parts, repeats);
        second[i] = microseconds(b, w, &y, parts, repeats);
        ratio[i] = first[i] / second[i];
    }
    if (b == by_plain_c)
        must_be_equal(w, &x, &y);
    const struct timing out = {median(first, turns), median(second, turns), median(ratio, turns)};
    return out;
}

static void line_against_plain_c(uint64_t b, const char *name, int parts, int turns)
{
    const struct work w = work_of(60, b, 0.02, 0.0003);
    const struct timing t = side_by_side(by_library, by_plain_c, &w, parts, turns, 20);
    printf("b = %-5llu %-22s %8.1f us    %8.1f us     %6.2f\n", (unsigned long long)b, name, t.first, t.second, t.ratio);
}

static void against_plain_c(int turns)
{
    static const uint64_t reversions[] = {0, 31, 83, 500, 1000, 1840, 6000}, shown[] = {0, 83, 1000};
    static const struct { const char *name; int parts; } rows[] = {
        {"fit", FIT}, {"bond and option", BOTH}, {"bond", BOND}, {"American option", OPTION}, {"dated option", DATED}};
    printf("n = 60                            library        plain C      ratio\n");
    for (int i = 0; i < 7; i++)
        line_against_plain_c(reversions[i], "fit, bond and option", WHOLE_JOB, turns);
    printf("\nn = 60, its parts                 library        plain C      ratio\n");
    for (int i = 0; i < 3; i++)
        for (int k = 0; k < 5; k++)
            line_against_plain_c(shown[i], rows[k].name, rows[k].parts, turns);
}

/* The library with dates in place of an option's kind. */
static void by_dates(const struct work *w, struct result *r, int parts)
{
    by_library(w, r, parts & OPTION ? (parts & ~OPTION) | DATED : parts);
}

/* One right by its list, every row to the expiry, and by its kind. */
static void dates_against_kind(int turns)
{
    static struct result x;
    static const uint64_t reversions[] = {0, 83, 1000};
    printf("\nn = 60, every row to the expiry   by dates       American     ratio\n");
    for (int i = 0; i < 3; i++) {
        struct work w = work_of(60, reversions[i], 0.02, 0.0003);
        list_dates(&w, 0, 1, w.expiry);
        const struct timing t = side_by_side(by_dates, by_library, &w, OPTION, turns, 20);
        by_library(&w, &x, ALL);
        if (!same_price(&x.dated, &x.option)) {
            fprintf(stderr, "DIFFERENT by dates and by kind at b = %llu\n", (unsigned long long)w.b);
            exit(1);
        }
        printf("b = %-5llu %-22s %8.1f us    %8.1f us     %6.2f\n", (unsigned long long)w.b, "option", t.first, t.second, t.ratio);
    }
}

typedef int64_t (*rate_of)(uint64_t);

static int64_t rate_by_library(uint64_t discount)
{
    return mixegorta_continuous_rate(discount).value;
}

static int64_t rate_by_plain_c(uint64_t discount)
{
    return plain_continuous_rate(discount).value;
}

static volatile int64_t last_rate;

static double rate_microseconds(rate_of rate, uint64_t discount)
{
    const double start = now();
    for (uint64_t i = 0; i < 20; i++)
        last_rate = rate(discount + i);
    return (now() - start) / 20;
}

/* One continuous rate, of 20 discounts one after the other. */
static void rates(int turns)
{
    static const uint64_t discounts[] = {400000000, 900000000, 995000000, ONE - 40, 1005000000};
    static double first[MOST_TURNS], second[MOST_TURNS], ratio[MOST_TURNS];
    printf("\none continuous rate               library        plain C      ratio\n");
    for (int k = 0; k < 5; k++) {
        for (int i = 0; i < turns; i++) {
            first[i] = rate_microseconds(rate_by_library, discounts[k]);
            second[i] = rate_microseconds(rate_by_plain_c, discounts[k]);
            ratio[i] = first[i] / second[i];
        }
        printf("discount %.9f %12s %8.2f us    %8.2f us     %6.2f\n", (double)discounts[k] / ONE, "", median(first, turns),
               median(second, turns), median(ratio, turns));
    }
}

#define SIZES 4

/* Every size in each turn, so that a busy machine slows them alike. */
static void growth(int turns)
{
    static struct result x;
    static double time[SIZES][MOST_TURNS], against[SIZES][MOST_TURNS], over[SIZES][MOST_TURNS];
    printf("\nfit, bond and option              library        plain C      ratio    library, times n = 15\n");
    for (uint64_t b = 0; b <= 1000; b += 1000) {
        for (int i = 0; i < turns; i++)
            for (int k = 0; k < SIZES; k++) {
                const struct work w = work_of(15 * (size_t)(k + 1), b, 0.02, 0.0003);
                time[k][i] = microseconds(by_library, &w, &x, WHOLE_JOB, 20);
                against[k][i] = microseconds(by_plain_c, &w, &x, WHOLE_JOB, 20);
                over[k][i] = time[k][i] / time[0][i];
            }
        for (int k = 0; k < SIZES; k++) {
            const double first = median(time[k], turns), second = median(against[k], turns);
            printf("b = %-5llu n = %-18d %8.1f us    %8.1f us     %6.2f    %6.2f\n", (unsigned long long)b, 15 * (k + 1), first, second,
                   first / second, median(over[k], turns));
        }
    }
}

/* A shelf of the library beside one in plain C. */
static struct desk {
    struct mixegorta_shelf library;
    struct plain_shelf plain;
    uint64_t memory[MIXEGORTA_SHELF_ROOM], plain_memory[MIXEGORTA_SHELF_ROOM];
} desk, before;

_Static_assert(sizeof(struct mixegorta_shelf) == sizeof(struct plain_shelf), "the shelves are compared byte by byte");

static void fail(const char *what)
{
    fprintf(stderr, "%s\n", what);
    exit(1);
}

static void clear_desk(void)
{
    memset(&desk, 0, sizeof desk);
    desk.library = mixegorta_empty_shelf();
}

static uint64_t kept(struct mixegorta_shelved made)
{
    desk.library = made.shelf;
    return made.number;
}

/* Numbers, slots, and the used part of the memory of both. */
static void must_keep_the_same(uint64_t x, uint64_t y)
{
    size_t used = 0;
    for (size_t name = 1; name <= MIXEGORTA_MAX_NAME; name++)
        used += mixegorta_shelf_part(desk.library, name).count;
    if (x != y || memcmp(&desk.library, &desk.plain, sizeof desk.plain) || memcmp(desk.memory, desk.plain_memory, used * sizeof *desk.memory))
        fail("DIFFERENT shelves of library and plain C");
}

static uint64_t ask_of_both(size_t name, size_t n, uint64_t b)
{
    const uint64_t number = kept(mixegorta_shelf_ask(desk.library, desk.memory, name, n, b));
    must_keep_the_same(number, plain_shelf_ask(&desk.plain, desk.plain_memory, name, n, b));
    return number;
}

static uint64_t commit_of_both(size_t name, const struct work *w)
{
    const uint64_t number = kept(
        mixegorta_shelf_commit(desk.library, desk.memory, name, w->f, w->s, w->rows, w->n, w->kinds, w->n, w->figures, w->n));
    must_keep_the_same(number, plain_shelf_commit(&desk.plain, desk.plain_memory, name, w->f, w->s, w->rows, w->kinds, w->figures));
    return number;
}

static uint64_t release_of_both(size_t name)
{
    const uint64_t number = kept(mixegorta_shelf_release(desk.library, desk.memory, name));
    must_keep_the_same(number, plain_shelf_release(&desk.plain, desk.plain_memory, name));
    return number;
}

/* Bond and option on the tree of a name, priced with flows of as many rows as it has. */
static int prices_of_both(size_t name, struct work *w, int *options)
{
    w->n = name <= MIXEGORTA_MAX_NAME && desk.plain.slots[name - 1].status ? desk.plain.slots[name - 1].steps : w->n;
    const struct plain_price x = of_library(mixegorta_shelf_bond_price(desk.library, desk.memory, name, w->flows, w->n));
    const struct plain_price y = plain_shelf_bond(&desk.plain, desk.plain_memory, name, w->flows);
    const struct plain_price z = of_library(
        mixegorta_shelf_option_price(desk.library, desk.memory, name, w->flows, w->n, w->kind, w->expiry, w->strike));
    const struct plain_price u = plain_shelf_option(&desk.plain, desk.plain_memory, name, w->flows, w->kind, w->expiry, w->strike);
    if (!same_price(&x, &y) || !same_price(&z, &u))
        fail("DIFFERENT prices on the shelves of library and plain C");
    *options += z.number == 0;
    return x.number == 0;
}

/* Any calls on both, of which some are refused: a name in use or outside, too many nodes, a tree that awaits its commit or has had it. */
static void compare_shelves(void)
{
    int asked = 0, committed = 0, released = 0, bonds = 0, options = 0;
    clear_desk();
    for (int i = 0; i < CURVES; i++) {
        const size_t name = 1 + (size_t)(uniform() * 9);
        struct work w = any_work(i);
        asked += ask_of_both(name, w.n, w.b) == 0;
        const size_t other = 1 + (size_t)(uniform() * 8);
        if (desk.plain.slots[other - 1].status) {
            struct work own = work_of(desk.plain.slots[other - 1].steps, 0, 0.01 + uniform() * 0.05, 0.0002);
            own.s = w.s;
            committed += commit_of_both(other, &own) == 0;
        }
        bonds += prices_of_both(1 + (size_t)(uniform() * 9), &w, &options);
        if (i % 3)
            released += release_of_both(1 + (size_t)(uniform() * 9)) == 0;
    }
    printf("shelves of library and plain C equal over %d rounds; accepted: %d askings, %d commits, %d bonds, %d options, %d releases\n\n",
           CURVES, asked, committed, bonds, options, released);
}

#define LAST_NAME MIXEGORTA_MAX_NAME

/* The tree of a work alone on both shelves, under the last name: before its commit, and fitted. */
static void set_up(const struct work *w)
{
    clear_desk();
    ask_of_both(LAST_NAME, w->n, w->b);
    before = desk;
    commit_of_both(LAST_NAME, w);
}

/* Each commit is of the tree as it awaits one; the shelf is handed over by value, so that it may be committed again and again. */
static void by_shelf(const struct work *w, struct result *r, int parts)
{
    if (parts & FIT)
        r->number = mixegorta_shelf_commit(before.library, r->discounts, LAST_NAME, w->f, w->s, w->rows, w->n, w->kinds, w->n, w->figures,
                                           w->n).number;
    if (parts & BOND)
        r->bond = of_library(mixegorta_shelf_bond_price(desk.library, r->discounts, LAST_NAME, w->flows, w->n));
    if (parts & OPTION)
        r->option = of_library(
            mixegorta_shelf_option_price(desk.library, r->discounts, LAST_NAME, w->flows, w->n, w->kind, w->expiry, w->strike));
}

static void by_plain_shelf(const struct work *w, struct result *r, int parts)
{
    if (parts & FIT) {
        struct plain_shelf own = before.plain;
        r->number = plain_shelf_commit(&own, r->discounts, LAST_NAME, w->f, w->s, w->rows, w->kinds, w->figures);
    }
    if (parts & BOND)
        r->bond = plain_shelf_bond(&desk.plain, r->discounts, LAST_NAME, w->flows);
    if (parts & OPTION)
        r->option = plain_shelf_option(&desk.plain, r->discounts, LAST_NAME, w->flows, w->kind, w->expiry, w->strike);
}

static volatile size_t last_start;

static void part_by_library(void)
{
    last_start = mixegorta_shelf_part(desk.library, LAST_NAME).start;
}

static void part_by_plain_c(void)
{
    last_start = plain_shelf_part(&desk.plain, LAST_NAME).start;
}

/* The bounds of the tree that stands alone under the last name. */
static volatile uint64_t last_bound;

static void bounds_by_library(void)
{
    const struct plain_slot *slot = &desk.plain.slots[LAST_NAME - 1];
    last_bound = mixegorta_tree_bounds(slot->steps, slot->reversion, desk.memory, MOST_DISCOUNTS).bound;
}

static void bound_by_library(void)
{
    const struct plain_slot *slot = &desk.plain.slots[LAST_NAME - 1];
    last_bound = mixegorta_price_error_bound(slot->steps, slot->reversion, desk.memory, MOST_DISCOUNTS).value;
}

static void bounds_by_plain_c(void)
{
    const struct plain_slot *slot = &desk.plain.slots[LAST_NAME - 1];
    last_bound = plain_tree_bounds(slot->steps, slot->reversion, desk.memory).bound;
}

typedef void (*move)(void);

/* A tree of 24 rows under name 1, before which no tree stands. Each asking and each release starts from the same shelf. */
static void ask_by_library(void)
{
    desk.library = mixegorta_shelf_ask(before.library, desk.memory, 1, 24, 0).shelf;
}

static void ask_by_plain_c(void)
{
    desk.plain = before.plain;
    plain_shelf_ask(&desk.plain, desk.plain_memory, 1, 24, 0);
}

static void release_by_library(void)
{
    mixegorta_shelf_release(desk.library, desk.memory, 1);
}

static void release_by_plain_c(void)
{
    struct plain_shelf own = desk.plain;
    plain_shelf_release(&own, desk.plain_memory, 1);
}

static double move_microseconds(move run)
{
    const double start = now();
    for (int i = 0; i < 20; i++)
        run();
    return (now() - start) / 20;
}

static void line_of_moves(const char *name, move a, move b, int turns)
{
    static double first[MOST_TURNS], second[MOST_TURNS], ratio[MOST_TURNS];
    for (int i = 0; i < turns; i++) {
        first[i] = move_microseconds(a);
        second[i] = move_microseconds(b);
        ratio[i] = first[i] / second[i];
    }
    printf("%-32s %8.2f us    %8.2f us     %6.2f\n", name, median(first, turns), median(second, turns), median(ratio, turns));
}

/* Trees of 2,916, 81, 1, 1 and 1 nodes, which a tree of a lower name moves; then the same asking where none stand. */
static void moves(int turns)
{
    static const size_t steps[] = {54, 9, 1, 1, 1};
    clear_desk();
    for (size_t k = 0; k < 5; k++) {
        const struct work w = work_of(steps[k], 0, 0.02, 0.0003);
        if (ask_of_both(k + 2, w.n, 0) || commit_of_both(k + 2, &w))
            fail("no tree to move");
    }
    before = desk;
    if (ask_of_both(1, 24, 0) || mixegorta_shelf_part(desk.library, 6).start + 1 - mixegorta_shelf_part(desk.library, 2).start != 3000)
        fail("the nodes that moved are not 3,000");
    line_of_moves("asking, 3,000 nodes move", ask_by_library, ask_by_plain_c, turns);
    line_of_moves("releasing, 3,000 nodes move", release_by_library, release_by_plain_c, turns);
    clear_desk();
    before = desk;
    ask_of_both(1, 24, 0);
    line_of_moves("asking, the shelf is empty", ask_by_library, ask_by_plain_c, turns);
}

/* One of a shelf's parts of work, on the library's shelf and by another worker. */
static void line_of_shelf(size_t n, uint64_t b, const char *name, worker other, int parts, int turns)
{
    static struct result x, y;
    const struct work w = work_of(n, b, 0.02, 0.0003);
    set_up(&w);
    memset(&x, 0, sizeof x);
    memset(&y, 0, sizeof y);
    by_shelf(&w, &x, FIT | BOND | OPTION);
    other(&w, &y, FIT | BOND | OPTION);
    if (x.number || y.number || !same_price(&x.bond, &y.bond) || !same_price(&x.option, &y.option) || memcmp(x.discounts, y.discounts, sizeof x.discounts))
        fail("DIFFERENT on a shelf and beside it");
    const struct timing t = side_by_side(by_shelf, other, &w, parts, turns, 20);
    printf("b = %-5llu %-22s %8.2f us    %8.2f us     %6.2f\n", (unsigned long long)b, name, t.first, t.second, t.ratio);
}

/* What a commit works out, by its own entries. */
static void bounds(int turns)
{
    static const uint64_t reversions[] = {0, 83, 1000};
    printf("\na tree's bounds, n = 60           library        plain C      ratio\n");
    for (int i = 0; i < 3; i++) {
        const struct work w = work_of(60, reversions[i], 0.02, 0.0003);
        char name[64];
        set_up(&w);
        snprintf(name, sizeof name, "b = %-5llu bound and greatest", (unsigned long long)w.b);
        line_of_moves(name, bounds_by_library, bounds_by_plain_c, turns);
        snprintf(name, sizeof name, "b = %-5llu bound alone", (unsigned long long)w.b);
        line_of_moves(name, bound_by_library, bounds_by_plain_c, turns);
    }
}

/* The fit of a work by the entry without a version, and as version 1. */
static void by_fit(const struct work *w, struct result *r, int parts)
{
    (void)parts;
    r->number = mixegorta_fit(w->f, w->n, w->b, w->s, w->rows, w->n, w->kinds, w->n, w->figures, w->n, r->discounts, MOST_DISCOUNTS, r->prices,
                              MOST_PRICES);
}

static void by_version_1(const struct work *w, struct result *r, int parts)
{
    (void)parts;
    r->number = mixegorta_fit_version(1, w->f, w->n, w->b, w->s, w->rows, w->n, w->kinds, w->n, w->figures, w->n, r->discounts, MOST_DISCOUNTS,
                                      r->prices, MOST_PRICES);
}

static void line_of_two(const struct work *w, const char *name, worker a, worker b, int parts, int turns)
{
    const struct timing t = side_by_side(a, b, w, parts, turns, 20);
    printf("b = %-5llu %-22s %8.2f us    %8.2f us     %6.2f\n", (unsigned long long)w->b, name, t.first, t.second, t.ratio);
}

static volatile uint64_t last_working;
static uint64_t worked;

static void working_by_library(void)
{
    last_working = mixegorta_working_reversion(2, worked).value;
}

static void working_by_plain_c(void)
{
    last_working = plain_working_reversion(2, worked);
}

static void versions(int turns)
{
    static const uint64_t reversions[] = {31, 83, 103, 1000, 6000};
    printf("\nversion 2, n = 60                 library        plain C      ratio\n");
    for (int i = 0; i < 5; i++) {
        struct work w = work_of(60, reversions[i], 0.02, 0.0003);
        set_version(&w, 2);
        line_of_two(&w, "fit, bond and option", by_library, by_plain_c, WHOLE_JOB, turns);
        line_of_two(&w, "fit", by_library, by_plain_c, FIT, turns);
    }
    worked = 1000;
    line_of_moves("one working reversion", working_by_library, working_by_plain_c, turns);
    printf("\nlibrary, n = 60                   by version     fit          ratio\n");
    for (int i = 0; i < 5; i++) {
        struct work w = work_of(60, reversions[i], 0.02, 0.0003);
        line_of_two(&w, "version 1", by_version_1, by_fit, FIT, turns);
        char name[64];
        set_version(&w, 2);
        snprintf(name, sizeof name, "version 2, as %llu", (unsigned long long)w.working);
        line_of_two(&w, name, by_library, by_fit, FIT, turns);
    }
}

/* Strips in place of single options. */
static void by_strip(const struct work *w, struct result *r, int parts)
{
    by_library(w, r, parts == ALL ? ALL : (parts & OPTION ? STRIP : 0) | (parts & DATED ? DATED_STRIP : 0));
}

/* Sixteen single options in place of one. */
static void by_each(const struct work *w, struct result *r, int parts)
{
    struct work one = *w;
    for (size_t k = 0; k < w->strikes_count; k++) {
        one.strike = w->strikes[k];
        by_library(&one, r, parts);
    }
}

/* The library's strip beside plain C's, then beside one call and beside sixteen. */
static void strips(int turns)
{
    static const uint64_t reversions[] = {0, 83, 1000};
    static const struct { const char *name; int strip, single; } rows[] = {{"American", STRIP, OPTION}, {"dates", DATED_STRIP, DATED}};
    printf("\n16 strikes, n = 60                library        plain C      ratio\n");
    for (int i = 0; i < 6; i++)
        line_against_plain_c(reversions[i / 2], rows[i % 2].name, rows[i % 2].strip, turns);
    printf("\nlibrary, 16 strikes, n = 60       a strip        one call     ratio\n");
    for (int i = 0; i < 6; i++) {
        const struct work w = work_of(60, reversions[i / 2], 0.02, 0.0003);
        line_of_two(&w, rows[i % 2].name, by_strip, by_library, rows[i % 2].single, turns);
    }
    printf("\nlibrary, 16 strikes, n = 60       a strip        16 calls     ratio\n");
    for (int i = 0; i < 6; i++) {
        const struct work w = work_of(60, reversions[i / 2], 0.02, 0.0003);
        line_of_two(&w, rows[i % 2].name, by_strip, by_each, rows[i % 2].single, turns);
    }
}

static void shelves(int turns)
{
    static const uint64_t reversions[] = {0, 83, 1000};
    printf("\na shelf                           library        plain C      ratio\n");
    moves(turns);
    for (int i = 0; i < 3; i++) {
        line_of_shelf(60, reversions[i], "commit, n = 60", by_plain_shelf, FIT, turns);
        line_of_shelf(60, reversions[i], "bond, n = 60", by_plain_shelf, BOND, turns);
        line_of_shelf(60, reversions[i], "option, n = 60", by_plain_shelf, OPTION, turns);
    }
    line_of_shelf(1, 0, "bond, n = 1", by_plain_shelf, BOND, turns);
    line_of_moves("part of name 8", part_by_library, part_by_plain_c, turns);
    printf("\nlibrary                           on a shelf     without      ratio\n");
    for (int i = 0; i < 3; i++) {
        line_of_shelf(60, reversions[i], "commit and fit, n = 60", by_library, FIT, turns);
        line_of_shelf(60, reversions[i], "bond, n = 60", by_library, BOND, turns);
        line_of_shelf(60, reversions[i], "option, n = 60", by_library, OPTION, turns);
    }
    line_of_shelf(1, 0, "commit and fit, n = 1", by_library, FIT, turns);
    line_of_shelf(1, 0, "bond, n = 1", by_library, BOND, turns);
}

/* ---- haircut bands */

enum { BANDS = 40 };

static struct {
    uint64_t first_rows[BANDS], last_rows[BANDS], lowest[BANDS], highest[BANDS], haircuts[BANDS];
    size_t count;
} table;

#define LISTS \
    table.first_rows, table.count, table.last_rows, table.count, table.lowest, table.count, table.highest, table.count, table.haircuts, table.count

static struct plain_bands plain_table(void)
{
    return (struct plain_bands){table.first_rows, table.last_rows, table.lowest, table.highest, table.haircuts, table.count};
}

/* Rows by prices, each in so many parts: 40 bands and no more. */
static void cut_table(uint64_t rows, uint64_t prices)
{
    table.count = 0;
    for (uint64_t i = 0; i < rows; i++)
        for (uint64_t j = 0; j < prices; j++) {
            const size_t k = table.count++;
            table.first_rows[k] = 60 * i / rows + 1, table.last_rows[k] = 60 * (i + 1) / rows;
            table.lowest[k] = MIXEGORTA_MAX_VALUE / prices * j + (j > 0);
            table.highest[k] = j + 1 == prices ? MIXEGORTA_MAX_VALUE : MIXEGORTA_MAX_VALUE / prices * (j + 1);
            table.haircuts[k] = 100 * (i + j);
        }
}

static volatile uint64_t last_worth;

static void verdict_by_library(void) { last_worth = mixegorta_check_bands(LISTS).number; }
static void worth_by_library(void) { last_worth = mixegorta_lending_worth(LISTS, 60, ONE).worth; }

static void verdict_by_plain_c(void)
{
    const struct plain_bands t = plain_table();
    last_worth = plain_check_bands(&t).number;
}

static void worth_by_plain_c(void)
{
    const struct plain_bands t = plain_table();
    last_worth = plain_lending_worth(&t, 60, ONE).worth;
}

static void must_lend_the_same(void)
{
    const struct plain_bands t = plain_table();
    const uint64_t row = (uint64_t)(uniform() * 62), price = (uint64_t)(uniform() * 8.1 * ONE);
    const struct mixegorta_verdict v = mixegorta_check_bands(LISTS);
    const struct mixegorta_worth w = mixegorta_lending_worth(LISTS, row, price);
    const struct plain_verdict p = plain_check_bands(&t);
    const struct plain_worth q = plain_lending_worth(&t, row, price);
    if (memcmp(&v, &p, sizeof v) || memcmp(&w, &q, sizeof w))
        fail("DIFFERENT on haircut bands");
}

/* Tables of equal parts, and the same with a number changed. */
static void compare_bands(void)
{
    uint64_t *lists[] = {table.first_rows, table.last_rows, table.lowest, table.highest, table.haircuts};
    int refused = 0;
    for (int i = 0; i < 2000; i++) {
        const uint64_t rows = (uint64_t)(uniform() * 8) + 1;
        cut_table(rows, (uint64_t)(uniform() * (double)(BANDS / rows)) + 1);
        must_lend_the_same();
        lists[i % 5][(size_t)(uniform() * (double)table.count)] += (uint64_t)(uniform() * 3) - 1;
        must_lend_the_same();
        refused += mixegorta_check_bands(LISTS).number != 0;
    }
    printf("haircut bands equal on 4000 tables, %d of them refused\n", refused);
}

static void bands(int turns)
{
    static const struct { const char *name; uint64_t rows, prices; } shapes[] = {
        {"40 rows of one band", 40, 1}, {"8 rows of 5 bands", 8, 5}, {"one row of 40 bands", 1, 40}, {"one band", 1, 1}};
    printf("\nhaircut bands                     library        plain C      ratio\n");
    for (int i = 0; i < 4; i++) {
        char name[64];
        cut_table(shapes[i].rows, shapes[i].prices);
        if (mixegorta_check_bands(LISTS).number)
            fail("a table that is not accepted");
        snprintf(name, sizeof name, "verdict, %s", shapes[i].name);
        line_of_moves(name, verdict_by_library, verdict_by_plain_c, turns);
        snprintf(name, sizeof name, "worth, %s", shapes[i].name);
        line_of_moves(name, worth_by_library, worth_by_plain_c, turns);
    }
}

/* ---- job records */

static struct {
    uint8_t bytes[MIXEGORTA_MAX_JOB], out[MIXEGORTA_MAX_JOB];
    size_t size;
    struct mixegorta_job library;
    struct plain_job plain;
} job;

static volatile uint64_t last_job;

static void read_by_library(void)
{
    const struct mixegorta_reading found = mixegorta_read_job(job.bytes, job.size);
    last_job = found.number + found.job.frequency;
}

static void read_by_plain_c(void)
{
    struct plain_job found;
    last_job = (uint64_t)plain_read_job(job.bytes, job.size, &found) + found.frequency;
}

static void write_by_library(void) { last_job = mixegorta_write_job(job.library, job.out, sizeof job.out).value; }
static void write_by_plain_c(void) { last_job = (uint64_t)plain_write_job(&job.plain, job.out, sizeof job.out); }

/* The same places in both records. */
static void copy_to_plain(void)
{
    const struct mixegorta_job *from = &job.library;
    struct plain_job *to = &job.plain;
    to->frequency = from->frequency, to->steps = from->steps, to->reversion = from->reversion, to->volatility = from->volatility;
    to->version = from->version, to->tag = from->option.tag, to->kind = from->option.kind, to->expiry = from->option.expiry;
    to->strike = from->option.strike, to->count = from->option.count;
    memcpy(to->kinds, from->kinds, sizeof to->kinds);
    memcpy(to->figures, from->figures, sizeof to->figures);
    memcpy(to->flows, from->flows, sizeof to->flows);
    memcpy(to->dates, from->option.dates, sizeof to->dates);
}

/* A record of so many quotes, with a version, and an option of a kind or with a list. */
static void make_job(size_t steps, uint64_t tag, size_t count)
{
    memset(&job, 0, sizeof job);
    struct mixegorta_job *made = &job.library;
    made->frequency = 12, made->steps = steps, made->reversion = 83, made->volatility = 8000, made->version = steps < 255 ? 2 : 0;
    for (size_t i = 0; i < steps; i++) {
        const double rate = 0.02 + 0.0003 * (double)i;
        made->kinds[i] = MIXEGORTA_YEARLY_RATE;
        memcpy(&made->figures[i], &rate, sizeof rate);
        made->flows[i] = i + 1 < steps ? 5000000 : ONE;
    }
    made->option.tag = tag, made->option.kind = tag ? 1 : 0, made->option.strike = tag ? ONE : 0, made->option.count = count;
    for (size_t i = 0; i < count; i++)
        made->option.dates[i] = (uint8_t)i;
    copy_to_plain();
}

/* Both write the same or refuse the same; both read what was written, or the same bytes with one changed, as the same record. */
static int must_copy_the_same(void)
{
    static uint8_t other[MIXEGORTA_MAX_JOB];
    memset(other, 0, sizeof other);
    const struct mixegorta_answer a = mixegorta_write_job(job.library, job.bytes, sizeof job.bytes);
    const int b = plain_write_job(&job.plain, other, sizeof other);
    if (b != (a.number ? -(int)a.number : (int)a.value) || memcmp(job.bytes, other, sizeof other))
        fail("DIFFERENT in writing a job");
    if (a.number)
        return 1;
    job.size = (size_t)a.value;
    job.bytes[(size_t)(uniform() * (double)job.size)] ^= uniform() < 0.5 ? 1 : 0;
    const struct mixegorta_reading found = mixegorta_read_job(job.bytes, job.size);
    struct plain_job plain;
    const int number = plain_read_job(job.bytes, job.size, &plain);
    job.library = found.job;
    copy_to_plain();
    if (found.number != (uint64_t)number || memcmp(&job.plain, &plain, sizeof plain))
        fail("DIFFERENT in reading a job");
    return number;
}

static void compare_jobs(void)
{
    int refused = 0;
    for (int i = 0; i < 4000; i++) {
        const uint64_t tags[] = {0, 8, 10};
        make_job((size_t)(uniform() * 256), tags[i % 3], i % 3 == 2 ? (size_t)(uniform() * 90) : 0);
        if (i % 4 == 0)
            job.library.flows[(size_t)(uniform() * 255)] += (uint64_t)(uniform() * 2) << 32;
        if (i % 4 == 1)
            job.library.option.expiry += (uint64_t)(uniform() * 300);
        copy_to_plain();
        refused += must_copy_the_same();
    }
    printf("jobs written and read equal on 4000 records, %d of them refused\n", refused);
}

static void jobs(int turns)
{
    static const struct { const char *name; size_t steps, count; uint64_t tag; } shapes[] = {
        {"1 step", 1, 0, 8}, {"60 steps", 60, 0, 8}, {"60 steps, 60 dates", 60, 60, 10}, {"255 steps, 82 dates", 255, 82, 10}};
    printf("\na job and its record              library        plain C      ratio\n");
    for (int i = 0; i < 4; i++) {
        char name[64];
        make_job(shapes[i].steps, shapes[i].tag, shapes[i].count);
        job.size = (size_t)mixegorta_write_job(job.library, job.bytes, sizeof job.bytes).value;
        if (job.size == 0)
            fail("a job that is not written");
        snprintf(name, sizeof name, "read, %s", shapes[i].name);
        line_of_moves(name, read_by_library, read_by_plain_c, turns);
        snprintf(name, sizeof name, "written, %s", shapes[i].name);
        line_of_moves(name, write_by_library, write_by_plain_c, turns);
    }
}

/* ---- a rate tree and a spread tree together */

enum { PAIR_STEPS = MIXEGORTA_MAX_PAIR_STEPS, PAIR_NODES = 441 };

static struct {
    size_t n, m;
    uint64_t b, c, side, strike, rates[PAIR_NODES], spreads[PAIR_NODES], flows[PAIR_STEPS + 1];
    uint8_t dates[PAIR_STEPS + 1];
    size_t dates_count;
} pair;

/* Rates about 0.99 and spreads about 0.995 a step, a coupon bond, and a call of every third row at par. */
static void set_pair(size_t n, uint64_t b, uint64_t c)
{
    memset(&pair, 0, sizeof pair);
    pair.n = pair.m = n, pair.b = b, pair.c = c, pair.side = 1, pair.strike = ONE;
    for (size_t k = 0; k < PAIR_NODES; k++) {
        pair.rates[k] = 985000000 + (uint64_t)(uniform() * 1e7);
        pair.spreads[k] = 992000000 + (uint64_t)(uniform() * 6e6);
    }
    for (size_t t = 0; t < n; t++)
        pair.flows[t] = 15000000 + (t + 1 == n ? ONE : 0);
    const size_t last = n > 4 ? n - 4 : 0;
    for (size_t row = last % 3; row <= last; row += 3)
        pair.dates[pair.dates_count++] = (uint8_t)row;
}

#define PAIR pair.n, pair.b, pair.rates, PAIR_NODES, pair.m, pair.c, pair.spreads, PAIR_NODES, pair.flows, pair.n

static struct plain_price bond_of_pair(void) { return of_library(mixegorta_pair_bond_price(PAIR)); }

static struct plain_price option_of_pair(void)
{
    return of_library(mixegorta_pair_dated_option_price(PAIR, pair.side, pair.dates, pair.dates_count, pair.strike));
}

static struct plain_price plain_bond_of_pair(void)
{
    const struct plain_tree rates = {pair.n, pair.b, pair.rates}, spreads = {pair.m, pair.c, pair.spreads};
    return plain_pair_bond(&rates, &spreads, pair.flows);
}

static struct plain_price plain_option_of_pair(void)
{
    const struct plain_tree rates = {pair.n, pair.b, pair.rates}, spreads = {pair.m, pair.c, pair.spreads};
    return plain_pair_option(&rates, &spreads, pair.flows, pair.side, pair.dates, pair.dates_count, pair.strike);
}

static void must_pair_the_same(void)
{
    const struct plain_price bond = bond_of_pair(), option = option_of_pair(), plain_bond = plain_bond_of_pair(), plain_option = plain_option_of_pair();
    if (!same_price(&bond, &plain_bond) || !same_price(&option, &plain_option))
        fail("DIFFERENT on a rate tree and a spread tree");
}

/* Pairs of every length and some widths, and the same with a number changed. */
static void compare_pairs(void)
{
    static const uint64_t reversions[] = {0, 83, 200, 1000, 1840, 6000};
    int refused = 0;
    for (int i = 0; i < 2000; i++) {
        set_pair(1 + (size_t)i % PAIR_STEPS, reversions[i % 6], reversions[i / 6 % 6]);
        pair.side = 1 + (uint64_t)(i / 5 % 2);
        pair.strike = (uint64_t)(uniform() * 1.5e9);
        for (size_t k = 0; i % 4 == 0 && k < PAIR_NODES; k++)
            pair.rates[k] = 1 + (uint64_t)(uniform() * (i % 8 ? 1.1e9 : 4e4)), pair.spreads[k] = 1 + (uint64_t)(uniform() * (i % 8 ? 1.1e9 : 1e6));
        must_pair_the_same();
        const uint64_t wrong = (uint64_t)(uniform() * 3) - 1;
        pair.n += i % 7 == 1, pair.m += i % 7 == 1 || i % 7 == 2, pair.b += i % 7 == 3 ? 6000 : 0, pair.dates[0] += i % 7 == 4 ? 20 : 0;
        pair.rates[i % 5] *= i % 7 == 5 ? wrong : 1, pair.flows[0] += i % 7 == 6 ? 2 * ONE : 0;
        must_pair_the_same();
        refused += bond_of_pair().number != 0;
    }
    printf("prices of pairs equal on 4000 pairs, %d of them refused\n", refused);
}

static void pair_bond_by_library(void) { last_worth = bond_of_pair().value; }
static void pair_bond_by_plain_c(void) { last_worth = plain_bond_of_pair().value; }
static void pair_option_by_library(void) { last_worth = option_of_pair().value; }
static void pair_option_by_plain_c(void) { last_worth = plain_option_of_pair().value; }

static void pairs(int turns)
{
    static const uint64_t reversions[][2] = {{0, 0}, {83, 200}, {500, 1000}, {1000, 6000}};
    printf("\nrate and spread, n = 20           library        plain C      ratio\n");
    for (int i = 0; i < 4; i++) {
        char name[64];
        set_pair(PAIR_STEPS, reversions[i][0], reversions[i][1]);
        if (bond_of_pair().number || option_of_pair().number)
            fail("a pair that is not accepted");
        snprintf(name, sizeof name, "b = %d, %d, bond", (int)pair.b, (int)pair.c);
        line_of_moves(name, pair_bond_by_library, pair_bond_by_plain_c, turns);
        snprintf(name, sizeof name, "b = %d, %d, option", (int)pair.b, (int)pair.c);
        line_of_moves(name, pair_option_by_library, pair_option_by_plain_c, turns);
    }
}

/* ---- books of jobs */

enum { BOOK_JOBS = 20, BOOK_BYTES = 1 << 17 };

static struct {
    struct work jobs[BOOK_JOBS];
    uint8_t file[BOOK_BYTES];
    size_t size;
    uint64_t sums[3];
} book;

static size_t put_field(size_t at, uint8_t tag, uint64_t number, size_t length)
{
    book.file[at] = tag, book.file[at + 1] = (uint8_t)(length >> 8), book.file[at + 2] = (uint8_t)length;
    for (size_t k = 0; k < length; k++)
        book.file[at + 3 + k] = (uint8_t)(number >> 8 * (length - 1 - k));
    return at + 3 + length;
}

static size_t put_job(size_t at, const struct work *w)
{
    const size_t head = at;
    at = put_field(put_field(at + 3, 1, w->f, 1), 2, w->n, 1);
    at = put_field(put_field(at, 3, w->b, 2), 4, w->s, 4);
    for (size_t i = 0; i < w->n; i++) {
        uint64_t bits;
        memcpy(&bits, &w->figures[i], sizeof bits);
        at = put_field(at, w->kinds[i], bits, 8);
    }
    for (size_t i = 0; i < w->n; i++)
        at = put_field(at, 7, w->flows[i], 4);
    at = put_field(at, 8, w->kind << 40 | (uint64_t)w->expiry << 32 | w->strike, 6);
    book.file[head] = 0x10, book.file[head + 1] = (uint8_t)((at - head - 3) >> 8), book.file[head + 2] = (uint8_t)(at - head - 3);
    return at;
}

/* Jobs of one size on curves that differ. */
static void fill_book(size_t n, uint64_t b)
{
    book.size = 0;
    for (int k = 0; k < BOOK_JOBS; k++) {
        book.jobs[k] = work_of(n, b, 0.02 + 0.0005 * k, 0.0003);
        book.size = put_job(book.size, &book.jobs[k]);
    }
}

static uint8_t book_room[MIXEGORTA_BOOK_ROOM];

static void report_by_library(void) { last_worth = mixegorta_book_report(book.file, book.size, book_room, sizeof book_room).number; }

static void priced_one_by_one(void (*by)(const struct work *, struct result *, int))
{
    static struct result r;
    memset(book.sums, 0, sizeof book.sums);
    for (int k = 0; k < BOOK_JOBS; k++) {
        by(&book.jobs[k], &r, WHOLE_JOB);
        if (r.number || r.both.bond.number || r.both.option.number)
            fail("a job of the book that is refused");
        book.sums[0] += r.both.bond.value, book.sums[1] += r.both.option.value, book.sums[2] += r.both.bond.bound;
    }
}

static void book_by_calls(void) { priced_one_by_one(by_library); }
static void book_by_plain_c(void) { priced_one_by_one(by_plain_c); }

/* The report must give the sums of the jobs priced one by one. */
static void must_add_up(void)
{
    char sums[256], *found;
    report_by_library();
    book_by_plain_c();
    snprintf(sums, sizeof sums, "bonds %llu.%09llu\noptions %llu.%09llu\nallowances %llu\n", (unsigned long long)(book.sums[0] / ONE),
             (unsigned long long)(book.sums[0] % ONE), (unsigned long long)(book.sums[1] / ONE), (unsigned long long)(book.sums[1] % ONE),
             (unsigned long long)book.sums[2]);
    book_room[0] = 0;
    for (found = (char *)book_room + sizeof book_room - 1; found > (char *)book_room && memcmp(found, sums, 6); found--)
        ;
    if (memcmp(found, sums, strlen(sums)))
        fail("DIFFERENT on a book of jobs");
}

static void books(int turns)
{
    static const struct { size_t n; uint64_t b; } shapes[] = {{60, 0}, {60, 1000}, {20, 0}, {5, 0}};
    for (int side = 0; side < 2; side++) {
        printf("\na book of 20 jobs                 report        %s     ratio\n", side ? "single calls" : "plain C     ");
        for (int i = 0; i < 4; i++) {
            char name[64];
            fill_book(shapes[i].n, shapes[i].b);
            must_add_up();
            snprintf(name, sizeof name, "n = %zu, b = %llu", shapes[i].n, (unsigned long long)shapes[i].b);
            line_of_moves(name, report_by_library, side ? book_by_calls : book_by_plain_c, turns);
        }
    }
}

/* ---- sheets of jobs */

static uint8_t sheet_room[MIXEGORTA_SHEET_ROOM], plain_room[MIXEGORTA_SHEET_ROOM];

static void sheet_by_library(void) { last_worth = mixegorta_sheet(book.file + 3, book.size - 3, sheet_room, sizeof sheet_room).size; }
static void sheet_by_plain_c(void) { last_worth = plain_sheet(book.file + 3, book.size - 3, plain_room); }

/* One job in the file, whose sheet both must print alike. */
static void set_sheet(size_t n, uint64_t b)
{
    const struct work w = work_of(n, b, 0.02, 0.0003);
    book.size = put_job(0, &w);
    const struct mixegorta_written made = mixegorta_sheet(book.file + 3, book.size - 3, sheet_room, sizeof sheet_room);
    const size_t size = plain_sheet(book.file + 3, book.size - 3, plain_room);
    if (made.number || made.size != size || memcmp(sheet_room + sizeof sheet_room - size, plain_room, size))
        fail("DIFFERENT sheets of library and plain C");
}

static void sheets(int turns)
{
    static const struct { size_t n; uint64_t b; } shapes[] = {{60, 0}, {60, 83}, {60, 1000}, {20, 0}, {5, 0}};
    printf("\na sheet                           library        plain C      ratio\n");
    for (int i = 0; i < 5; i++) {
        char name[64];
        set_sheet(shapes[i].n, shapes[i].b);
        snprintf(name, sizeof name, "n = %zu, b = %llu", shapes[i].n, (unsigned long long)shapes[i].b);
        line_of_moves(name, sheet_by_library, sheet_by_plain_c, turns);
    }
}

/* ---- the same tree in doubles */

/* Fit, bond and option as doubles, rounded to billionths. */
static void by_doubles(const struct work *w, struct result *r, int parts)
{
    static struct double_tree tree;
    double flows[MOST_STEPS], bond = 0, option = 0;
    for (size_t t = 0; t < w->n; t++)
        flows[t] = (double)w->flows[t] / ONE;
    if (parts & FIT)
        double_fit(&tree, (double)w->f, w->n, (double)w->b / 1e4 * (double)w->f, (double)w->s / 1e6, w->figures);
    if (parts & BOTH)
        option = double_prices(&tree, flows, w->expiry, (double)w->strike / ONE, &bond);
    r->both.bond.value = (uint64_t)llround(bond * ONE);
    r->both.option.value = (uint64_t)llround(option * ONE);
}

static void against_doubles(int turns)
{
    static struct result x, y;
    static const uint64_t reversions[] = {0, 83, 1000};
    printf("\nfit, bond and option, n = 60      library       doubles      ratio    bond, option (library; doubles)\n");
    for (int i = 0; i < 3; i++) {
        const struct work w = work_of(60, reversions[i], 0.02, 0.0003);
        const struct timing t = side_by_side(by_library, by_doubles, &w, WHOLE_JOB, turns, 20);
        by_library(&w, &x, WHOLE_JOB);
        by_doubles(&w, &y, WHOLE_JOB);
        if (llabs((long long)(x.both.bond.value - y.both.bond.value)) > 5000 || llabs((long long)(x.both.option.value - y.both.option.value)) > 5000)
            fail("DIFFERENT prices of library and doubles");
        printf("b = %-5llu %22s %8.1f us    %8.1f us     %6.2f    %.9f %.9f; %.9f %.9f\n", (unsigned long long)w.b, "", t.first, t.second, t.ratio,
               x.both.bond.value / 1e9, x.both.option.value / 1e9, y.both.bond.value / 1e9, y.both.option.value / 1e9);
    }
}

/* ---- lines whose instructions bench/instructions counts */

static const uint64_t counted_discount = 995000000;
static void rate_once_by_library(void) { last_rate = rate_by_library(counted_discount); }
static void rate_once_by_plain_c(void) { last_rate = rate_by_plain_c(counted_discount); }

enum subject { PARTS, RATE, BOUNDS, SHELF, PAIR_BOND, PAIR_OPTION, SHEET, BOOK };

static const struct counted {
    const char *name;
    enum subject subject;
    int parts;
    size_t n;
} counted[] = {
    {"fit, bond and option", PARTS, WHOLE_JOB, 60}, {"fit", PARTS, FIT, 60}, {"bond and option", PARTS, BOTH, 60}, {"bond", PARTS, BOND, 60},
    {"American option", PARTS, OPTION, 60}, {"dated option", PARTS, DATED, 60}, {"16 strikes, American", PARTS, STRIP, 60},
    {"16 strikes, dates", PARTS, DATED_STRIP, 60}, {"a tree's bounds", BOUNDS, 0, 60}, {"bond on a shelf", SHELF, BOND, 60},
    {"option on a shelf", SHELF, OPTION, 60}, {"a sheet", SHEET, 0, 60}, {"a book of 20 jobs", BOOK, 0, 60}, {"bond of a pair", PAIR_BOND, 0, 20},
    {"option of a pair", PAIR_OPTION, 0, 20}, {"a continuous rate", RATE, 0, 0}};

enum { COUNTED = sizeof counted / sizeof *counted };

static void repeat(move library, move plain, int by_plain, int calls)
{
    while (calls-- > 0)
        (by_plain ? plain : library)();
}

/* One line, so many times, by the library or by plain C. */
static void count_line(const struct counted *line, uint64_t b, int by_plain, int calls)
{
    static struct result r;
    const struct work w = work_of(line->n ? line->n : 1, b, 0.02, 0.0003);
    by_library(&w, &r, FIT);
    if (line->subject == SHELF || line->subject == BOUNDS)
        set_up(&w);
    if (line->subject == PAIR_BOND || line->subject == PAIR_OPTION)
        set_pair(line->n, b, b);
    if (line->subject == SHEET)
        set_sheet(line->n, b);
    if (line->subject == BOOK)
        fill_book(line->n, b);
    switch (line->subject) {
    case PARTS: while (calls-- > 0) (by_plain ? by_plain_c : by_library)(&w, &r, line->parts); break;
    case SHELF: while (calls-- > 0) (by_plain ? by_plain_shelf : by_shelf)(&w, &r, line->parts); break;
    case RATE: repeat(rate_once_by_library, rate_once_by_plain_c, by_plain, calls); break;
    case BOUNDS: repeat(bounds_by_library, bounds_by_plain_c, by_plain, calls); break;
    case PAIR_BOND: repeat(pair_bond_by_library, pair_bond_by_plain_c, by_plain, calls); break;
    case PAIR_OPTION: repeat(pair_option_by_library, pair_option_by_plain_c, by_plain, calls); break;
    case SHEET: repeat(sheet_by_library, sheet_by_plain_c, by_plain, calls); break;
    case BOOK: repeat(report_by_library, book_by_plain_c, by_plain, calls); break;
    }
}

/* bench lines: the counted lines, number, steps and name; bench count NUMBER REVERSION library|plain CALLS: one of them. */
static int count(int argc, char **argv)
{
    if (strcmp(argv[1], "lines") == 0) {
        for (int i = 0; i < COUNTED; i++)
            printf("%d %zu %s\n", i, counted[i].n, counted[i].name);
        return 0;
    }
    if (argc != 6 || atoi(argv[2]) >= COUNTED || atoi(argv[2]) < 0)
        return fprintf(stderr, "count NUMBER REVERSION library|plain CALLS\n"), 2;
    count_line(&counted[atoi(argv[2])], strtoull(argv[3], NULL, 10), strcmp(argv[4], "plain") == 0, atoi(argv[5]));
    return 0;
}

#ifdef HAVE_QUANTLIB
void quantlib_curve(size_t n, double step, const double *factors);
double quantlib_prices(size_t n, double step, double reversion, double volatility, const double *flows, size_t expiry, double strike,
                       double *bond_price);

/* A reversion of 0 is no reversion of QuantLib's tree; this one gives the same tree. */
static void by_quantlib(const struct work *w, struct result *r, int parts)
{
    double flows[MOST_STEPS], bond;
    (void)parts;
    const double step = 1.0 / (double)w->f, reversion = w->b ? (double)w->b / 1e4 / step : 1e-9;
    for (size_t t = 0; t < w->n; t++)
        flows[t] = (double)w->flows[t] / ONE;
    const double option = quantlib_prices(w->n, step, reversion, (double)w->s / 1e6, flows, w->expiry, (double)w->strike / ONE, &bond);
    r->both.bond.value = (uint64_t)llround(bond * ONE);
    r->both.option.value = (uint64_t)llround(option * ONE);
}

static void against_quantlib(int turns)
{
    static struct result x, y;
    static const uint64_t reversions[] = {0, 83, 1000};
    printf("\nfit, bond and option, n = 60      library       QuantLib    times as fast    bond, option (library; QuantLib)\n");
    for (int i = 0; i < 3; i++) {
        const struct work w = work_of(60, reversions[i], 0.02, 0.0003);
        double factors[MOST_STEPS];
        for (size_t t = 1; t <= w.n; t++)
            factors[t - 1] = 1 / (1 + w.figures[t - 1] * (double)t / (double)w.f);
        quantlib_curve(w.n, 1.0 / (double)w.f, factors);
        const struct timing t = side_by_side(by_quantlib, by_library, &w, WHOLE_JOB, turns, 2);
        by_library(&w, &x, WHOLE_JOB);
        by_quantlib(&w, &y, WHOLE_JOB);
        printf("b = %-5llu %22s %8.1f us    %8.1f us     %8.1f         %.9f %.9f; %.9f %.9f\n", (unsigned long long)w.b, "", t.second,
               t.first, t.ratio, x.both.bond.value / 1e9, x.both.option.value / 1e9, y.both.bond.value / 1e9, y.both.option.value / 1e9);
    }
}
#else
static void against_quantlib(int turns)
{
    (void)turns;
    printf("\nQuantLib is not installed: not compared\n");
}
#endif

int main(int argc, char **argv)
{
    if (argc > 1 && (strcmp(argv[1], "lines") == 0 || strcmp(argv[1], "count") == 0))
        return count(argc, argv);
    int turns = argc > 1 ? atoi(argv[1]) : 201;
    if (turns < 1 || turns > MOST_TURNS)
        return fprintf(stderr, "turns: 1 to %d\n", MOST_TURNS), 2;
    compare_results();
    compare_rates();
    compare_shelves();
    compare_bands();
    compare_jobs();
    compare_pairs();
    against_plain_c(turns);
    dates_against_kind(turns);
    rates(turns);
    growth(turns);
    shelves(turns);
    bounds(turns);
    versions(turns);
    strips(turns);
    bands(turns);
    jobs(turns);
    pairs(turns);
    books(turns);
    sheets(turns);
    against_doubles(turns);
    against_quantlib(turns / 4 + 1);
    return 0;
}
