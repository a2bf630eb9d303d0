/* Document 01's fit, bond and option, and document 02's continuous rate, dated option, strip, versions and shelf, in plain C. */
#ifndef PLAIN_H
#define PLAIN_H
#include <stddef.h>
#include <stdint.h>

struct plain_price {
    uint64_t number, value, bound;
};

struct plain_prices {
    struct plain_price bond, option;
};

struct plain_rate {
    uint64_t number;
    int64_t value;
};

/* The discount factor that a quote of row t means; 0, or 7. */
uint64_t plain_quote(uint64_t f, uint64_t t, uint8_t kind, double x, uint64_t *out);
uint64_t plain_fit(uint64_t f, size_t n, uint64_t b, uint64_t s, const uint64_t *rows, const uint8_t *kinds,
                   const double *figures, uint64_t *discounts, uint64_t *state_prices);
/* For a version 1 or 2 and a reversion within its limit. */
uint64_t plain_working_reversion(uint64_t version, uint64_t b);
uint64_t plain_fit_version(uint64_t version, uint64_t f, size_t n, uint64_t reversion, uint64_t s, const uint64_t *rows, const uint8_t *kinds,
                           const double *figures, uint64_t *discounts, uint64_t *state_prices);
struct plain_price plain_bond(size_t n, uint64_t b, const uint64_t *discounts, const uint64_t *flows);
struct plain_price plain_option(size_t n, uint64_t b, const uint64_t *discounts, const uint64_t *flows, uint64_t kind,
                                size_t expiry, uint64_t strike);
struct plain_prices plain_bond_and_option(size_t n, uint64_t b, const uint64_t *discounts, const uint64_t *flows, uint64_t kind,
                                          size_t expiry, uint64_t strike);
struct plain_price plain_dated_option(size_t n, uint64_t b, const uint64_t *discounts, const uint64_t *flows, uint64_t side,
                                      const uint8_t *dates, size_t count, uint64_t strike);
struct plain_prices plain_bond_and_dated_option(size_t n, uint64_t b, const uint64_t *discounts, const uint64_t *flows, uint64_t side,
                                                const uint8_t *dates, size_t count, uint64_t strike);

#define PLAIN_STRIKES 16
struct plain_strip {
    uint64_t number, numbers[PLAIN_STRIKES], values[PLAIN_STRIKES], bounds[PLAIN_STRIKES];
};

struct plain_strip plain_option_strip(size_t n, uint64_t b, const uint64_t *discounts, const uint64_t *flows, uint64_t side, const uint8_t *dates,
                                      size_t dates_count, const uint64_t *strikes, size_t count);
struct plain_strip plain_option_strip_of_kind(size_t n, uint64_t b, const uint64_t *discounts, const uint64_t *flows, uint64_t kind, size_t expiry,
                                              const uint64_t *strikes, size_t count);
struct plain_rate plain_continuous_rate(uint64_t discount);

struct plain_bounds {
    uint64_t number, bound, greatest[60];
};

struct plain_bounds plain_tree_bounds(size_t n, uint64_t b, const uint64_t *discounts);

/* A shelf that a call changes in its place: status 0 no tree, 1 awaiting a commit, 2 fitted. A fitted tree carries its bound and the
 * greatest discount of each row. */
struct plain_slot {
    uint64_t status;
    size_t steps;
    uint64_t reversion, bound, greatest[60];
};

struct plain_shelf {
    struct plain_slot slots[8];
};

uint64_t plain_shelf_ask(struct plain_shelf *shelf, uint64_t *memory, size_t name, size_t n, uint64_t b);
uint64_t plain_shelf_commit(struct plain_shelf *shelf, uint64_t *memory, size_t name, uint64_t f, uint64_t s, const uint64_t *rows,
                            const uint8_t *kinds, const double *figures);
uint64_t plain_shelf_release(struct plain_shelf *shelf, uint64_t *memory, size_t name);
struct plain_price plain_shelf_bond(const struct plain_shelf *shelf, const uint64_t *memory, size_t name, const uint64_t *flows);
struct plain_price plain_shelf_option(const struct plain_shelf *shelf, const uint64_t *memory, size_t name, const uint64_t *flows, uint64_t kind,
                                      size_t expiry, uint64_t strike);

struct plain_part {
    size_t start, count;
};

struct plain_part plain_shelf_part(const struct plain_shelf *shelf, size_t name);

#endif
