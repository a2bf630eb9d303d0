/* Document 02's rate tree and spread tree together in plain C. */
#ifndef PLAIN_PAIR_H
#define PLAIN_PAIR_H
#include "plain.h"

struct plain_tree {
    size_t n;
    uint64_t b;
    const uint64_t *discounts;
};

/* Memories are long enough, and there are n flows. */
struct plain_price plain_pair_bond(const struct plain_tree *rates, const struct plain_tree *spreads, const uint64_t *flows);
struct plain_price plain_pair_option(const struct plain_tree *rates, const struct plain_tree *spreads, const uint64_t *flows, uint64_t side,
                                     const uint8_t *dates, size_t count, uint64_t strike);

#endif
