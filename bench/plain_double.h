/* The same tree in doubles, as one would write it who wants no more than a price. */
#ifndef PLAIN_DOUBLE_H
#define PLAIN_DOUBLE_H
#include <stddef.h>

enum { DOUBLE_STEPS = 60, DOUBLE_NODES = 2 * DOUBLE_STEPS + 1, DOUBLE_DISCOUNTS = DOUBLE_STEPS * DOUBLE_STEPS };

struct double_tree {
    size_t steps, highest;
    double reversion, discounts[DOUBLE_DISCOUNTS];
};

/* Fits to simple yearly rates of rows 1 to n; reversion and volatility are yearly. */
void double_fit(struct double_tree *tree, double f, size_t n, double reversion, double volatility, const double *rates);

/* The bond, and an American call on it without the flow of its row. */
double double_prices(const struct double_tree *tree, const double *flows, size_t expiry, double strike, double *bond);

#endif
