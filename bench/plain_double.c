/* Hull and White's tree in doubles: no rounding rule, no refusal, no error bound. */
#include "plain_double.h"
#include <math.h>
#include <string.h>

struct branch {
    double down, middle, up;
};

static size_t half_width(const struct double_tree *tree, size_t row)
{
    return row < tree->highest ? row : tree->highest;
}

static void branches(const struct double_tree *tree, struct branch *p, size_t w)
{
    for (size_t k = 0; k <= 2 * w; k++) {
        const double j = (double)k - (double)w, z = j * tree->reversion;
        if (k == 2 * w && w == tree->highest)
            p[k] = (struct branch){1.0 / 6 + (z * z - z) / 2, -1.0 / 3 - z * z + 2 * z, 7.0 / 6 + (z * z - 3 * z) / 2};
        else if (k == 0 && w == tree->highest)
            p[k] = (struct branch){7.0 / 6 + (z * z + 3 * z) / 2, -1.0 / 3 - z * z - 2 * z, 1.0 / 6 + (z * z + z) / 2};
        else
            p[k] = (struct branch){1.0 / 6 + (z * z + z) / 2, 2.0 / 3 - z * z, 1.0 / 6 + (z * z - z) / 2};
    }
}

static size_t lowest(size_t w, size_t next, size_t k)
{
    if (next > w)
        return k;
    return k == 0 ? 0 : k == 2 * w ? k - 2 : k - 1;
}

void double_fit(struct double_tree *tree, double f, size_t n, double reversion, double volatility, const double *rates)
{
    double factors[DOUBLE_NODES], prices[2][DOUBLE_NODES] = {{1}}, *discounts = tree->discounts;
    struct branch p[DOUBLE_NODES];
    tree->steps = n;
    tree->reversion = reversion / f;
    tree->highest = reversion > 0 ? (size_t)(0.184 / tree->reversion) + 1 : DOUBLE_STEPS;
    const size_t widest = half_width(tree, n - 1);
    const double h = volatility * sqrt(3 / f) / f;
    for (size_t k = 0; k <= 2 * widest; k++)
        factors[k] = exp(-((double)k - (double)widest) * h);
    branches(tree, p, widest);
    for (size_t i = 0; i < n; i++) {
        const size_t w = half_width(tree, i), next = half_width(tree, i + 1), from = widest - w;
        const double *row = prices[i % 2];
        double *later = prices[(i + 1) % 2], sum = 0;
        for (size_t k = 0; k <= 2 * w; k++)
            sum += row[k] * factors[from + k];
        const double scale = 1 / ((1 + rates[i] * (double)(i + 1) / f) * sum);
        memset(later, 0, (2 * next + 1) * sizeof *later);
        for (size_t k = 0; k <= 2 * w; k++) {
            const double discount = scale * factors[from + k], carried = row[k] * discount;
            const size_t low = lowest(w, next, k);
            discounts[k] = discount;
            later[low] += p[from + k].down * carried;
            later[low + 1] += p[from + k].middle * carried;
            later[low + 2] += p[from + k].up * carried;
        }
        discounts += 2 * w + 1;
    }
}

double double_prices(const struct double_tree *tree, const double *flows, size_t expiry, double strike, double *bond)
{
    const size_t n = tree->steps, widest = half_width(tree, n - 1);
    double bonds[2][DOUBLE_NODES], options[2][DOUBLE_NODES];
    struct branch p[DOUBLE_NODES];
    const double *discounts = tree->discounts;
    branches(tree, p, widest);
    for (size_t i = 0; i < n; i++)
        discounts += 2 * half_width(tree, i) + 1;
    for (size_t k = 0; k <= 2 * half_width(tree, n); k++)
        bonds[n % 2][k] = flows[n - 1];
    for (size_t i = n; i-- > 0;) {
        const size_t w = half_width(tree, i), next = half_width(tree, i + 1), from = widest - w;
        const double *later = bonds[(i + 1) % 2], *held = options[(i + 1) % 2], flow = i ? flows[i - 1] : 0;
        double *now = bonds[i % 2], *option = options[i % 2];
        discounts -= 2 * w + 1;
        for (size_t k = 0; k <= 2 * w; k++) {
            const size_t low = lowest(w, next, k);
            const struct branch *q = &p[from + k];
            const double bare = discounts[k] * (q->down * later[low] + q->middle * later[low + 1] + q->up * later[low + 2]);
            if (i <= expiry) {
                const double kept = i < expiry ? discounts[k] * (q->down * held[low] + q->middle * held[low + 1] + q->up * held[low + 2]) : 0;
                option[k] = kept > bare - strike ? kept : bare - strike;
            }
            now[k] = bare + flow;
        }
    }
    *bond = bonds[0][0];
    return options[0][0];
}
