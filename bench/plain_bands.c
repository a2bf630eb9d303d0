#include "plain_bands.h"

#define TOP UINT64_C(8000000000)
enum { ROWS = 60, MOST = 40, ALL = 10000 };

static int is_bad(const struct plain_bands *t, size_t k)
{
    return t->first_rows[k] < 1 || t->last_rows[k] < t->first_rows[k] || t->last_rows[k] > ROWS || t->highest[k] < t->lowest[k] ||
           t->highest[k] > TOP || t->haircuts[k] > ALL;
}

/* How many bands hold the pair, and the next price at which that may change. */
static size_t holding(const struct plain_bands *t, uint64_t row, uint64_t price, uint64_t *next)
{
    size_t count = 0;
    *next = TOP + 1;
    for (size_t k = 0; k < t->count; k++) {
        if (row < t->first_rows[k] || row > t->last_rows[k] || price > t->highest[k])
            continue;
        const int later = price < t->lowest[k];
        const uint64_t change = later ? t->lowest[k] : t->highest[k] + 1;
        count += !later;
        if (change < *next)
            *next = change;
    }
    return count;
}

struct plain_verdict plain_check_bands(const struct plain_bands *t)
{
    for (size_t k = 0; k < t->count; k++)
        if (is_bad(t, k))
            return (struct plain_verdict){16, 0, 0, k + 1};
    if (t->count > MOST)
        return (struct plain_verdict){16, 0, 0, MOST + 1};
    for (uint64_t row = 1; row <= ROWS; row++)
        for (uint64_t price = 0, next; price <= TOP; price = next) {
            const size_t count = holding(t, row, price, &next);
            if (count != 1)
                return (struct plain_verdict){count ? 18 : 17, row, price, 0};
        }
    return (struct plain_verdict){0, 0, 0, 0};
}

struct plain_worth plain_lending_worth(const struct plain_bands *t, uint64_t row, uint64_t price)
{
    if (row < 1 || row > ROWS)
        return (struct plain_worth){0, {6, 0, 0, 0}};
    if (price > TOP)
        return (struct plain_worth){0, {12, 0, 0, 0}};
    struct plain_worth found = {0, plain_check_bands(t)};
    for (size_t k = 0; found.verdict.number == 0 && k < t->count; k++)
        if (t->first_rows[k] <= row && row <= t->last_rows[k] && t->lowest[k] <= price && price <= t->highest[k])
            found.worth = price * (ALL - t->haircuts[k]) / ALL;
    return found;
}
