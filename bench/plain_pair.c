#include "plain_pair.h"

#define ONE UINT64_C(1000000000)
#define WHOLE UINT64_C(600000000)
#define TOP UINT64_C(1100000000)
enum { MOST = 20, WIDE = 2 * MOST + 1 };

struct branch {
    int64_t low;
    uint64_t down, middle, up;
};

/* What one walk has of a tree: branches by node from -w to w, w the half width of row n, and each row's half width, start and greatest discount. */
struct side {
    const uint64_t *discounts;
    size_t width[MOST + 1], start[MOST + 1];
    uint64_t least[MOST], greatest[MOST];
    struct branch branches[WIDE];
};

typedef uint64_t square[WIDE][WIDE];

static struct branch branch_at(int64_t j, int64_t b, int64_t top)
{
    const int64_t z = j * b, hundred = 100000000, s = 3 * z * z;
    if (b && j == top)
        return (struct branch){j - 2, (uint64_t)(hundred + s - 30000 * z), (uint64_t)(-2 * hundred - 2 * s + 120000 * z),
                               (uint64_t)(7 * hundred + s - 90000 * z)};
    if (b && j == -top)
        return (struct branch){j, (uint64_t)(7 * hundred + s + 90000 * z), (uint64_t)(-2 * hundred - 2 * s - 120000 * z),
                               (uint64_t)(hundred + s + 30000 * z)};
    return (struct branch){j - 1, (uint64_t)(hundred + s + 30000 * z), (uint64_t)(4 * hundred - 2 * s), (uint64_t)(hundred + s - 30000 * z)};
}

static void shape(struct side *t, const struct plain_tree *tree)
{
    const size_t top = tree->b ? (size_t)(1840 / tree->b) + 1 : SIZE_MAX;
    t->discounts = tree->discounts;
    t->start[0] = 0;
    for (size_t i = 0; i <= tree->n; i++) {
        t->width[i] = i < top ? i : top;
        if (i < tree->n)
            t->start[i + 1] = t->start[i] + 2 * t->width[i] + 1;
    }
    const int64_t w = (int64_t)t->width[tree->n];
    for (int64_t j = -w; j <= w; j++)
        t->branches[j + w] = branch_at(j, (int64_t)tree->b, tree->b ? (int64_t)top : INT64_MAX);
}

/* The least and greatest discount of each row; 0 where one is wrong. */
static int judge(struct side *t, size_t n)
{
    for (size_t i = 0; i < n; i++) {
        t->least[i] = UINT64_MAX, t->greatest[i] = 0;
        for (size_t k = t->start[i]; k < t->start[i] + 2 * t->width[i] + 1; k++) {
            const uint64_t v = t->discounts[k];
            t->least[i] = v < t->least[i] ? v : t->least[i];
            t->greatest[i] = v > t->greatest[i] ? v : t->greatest[i];
        }
        if (t->least[i] == 0 || t->greatest[i] > TOP)
            return 0;
    }
    return 1;
}

static uint64_t accepted(struct side *r, struct side *s, const struct plain_tree *rates, const struct plain_tree *spreads, const uint64_t *flows)
{
    if (rates->n < 1 || rates->n > 60 || spreads->n < 1 || spreads->n > 60)
        return 3;
    if (rates->n > MOST || rates->n != spreads->n)
        return 19;
    if (rates->b > 6000 || spreads->b > 6000)
        return 4;
    shape(r, rates);
    shape(s, spreads);
    if (!judge(r, rates->n) || !judge(s, rates->n))
        return 9;
    for (size_t i = 0; i < rates->n; i++)
        if (r->least[i] * s->least[i] < ONE)
            return 9;
    for (size_t i = 0; i < rates->n; i++)
        if (flows[i] > 2 * ONE)
            return 10;
    return 0;
}

static uint64_t bound(const struct side *r, const struct side *s, size_t n)
{
    uint64_t later = 0;
    for (size_t i = n; i-- > 0;)
        later = (r->greatest[i] * s->greatest[i] / ONE * later + ONE - 1) / ONE + 2;
    return later;
}

/* Row i from row i + 1, in its place, with a flow added; gives the greatest value. */
static uint64_t roll(const struct side *r, const struct side *s, size_t n, size_t i, uint64_t flow, square values, square middle)
{
    const size_t lines = 2 * r->width[i] + 1, width = 2 * s->width[i] + 1, later = 2 * s->width[i + 1] + 1;
    const struct branch *p = r->branches + (r->width[n] - r->width[i]), *q = s->branches + (s->width[n] - s->width[i]);
    const uint64_t *rates = r->discounts + r->start[i], *spreads = s->discounts + s->start[i];
    uint64_t greatest = 0;
    for (size_t a = 0; a < lines; a++) {
        const size_t low = (size_t)(p[a].low + (int64_t)r->width[i + 1]);
        for (size_t l = 0; l < later; l++)
            middle[a][l] = (p[a].down * values[low][l] + p[a].middle * values[low + 1][l] + p[a].up * values[low + 2][l] + WHOLE / 2) / WHOLE;
    }
    for (size_t a = 0; a < lines; a++)
        for (size_t l = 0; l < width; l++) {
            const uint64_t *m = middle[a] + (q[l].low + (int64_t)s->width[i + 1]);
            const uint64_t mean = (q[l].down * m[0] + q[l].middle * m[1] + q[l].up * m[2] + WHOLE / 2) / WHOLE;
            values[a][l] = (mean * (rates[a] * spreads[l] / ONE) + ONE / 2) / ONE + flow;
            greatest = values[a][l] > greatest ? values[a][l] : greatest;
        }
    return greatest;
}

static uint64_t exercise(uint64_t side, uint64_t strike, uint64_t bond)
{
    const uint64_t value = side == 1 ? bond - strike : strike - bond;
    return (side == 1 ? bond > strike : strike > bond) ? value : 0;
}

static uint64_t flow_of(const uint64_t *flows, size_t i) { return i ? flows[i - 1] : 0; }

/* The bond from row n down to a row; 0 where a value is above its limit. */
static int bond_to(const struct side *r, const struct side *s, size_t n, size_t last, const uint64_t *flows, square bonds, square middle)
{
    for (size_t a = 0; a < 2 * r->width[n] + 1; a++)
        for (size_t l = 0; l < 2 * s->width[n] + 1; l++)
            bonds[a][l] = flows[n - 1];
    for (size_t i = n; i-- > last;)
        if (roll(r, s, n, i, flow_of(flows, i), bonds, middle) > 8 * ONE)
            return 0;
    return 1;
}

struct plain_price plain_pair_bond(const struct plain_tree *rates, const struct plain_tree *spreads, const uint64_t *flows)
{
    struct side r, s;
    square bonds, middle;
    const uint64_t cause = accepted(&r, &s, rates, spreads, flows);
    if (cause)
        return (struct plain_price){cause, 0, 0};
    if (!bond_to(&r, &s, rates->n, 0, flows, bonds, middle))
        return (struct plain_price){12, 0, 0};
    return (struct plain_price){0, bonds[0][0], bound(&r, &s, rates->n)};
}

static uint64_t option_cause(size_t n, uint64_t side, const uint8_t *dates, size_t count, uint64_t strike)
{
    if (side < 1 || side > 2 || strike > 4 * ONE)
        return 11;
    for (size_t k = 0; k + 1 < count; k++)
        if (dates[k] >= dates[k + 1])
            return 13;
    return count == 0 || dates[count - 1] >= n ? 13 : 0;
}

/* A row of the option by exercise; gives its greatest value. */
static uint64_t exercised(const struct side *r, const struct side *s, size_t i, uint64_t side, uint64_t strike, uint64_t flow, square bonds,
                          square options)
{
    uint64_t greatest = 0;
    for (size_t a = 0; a < 2 * r->width[i] + 1; a++)
        for (size_t l = 0; l < 2 * s->width[i] + 1; l++) {
            const uint64_t now = exercise(side, strike, bonds[a][l] - flow);
            options[a][l] = options[a][l] > now ? options[a][l] : now;
            greatest = options[a][l] > greatest ? options[a][l] : greatest;
        }
    return greatest;
}

struct plain_price plain_pair_option(const struct plain_tree *rates, const struct plain_tree *spreads, const uint64_t *flows, uint64_t side,
                                     const uint8_t *dates, size_t count, uint64_t strike)
{
    struct side r, s;
    square bonds, options = {{0}}, middle;
    const size_t n = rates->n;
    uint64_t cause = accepted(&r, &s, rates, spreads, flows);
    cause = cause ? cause : option_cause(n, side, dates, count, strike);
    if (cause)
        return (struct plain_price){cause, 0, 0};
    const size_t last = dates[count - 1];
    size_t k = count - 1;
    if (!bond_to(&r, &s, n, last, flows, bonds, middle))
        return (struct plain_price){12, 0, 0};
    uint64_t greatest = exercised(&r, &s, last, side, strike, flow_of(flows, last), bonds, options);
    for (size_t i = last; i-- > 0 && greatest <= 8 * ONE;) {
        const uint64_t of_bond = roll(&r, &s, n, i, flow_of(flows, i), bonds, middle);
        greatest = roll(&r, &s, n, i, 0, options, middle);
        if (k > 0 && dates[k - 1] == i) {
            k--;
            greatest = exercised(&r, &s, i, side, strike, flow_of(flows, i), bonds, options);
        }
        greatest = of_bond > greatest ? of_bond : greatest;
    }
    if (greatest > 8 * ONE)
        return (struct plain_price){12, 0, 0};
    return (struct plain_price){0, options[0][0], bound(&r, &s, n)};
}
