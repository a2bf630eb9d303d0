/* The fit, bond and option of document 01 as document 02 changed it, and 02's continuous rate, strip, versions and shelf, written straight down. All
 * sums fit 64 bits once the limits are checked. */
#include "plain.h"
#include <math.h>
#include <string.h>

#define ONE 1000000000u
#define WHOLE 600000000u
#define MOST_STEPS 60
#define MOST_NODES (2 * MOST_STEPS + 1)
#define MOST_DISCOUNTS (MOST_STEPS * MOST_STEPS)
#define DISCOUNT_LIMIT 1100000000u
#define VALUE_LIMIT (8ull * ONE)
#define FLOW_LIMIT (2ull * ONE)
#define STRIKE_LIMIT (4ull * ONE)

typedef unsigned __int128 wide;

/* Probabilities by node, from the lowest of the widest row. */
struct branch {
    uint64_t down, middle, up;
};

static size_t half_width(uint64_t b, size_t row)
{
    size_t highest = b ? 1840 / b + 1 : row;
    return row < highest ? row : highest;
}

static struct branch branch_at(int64_t j, uint64_t b, int64_t highest)
{
    const int64_t z = j * (int64_t)b, square = 3 * z * z;
    struct branch p;
    if (b && j == highest) {
        p.up = 700000000 + square - 90000 * z;
        p.middle = -200000000 - 2 * square + 120000 * z;
        p.down = 100000000 + square - 30000 * z;
    } else if (b && j == -highest) {
        p.up = 100000000 + square + 30000 * z;
        p.middle = -200000000 - 2 * square - 120000 * z;
        p.down = 700000000 + square + 90000 * z;
    } else {
        p.up = 100000000 + square - 30000 * z;
        p.middle = 400000000 - 2 * square;
        p.down = 100000000 + square + 30000 * z;
    }
    return p;
}

static void branches(struct branch *table, uint64_t b, size_t w)
{
    const int64_t highest = b ? 1840 / (int64_t)b + 1 : 0;
    for (size_t k = 0; k <= 2 * w; k++)
        table[k] = branch_at((int64_t)k - (int64_t)w, b, highest);
}

/* A float times one, to the nearest; 0 for what is refused anyway. */
static int refused_figure(double x, int64_t *out)
{
    if (!(fabs(x) <= 10.0))
        return 1;
    int exponent;
    const double mantissa = frexp(fabs(x), &exponent);
    const uint64_t significand = (uint64_t)ldexp(mantissa, 53);
    const int shift = 53 - exponent;
    int64_t size = 0;
    if (shift <= 100)
        size = (int64_t)((((wide)significand * ONE << 1) + ((wide)1 << shift)) >> (shift + 1));
    *out = signbit(x) ? -size : size;
    return 0;
}

/* The terms of the series at an amount up to one, those of even and of odd places. */
struct sums {
    uint64_t even, odd;
};

static inline struct sums series(uint64_t amount)
{
    static const uint64_t divisors[13] = {0, ONE, 2ull * ONE, 3ull * ONE, 4ull * ONE, 5ull * ONE, 6ull * ONE, 7ull * ONE,
                                          8ull * ONE, 9ull * ONE, 10ull * ONE, 11ull * ONE, 12ull * ONE};
    uint64_t term = ONE;
    struct sums out = {ONE, 0};
    for (int k = 1; k <= 12; k++) {
        term = term * amount / divisors[k];
        if (k % 2)
            out.odd += term;
        else
            out.even += term;
    }
    return out;
}

/* F of four times a quotient, or of as much below zero: the second square may need more than 64 bits. */
static uint64_t continuous(uint64_t quotient, int below)
{
    const struct sums s = series(quotient);
    const uint64_t root = below ? s.even + s.odd : s.even - s.odd, square = root * root / ONE;
    return square <= UINT32_MAX ? square * square / ONE : (uint64_t)((wide)square * square / ONE);
}

static int yield_discount(uint64_t f, uint64_t t, int64_t figure, int64_t *out)
{
    const int64_t product = (int64_t)t * figure, divisor = (int64_t)f;
    const int64_t y = product / divisor - (product % divisor < 0);
    if (y > 4ll * ONE || y < -4ll * ONE)
        return 7;
    *out = (int64_t)continuous((uint64_t)(y < 0 ? -y : y) / 4, y < 0);
    return 0;
}

uint64_t plain_quote(uint64_t f, uint64_t t, uint8_t kind, double x, uint64_t *out)
{
    int64_t figure;
    if (refused_figure(x, &figure) || (kind != 5 && kind != 6 && kind != 9))
        return 7;
    if (kind == 9 && yield_discount(f, t, figure, &figure))
        return 7;
    if (kind == 6) {
        const int64_t divisor = (int64_t)(f * ONE) + (int64_t)t * figure;
        if (divisor <= 0)
            return 7;
        const uint64_t p = (uint64_t)ONE * ONE * f / (uint64_t)divisor;
        figure = p > 2ull * ONE ? 0 : (int64_t)p;
    }
    if (figure < 100000000 || figure > 2000000000)
        return 7;
    *out = (uint64_t)figure;
    return 0;
}

static uint64_t root_of(uint64_t square)
{
    uint64_t h = (uint64_t)sqrt((double)square);
    while (h * h > square)
        h--;
    while ((h + 1) * (h + 1) <= square)
        h++;
    return h;
}

uint64_t plain_working_reversion(uint64_t version, uint64_t b)
{
    return version == 2 ? (10000 * (ONE - continuous(25000 * b, 0)) + ONE / 2) / ONE : b;
}

/* Of version 2 for a reversion above 0: 3 s^2 c / 1,000 is 3 (1,000 s)^2 c / one, and fits. */
static uint64_t spacing(uint64_t version, uint64_t f, uint64_t s, uint64_t b)
{
    const uint64_t cube = f * f * f;
    if (version == 1 || b == 0)
        return root_of(3000000 * s * s / cube);
    const uint64_t c = (uint64_t)ONE * (ONE - continuous(50000 * b, 0)) / (200000 * b);
    return root_of(3 * s * s * c / 1000 / cube);
}

/* Factors of nodes -w to w. */
static void factors(uint64_t *table, size_t w, uint64_t h)
{
    for (size_t j = 0; j <= w; j++) {
        const struct sums s = series(j * h);
        table[w - j] = s.even + s.odd;
        table[w + j] = s.even - s.odd;
    }
}

/* Halves down to where the discounts pass this one, then tries the quotients about it: over nineteen of them a discount falls, to the half of one,
 * and over a hundred beyond it. */
struct plain_rate plain_continuous_rate(uint64_t discount)
{
    if (discount == 0 || discount > DISCOUNT_LIMIT)
        return (struct plain_rate){9, 0};
    const int below = discount > ONE;
    uint64_t low = 0, high = (uint64_t)ONE + 1;
    while (high - low > 1) {
        const uint64_t middle = low + (high - low) / 2, found = continuous(middle, below);
        if (below ? found <= discount : found >= discount)
            low = middle;
        else
            high = middle;
    }
    const uint64_t about = below ? 0 : low < 499999000 ? 19 : 100, first = low < about ? 0 : low - about, last = low + about + 1 < ONE ? low + about + 1 : ONE;
    uint64_t best = first, least = UINT64_MAX;
    for (uint64_t q = first; q <= last; q++) {
        const uint64_t found = continuous(q, below), miss = found < discount ? discount - found : found - discount;
        if (miss < least) {
            least = miss;
            best = q;
        }
    }
    return (struct plain_rate){0, below ? -4 * (int64_t)best : 4 * (int64_t)best};
}

/* One row: its discounts, and the next row's state prices. */
static uint64_t step(size_t w, size_t next, uint64_t quote, const uint64_t *u, const struct branch *p, const uint64_t *row,
                     uint64_t *discounts, uint64_t *later)
{
    const size_t count = 2 * w + 1;
    uint64_t z = 0, sums[MOST_NODES] = {0};
    for (size_t k = 0; k < count; k++)
        z += row[k] * u[k];
    z /= ONE;
    for (size_t k = 0; k < count; k++) {
        const uint64_t v = quote * u[k] / z;
        if (v == 0 || v > DISCOUNT_LIMIT)
            return 9;
        discounts[k] = v;
        const uint64_t carried = row[k] * v / ONE;
        size_t low = k;
        if (next == w)
            low = k == 0 ? 0 : k == count - 1 ? k - 2 : k - 1;
        sums[low] += p[k].down * carried;
        sums[low + 1] += p[k].middle * carried;
        sums[low + 2] += p[k].up * carried;
    }
    for (size_t k = 0; k <= 2 * next; k++)
        later[k] = sums[k] / WHOLE;
    return 0;
}

uint64_t plain_fit_version(uint64_t version, uint64_t f, size_t n, uint64_t reversion, uint64_t s, const uint64_t *rows, const uint8_t *kinds,
                           const double *figures, uint64_t *discounts, uint64_t *state_prices)
{
    uint64_t quotes[MOST_STEPS], u[MOST_NODES];
    struct branch p[MOST_NODES];
    if (f != 1 && f != 2 && f != 4 && f != 12)
        return 2;
    if (n < 1 || n > MOST_STEPS)
        return 3;
    if (reversion > 6000)
        return 4;
    if (s > 50000)
        return 5;
    for (size_t t = 1; t <= n; t++)
        if (rows[t - 1] != t)
            return 6;
    for (size_t t = 1; t <= n; t++)
        if (plain_quote(f, t, kinds[t - 1], figures[t - 1], &quotes[t - 1]))
            return 7;
    if (version != 1 && version != 2)
        return 7;
    const uint64_t b = plain_working_reversion(version, reversion), h = spacing(version, f, s, reversion);
    const size_t widest = half_width(b, n - 1);
    if (widest * h > ONE)
        return 8;
    factors(u, widest, h);
    branches(p, b, widest);
    uint64_t *const first_discount = discounts, *const first_price = state_prices;
    state_prices[0] = ONE;
    for (size_t i = 0; i < n; i++) {
        const size_t w = half_width(b, i), next = half_width(b, i + 1), from = widest - w;
        uint64_t *later = state_prices + 2 * w + 1;
        if (step(w, next, quotes[i], u + from, p + from, state_prices, discounts, later)) {
            size_t needed = 0;
            for (size_t row = 0; row < n; row++)
                needed += 2 * half_width(b, row) + 1;
            memset(first_discount, 0, needed * sizeof *discounts);
            memset(first_price, 0, (needed + 2 * half_width(b, n) + 1) * sizeof *discounts);
            return 9;
        }
        discounts += 2 * w + 1;
        state_prices = later;
    }
    return 0;
}

uint64_t plain_fit(uint64_t f, size_t n, uint64_t b, uint64_t s, const uint64_t *rows, const uint8_t *kinds,
                   const double *figures, uint64_t *discounts, uint64_t *state_prices)
{
    return plain_fit_version(1, f, n, b, s, rows, kinds, figures, discounts, state_prices);
}

/* The lowest of the three nodes to which node k of a row leads. */
static size_t lowest(size_t w, size_t next, size_t k)
{
    if (next > w)
        return k;
    return k == 0 ? 0 : k == 2 * w ? k - 2 : k - 1;
}

/* Both divisions to the nearest, halves up. */
static uint64_t rolled(const struct branch *p, const uint64_t *later, uint64_t discount)
{
    const uint64_t sum = p->down * later[0] + p->middle * later[1] + p->up * later[2];
    return ((sum + WHOLE / 2) / WHOLE * discount + ONE / 2) / ONE;
}

enum { BOND_ABOVE = 1, OPTION_ABOVE = 2 };

/* A row of the bond from the row after it; what of it is above the limit. */
static int roll_bond(size_t w, size_t next, const struct branch *p, const uint64_t *discounts, const uint64_t *later, uint64_t flow,
                     uint64_t *values)
{
    int above = 0;
    for (size_t k = 0; k <= 2 * w; k++) {
        values[k] = rolled(&p[k], later + lowest(w, next, k), discounts[k]) + flow;
        above |= values[k] > VALUE_LIMIT ? BOND_ABOVE : 0;
    }
    return above;
}

static uint64_t tree_refused(size_t n, uint64_t b, const uint64_t *discounts, size_t *needed)
{
    if (n < 1 || n > MOST_STEPS)
        return 3;
    if (b > 6000)
        return 4;
    *needed = 0;
    for (size_t i = 0; i < n; i++)
        *needed += 2 * half_width(b, i) + 1;
    for (size_t k = 0; k < *needed; k++)
        if (discounts[k] == 0 || discounts[k] > DISCOUNT_LIMIT)
            return 9;
    return 0;
}

static uint64_t rows_refused(size_t n, uint64_t b, const uint64_t *discounts, const uint64_t *flows, size_t *needed)
{
    const uint64_t number = tree_refused(n, b, discounts, needed);
    if (number)
        return number;
    for (size_t t = 0; t < n; t++)
        if (flows[t] > FLOW_LIMIT)
            return 10;
    return 0;
}

static inline uint64_t greatest_of(const uint64_t *discounts, size_t count)
{
    uint64_t greatest = 0;
    for (size_t k = 0; k < count; k++)
        greatest = discounts[k] > greatest ? discounts[k] : greatest;
    return greatest;
}

static inline uint64_t bound_before(uint64_t greatest, uint64_t bound)
{
    return (greatest * bound + ONE - 1) / ONE + 2;
}

static uint64_t next_bound(const uint64_t *discounts, size_t count, uint64_t bound)
{
    return bound_before(greatest_of(discounts, count), bound);
}

/* From the last row to the first, behind which the discounts end. */
static uint64_t bound_of_rows(size_t n, uint64_t b, const uint64_t *end, uint64_t *greatest)
{
    uint64_t bound = 0;
    for (size_t i = n; i-- > 0;) {
        const size_t count = 2 * half_width(b, i) + 1;
        end -= count;
        greatest[i] = greatest_of(end, count);
        bound = bound_before(greatest[i], bound);
    }
    return bound;
}

struct plain_bounds plain_tree_bounds(size_t n, uint64_t b, const uint64_t *discounts)
{
    struct plain_bounds out = {0};
    size_t needed;
    out.number = tree_refused(n, b, discounts, &needed);
    if (!out.number)
        out.bound = bound_of_rows(n, b, discounts + needed, out.greatest);
    return out;
}

static const struct plain_price none = {0, 0, 0};

static struct plain_price refused(uint64_t number)
{
    struct plain_price price = none;
    price.number = number;
    return price;
}

/* The bound is worked out along the way where none is carried. */
static struct plain_price rolled_bond(size_t n, uint64_t b, const uint64_t *discounts, const uint64_t *flows, const uint64_t *carried)
{
    uint64_t rows[2][MOST_NODES];
    struct branch p[MOST_NODES];
    size_t start;
    struct plain_price out = none;
    const uint64_t number = rows_refused(n, b, discounts, flows, &start);
    if (number)
        return refused(number);
    const size_t widest = half_width(b, n - 1);
    branches(p, b, widest);
    int at = 0;
    for (size_t k = 0; k <= 2 * half_width(b, n); k++)
        rows[at][k] = flows[n - 1];
    for (size_t i = n; i-- > 0; at = !at) {
        const size_t w = half_width(b, i), next = half_width(b, i + 1);
        start -= 2 * w + 1;
        if (roll_bond(w, next, p + (widest - w), discounts + start, rows[at], i ? flows[i - 1] : 0, rows[!at]))
            return refused(12);
        if (!carried)
            out.bound = next_bound(discounts + start, 2 * w + 1, out.bound);
    }
    out.value = rows[at][0];
    if (carried)
        out.bound = *carried;
    return out;
}

struct plain_price plain_bond(size_t n, uint64_t b, const uint64_t *discounts, const uint64_t *flows)
{
    return rolled_bond(n, b, discounts, flows, NULL);
}

struct right {
    int call;
    uint64_t strike;
};

/* The last row of exercise, and a mark on every row of exercise before it. */
struct schedule {
    size_t last;
    uint8_t marks[MOST_STEPS];
};

static uint64_t exercise(struct right right, uint64_t bond)
{
    if (right.call)
        return bond > right.strike ? bond - right.strike : 0;
    return right.strike > bond ? right.strike - bond : 0;
}

/* The row's flow stays with the seller of the bond. */
static void exercise_row(struct right right, size_t count, const uint64_t *bond, uint64_t flow, uint64_t *option)
{
    for (size_t k = 0; k < count; k++)
        option[k] = exercise(right, bond[k] - flow);
}

/* A row of bond and option from the rows after it. */
static int roll_both(size_t w, size_t next, const struct branch *p, const uint64_t *discounts, const uint64_t *bonds,
                     const uint64_t *options, uint64_t flow, struct right right, int marked, uint64_t *bond, uint64_t *option)
{
    int above = 0;
    for (size_t k = 0; k <= 2 * w; k++) {
        const size_t low = lowest(w, next, k);
        const uint64_t bare = rolled(&p[k], bonds + low, discounts[k]), kept = rolled(&p[k], options + low, discounts[k]);
        const uint64_t now = marked ? exercise(right, bare) : 0;
        bond[k] = bare + flow;
        option[k] = kept > now ? kept : now;
        above |= (bond[k] > VALUE_LIMIT ? BOND_ABOVE : 0) | (option[k] > VALUE_LIMIT ? OPTION_ABOVE : 0);
    }
    return above;
}

/* One roll. An option that is refused, by a number handed in or by its values, is rolled no further; its bond goes on. The bound is worked
 * out along the way where none is carried. */
static struct plain_prices roll_to_today(size_t n, uint64_t b, const uint64_t *discounts, const uint64_t *flows, struct right right,
                                         const struct schedule *schedule, uint64_t other, const uint64_t *carried)
{
    uint64_t bonds[2][MOST_NODES], options[2][MOST_NODES], bound = carried ? *carried : 0;
    struct branch p[MOST_NODES];
    size_t start;
    const uint64_t number = rows_refused(n, b, discounts, flows, &start);
    if (number)
        return (struct plain_prices){refused(number), refused(number)};
    const size_t widest = half_width(b, n - 1), count = 2 * half_width(b, n) + 1;
    branches(p, b, widest);
    int at = 0;
    for (size_t k = 0; k < count; k++)
        bonds[at][k] = flows[n - 1];
    for (size_t i = n; i-- > 0; at = !at) {
        const size_t w = half_width(b, i), next = half_width(b, i + 1), from = widest - w;
        const uint64_t flow = i ? flows[i - 1] : 0;
        int above;
        start -= 2 * w + 1;
        if (i < schedule->last && !other)
            above = roll_both(w, next, p + from, discounts + start, bonds[at], options[at], flow, right, schedule->marks[i], bonds[!at],
                              options[!at]);
        else
            above = roll_bond(w, next, p + from, discounts + start, bonds[at], flow, bonds[!at]);
        if (above && !other)
            other = 12;
        if (above & BOND_ABOVE)
            return (struct plain_prices){refused(12), refused(other)};
        if (i == schedule->last)
            exercise_row(right, 2 * w + 1, bonds[!at], flow, options[!at]);
        if (!carried)
            bound = next_bound(discounts + start, 2 * w + 1, bound);
    }
    const struct plain_price bond = {0, bonds[at][0], bound};
    return (struct plain_prices){bond, other ? refused(other) : (struct plain_price){0, options[at][0], bound}};
}

static struct plain_prices roll_kind(size_t n, uint64_t b, const uint64_t *discounts, const uint64_t *flows, uint64_t kind, size_t expiry,
                                     uint64_t strike, const uint64_t *carried)
{
    const int listed = kind >= 1 && kind <= 4 && expiry < n && expiry < MOST_STEPS && strike <= STRIKE_LIMIT;
    struct schedule schedule = {0};
    if (listed) {
        schedule.last = expiry;
        memset(schedule.marks, kind >= 3, expiry);
    }
    return roll_to_today(n, b, discounts, flows, (struct right){kind == 1 || kind == 3, strike}, &schedule, listed ? 0 : 11, carried);
}

struct plain_prices plain_bond_and_option(size_t n, uint64_t b, const uint64_t *discounts, const uint64_t *flows, uint64_t kind,
                                          size_t expiry, uint64_t strike)
{
    return roll_kind(n, b, discounts, flows, kind, expiry, strike, NULL);
}

/* A list that is empty, does not rise or reaches row n has no schedule. */
static uint64_t schedule_of(size_t n, const uint8_t *dates, size_t count, struct schedule *schedule)
{
    if (!count || dates[count - 1] >= n || dates[count - 1] >= MOST_STEPS)
        return 13;
    for (size_t k = 1; k < count; k++)
        if (dates[k - 1] >= dates[k])
            return 13;
    for (size_t k = 0; k + 1 < count; k++)
        schedule->marks[dates[k]] = 1;
    schedule->last = dates[count - 1];
    return 0;
}

struct plain_prices plain_bond_and_dated_option(size_t n, uint64_t b, const uint64_t *discounts, const uint64_t *flows, uint64_t side,
                                                const uint8_t *dates, size_t count, uint64_t strike)
{
    struct schedule schedule = {0};
    uint64_t other = side < 1 || side > 2 || strike > STRIKE_LIMIT ? 11 : 0;
    if (!other)
        other = schedule_of(n, dates, count, &schedule);
    return roll_to_today(n, b, discounts, flows, (struct right){side == 1, strike}, &schedule, other, NULL);
}

struct plain_price plain_option(size_t n, uint64_t b, const uint64_t *discounts, const uint64_t *flows, uint64_t kind,
                                size_t expiry, uint64_t strike)
{
    return plain_bond_and_option(n, b, discounts, flows, kind, expiry, strike).option;
}

struct plain_price plain_dated_option(size_t n, uint64_t b, const uint64_t *discounts, const uint64_t *flows, uint64_t side,
                                      const uint8_t *dates, size_t count, uint64_t strike)
{
    return plain_bond_and_dated_option(n, b, discounts, flows, side, dates, count, strike).option;
}

/* A strip: the bond once to row 0, each row without its flow kept where its discounts stand; then each strike alone beside the kept rows. */
struct kept {
    uint64_t rows[MOST_DISCOUNTS], bound;
    struct branch p[MOST_NODES];
    size_t widest;
};

/* Whether a value of the bond is above its limit; start is where the discounts end. */
static int keep_bond(size_t n, uint64_t b, const uint64_t *discounts, const uint64_t *flows, size_t start, struct kept *kept)
{
    uint64_t rows[2][MOST_NODES];
    int at = 0;
    kept->bound = 0;
    kept->widest = half_width(b, n - 1);
    branches(kept->p, b, kept->widest);
    for (size_t k = 0; k <= 2 * half_width(b, n); k++)
        rows[at][k] = flows[n - 1];
    for (size_t i = n; i-- > 0; at = !at) {
        const size_t w = half_width(b, i), next = half_width(b, i + 1);
        const uint64_t flow = i ? flows[i - 1] : 0;
        start -= 2 * w + 1;
        if (roll_bond(w, next, kept->p + (kept->widest - w), discounts + start, rows[at], flow, rows[!at]))
            return 1;
        for (size_t k = 0; k <= 2 * w; k++)
            kept->rows[start + k] = rows[!at][k] - flow;
        kept->bound = next_bound(discounts + start, 2 * w + 1, kept->bound);
    }
    return 0;
}

static int roll_option(size_t w, size_t next, const struct branch *p, const uint64_t *discounts, const uint64_t *bare, const uint64_t *options,
                       struct right right, int marked, uint64_t *option)
{
    int above = 0;
    for (size_t k = 0; k <= 2 * w; k++) {
        const uint64_t held = rolled(&p[k], options + lowest(w, next, k), discounts[k]), now = marked ? exercise(right, bare[k]) : 0;
        option[k] = held > now ? held : now;
        above |= option[k] > VALUE_LIMIT;
    }
    return above;
}

static struct plain_price walked(uint64_t b, const uint64_t *discounts, const struct kept *kept, struct right right,
                                 const struct schedule *schedule)
{
    uint64_t options[2][MOST_NODES];
    size_t start = 0;
    int at = 0;
    for (size_t i = 0; i < schedule->last; i++)
        start += 2 * half_width(b, i) + 1;
    exercise_row(right, 2 * half_width(b, schedule->last) + 1, kept->rows + start, 0, options[at]);
    for (size_t i = schedule->last; i-- > 0; at = !at) {
        const size_t w = half_width(b, i), next = half_width(b, i + 1);
        start -= 2 * w + 1;
        if (roll_option(w, next, kept->p + (kept->widest - w), discounts + start, kept->rows + start, options[at], right, schedule->marks[i],
                        options[!at]))
            return refused(12);
    }
    return (struct plain_price){0, options[at][0], kept->bound};
}

/* A cause of the terms but for the strike, 11 or 13, comes after 11 of a strike. */
static struct plain_strip strip(size_t n, uint64_t b, const uint64_t *discounts, const uint64_t *flows, int call, const struct schedule *schedule,
                                uint64_t wrong, const uint64_t *strikes, size_t count)
{
    struct plain_strip out = {0};
    struct kept kept;
    size_t start;
    if (!count || count > PLAIN_STRIKES)
        return out.number = 6, out;
    const uint64_t number = rows_refused(n, b, discounts, flows, &start);
    const int above = !number && !wrong && keep_bond(n, b, discounts, flows, start, &kept);
    for (size_t k = 0; k < count; k++) {
        const uint64_t cause = number ? number : strikes[k] > STRIKE_LIMIT ? 11 : wrong ? wrong : above ? 12 : 0;
        const struct plain_price made = cause ? refused(cause) : walked(b, discounts, &kept, (struct right){call, strikes[k]}, schedule);
        out.numbers[k] = made.number;
        out.values[k] = made.value;
        out.bounds[k] = made.bound;
    }
    return out;
}

struct plain_strip plain_option_strip(size_t n, uint64_t b, const uint64_t *discounts, const uint64_t *flows, uint64_t side, const uint8_t *dates,
                                      size_t dates_count, const uint64_t *strikes, size_t count)
{
    struct schedule schedule = {0};
    const uint64_t wrong = side < 1 || side > 2 ? 11 : schedule_of(n, dates, dates_count, &schedule);
    return strip(n, b, discounts, flows, side == 1, &schedule, wrong, strikes, count);
}

struct plain_strip plain_option_strip_of_kind(size_t n, uint64_t b, const uint64_t *discounts, const uint64_t *flows, uint64_t kind, size_t expiry,
                                              const uint64_t *strikes, size_t count)
{
    const int listed = kind >= 1 && kind <= 4 && expiry < n && expiry < MOST_STEPS;
    struct schedule schedule = {0};
    if (listed) {
        schedule.last = expiry;
        memset(schedule.marks, kind >= 3, expiry);
    }
    return strip(n, b, discounts, flows, kind == 1 || kind == 3, &schedule, listed ? 0 : 11, strikes, count);
}

/* The shelf: trees in the order of their names, without gaps. */
#define NAMES 8
#define SHELF_ROOM 3600
#define MOST_PRICES ((MOST_STEPS + 1) * (MOST_STEPS + 1))

static size_t nodes_of(const struct plain_slot *slot)
{
    const size_t n = slot->steps, highest = slot->reversion ? 1840 / slot->reversion + 1 : n;
    if (!slot->status)
        return 0;
    return n <= highest ? n * n : highest * highest + (n - highest) * (2 * highest + 1);
}

static size_t nodes_before(const struct plain_shelf *shelf, size_t name)
{
    size_t sum = 0;
    for (size_t k = 0; k + 1 < name; k++)
        sum += nodes_of(&shelf->slots[k]);
    return sum;
}

static int has_status(const struct plain_shelf *shelf, size_t name, uint64_t least, uint64_t most)
{
    return name >= 1 && name <= NAMES && shelf->slots[name - 1].status >= least && shelf->slots[name - 1].status <= most;
}

uint64_t plain_shelf_ask(struct plain_shelf *shelf, uint64_t *memory, size_t name, size_t n, uint64_t b)
{
    const struct plain_slot asked = {.status = 1, .steps = n, .reversion = b};
    if (!has_status(shelf, name, 0, 0))
        return 15;
    if (n < 1 || n > MOST_STEPS)
        return 3;
    if (b > 6000)
        return 4;
    const size_t nodes = nodes_of(&asked), held = nodes_before(shelf, NAMES + 1), start = nodes_before(shelf, name);
    if (nodes + held > SHELF_ROOM)
        return 14;
    memmove(memory + start + nodes, memory + start, (held - start) * sizeof *memory);
    memset(memory + start, 0, nodes * sizeof *memory);
    shelf->slots[name - 1] = asked;
    return 0;
}

uint64_t plain_shelf_commit(struct plain_shelf *shelf, uint64_t *memory, size_t name, uint64_t f, uint64_t s, const uint64_t *rows,
                            const uint8_t *kinds, const double *figures)
{
    uint64_t state_prices[MOST_PRICES];
    if (!has_status(shelf, name, 1, 1))
        return 15;
    struct plain_slot *slot = &shelf->slots[name - 1];
    uint64_t *discounts = memory + nodes_before(shelf, name);
    const uint64_t number = plain_fit(f, slot->steps, slot->reversion, s, rows, kinds, figures, discounts, state_prices);
    if (!number) {
        slot->status = 2;
        slot->bound = bound_of_rows(slot->steps, slot->reversion, discounts + nodes_of(slot), slot->greatest);
    }
    return number;
}

uint64_t plain_shelf_release(struct plain_shelf *shelf, uint64_t *memory, size_t name)
{
    if (!has_status(shelf, name, 1, 2))
        return 15;
    const size_t nodes = nodes_of(&shelf->slots[name - 1]), held = nodes_before(shelf, NAMES + 1), start = nodes_before(shelf, name);
    memmove(memory + start, memory + start + nodes, (held - start - nodes) * sizeof *memory);
    memset(&shelf->slots[name - 1], 0, sizeof shelf->slots[name - 1]);
    return 0;
}

struct plain_price plain_shelf_bond(const struct plain_shelf *shelf, const uint64_t *memory, size_t name, const uint64_t *flows)
{
    if (!has_status(shelf, name, 1, 2))
        return refused(15);
    const struct plain_slot *slot = &shelf->slots[name - 1];
    return rolled_bond(slot->steps, slot->reversion, memory + nodes_before(shelf, name), flows, &slot->bound);
}

struct plain_price plain_shelf_option(const struct plain_shelf *shelf, const uint64_t *memory, size_t name, const uint64_t *flows, uint64_t kind,
                                      size_t expiry, uint64_t strike)
{
    if (!has_status(shelf, name, 1, 2))
        return refused(15);
    const struct plain_slot *slot = &shelf->slots[name - 1];
    return roll_kind(slot->steps, slot->reversion, memory + nodes_before(shelf, name), flows, kind, expiry, strike, &slot->bound).option;
}

struct plain_part plain_shelf_part(const struct plain_shelf *shelf, size_t name)
{
    if (!has_status(shelf, name, 1, 2))
        return (struct plain_part){0, 0};
    return (struct plain_part){nodes_before(shelf, name), nodes_of(&shelf->slots[name - 1])};
}
