/* A job read, fitted, priced and printed, line after line. */
#include "plain_sheet.h"
#include "plain.h"
#include "plain_job.h"
#include <string.h>

#define ONE 1000000000u
#define STEPS 60
#define DISCOUNTS (STEPS * STEPS)
#define PRICES ((STEPS + 1) * (STEPS + 1))

static uint8_t *put_word(uint8_t *at, const char *word)
{
    while (*word)
        *at++ = (uint8_t)*word++;
    return at;
}

/* At least so many digits. */
static uint8_t *put_digits(uint8_t *at, uint64_t number, int least)
{
    uint8_t digits[20];
    int count = 0;
    for (; number || count < least; number /= 10)
        digits[count++] = (uint8_t)('0' + number % 10);
    while (count)
        *at++ = digits[--count];
    return at;
}

static uint8_t *put_number(uint8_t *at, uint64_t number)
{
    return put_digits(put_word(at, " "), number, 1);
}

static uint8_t *put_amount(uint8_t *at, uint64_t amount)
{
    at = put_number(at, amount / ONE);
    *at++ = '.';
    return put_digits(at, amount % ONE, 9);
}

static uint8_t *put_percent(uint8_t *at, uint64_t discount)
{
    const uint64_t gap = discount > ONE ? discount - ONE : ONE - discount, rate = (2 * gap * ONE + discount) / (2 * discount);
    *at++ = ' ';
    if (discount > ONE && rate)
        *at++ = '-';
    at = put_digits(at, rate / 10000000, 1);
    *at++ = '.';
    return put_digits(at, rate % 10000000, 7);
}

static size_t half_width(uint64_t b, size_t row)
{
    const size_t highest = b ? 1840 / b + 1 : row;
    return row < highest ? row : highest;
}

static uint8_t *put_nodes(uint8_t *at, size_t n, uint64_t b, const uint64_t *discounts)
{
    for (size_t i = 0; i < n; i++) {
        const size_t w = half_width(b, i);
        for (size_t k = 0; k <= 2 * w; k++) {
            at = put_number(put_word(at, "node"), i);
            at = k < w ? put_digits(put_word(at, " -"), w - k, 1) : put_number(at, k - w);
            at = put_percent(put_amount(at, discounts[k]), discounts[k]);
            *at++ = '\n';
        }
        discounts += 2 * w + 1;
    }
    return at;
}

static uint8_t *put_rows(uint8_t *at, size_t n, uint64_t b, const uint64_t *quotes, const uint64_t *discounts, const uint64_t *prices)
{
    uint64_t bound = 0;
    for (size_t i = 0; i < n; i++) {
        const size_t count = 2 * half_width(b, i) + 1, next = 2 * half_width(b, i + 1) + 1;
        uint64_t greatest = 0, sum = 0;
        for (size_t k = 0; k < count; k++)
            greatest = discounts[k] > greatest ? discounts[k] : greatest;
        discounts += count, prices += count;
        for (size_t k = 0; k < next; k++)
            sum += prices[k];
        bound = (greatest * bound + ONE - 1) / ONE + count + next;
        at = put_amount(put_number(put_word(at, "row"), i + 1), quotes[i]);
        at = put_number(put_amount(at, sum), bound);
        *at++ = '\n';
    }
    return at;
}

static uint8_t *put_price(uint8_t *at, const char *name, struct plain_price price)
{
    at = put_number(put_amount(put_word(at, name), price.value), price.bound);
    *at++ = '\n';
    return at;
}

size_t plain_sheet(const uint8_t *bytes, size_t size, uint8_t *out)
{
    static struct plain_job job;
    uint64_t rows[STEPS], quotes[STEPS], discounts[DISCOUNTS], prices[PRICES];
    double figures[STEPS];
    if (plain_read_job(bytes, size, &job) || job.steps < 1 || job.steps > STEPS)
        return 0;
    const size_t n = job.steps;
    memcpy(figures, job.figures, n * sizeof *figures);
    for (size_t t = 1; t <= n; t++) {
        rows[t - 1] = t;
        if (plain_quote(job.frequency, t, job.kinds[t - 1], figures[t - 1], &quotes[t - 1]))
            return 0;
    }
    const uint64_t version = job.version ? job.version : 1, b = plain_working_reversion(version, job.reversion);
    if (plain_fit_version(version, job.frequency, n, job.reversion, job.volatility, rows, job.kinds, figures, discounts, prices))
        return 0;
    const struct plain_prices both = job.tag == 10
        ? plain_bond_and_dated_option(n, b, discounts, job.flows, job.kind, job.dates, job.count, job.strike)
        : plain_bond_and_option(n, b, discounts, job.flows, job.tag ? job.kind : 1, job.tag ? job.expiry : 0, job.strike);
    if (both.bond.number || both.option.number)
        return 0;
    uint8_t *at = put_rows(put_nodes(out, n, b, discounts), n, b, quotes, discounts, prices);
    at = put_price(at, "bond", both.bond);
    if (job.tag)
        at = put_price(at, "option", both.option);
    return (size_t)(at - out);
}
