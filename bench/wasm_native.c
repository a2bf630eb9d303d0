/* The native side of bench/wasm: for each line of standard input, `WORK COUNT`, calls that work so often on the job of the
 * file that is named, and prints its processor time in nanoseconds a call and a sum over its answers. */
#define _POSIX_C_SOURCE 200809L
#include "../c/mixegorta.h"
#include <inttypes.h>
#include <stdio.h>
#include <string.h>
#include <time.h>

static uint8_t job[MIXEGORTA_MAX_JOB], sheet[MIXEGORTA_SHEET_ROOM];
static uint64_t rows[60], strikes[16], discounts[MIXEGORTA_MAX_DISCOUNTS], prices[MIXEGORTA_MAX_STATE_PRICES];
static double figures[60];
static struct mixegorta_reading read_job;
static size_t job_size;

static uint64_t fit(void)
{
    const struct mixegorta_job *j = &read_job.job;
    return mixegorta_fit(j->frequency, j->steps, j->reversion, j->volatility, rows, j->steps, j->kinds, j->steps, figures, j->steps,
                         discounts, MIXEGORTA_MAX_DISCOUNTS, prices, MIXEGORTA_MAX_STATE_PRICES) + discounts[1];
}

static uint64_t bond_and_option(void)
{
    const struct mixegorta_job *j = &read_job.job;
    const struct mixegorta_bond_and_option_prices p =
        mixegorta_bond_and_option(j->steps, j->reversion, discounts, MIXEGORTA_MAX_DISCOUNTS, j->flows, j->steps, j->option.kind,
                                  j->option.expiry, j->option.strike);
    return p.bond.value + p.option.value;
}

static uint64_t strip(void)
{
    const struct mixegorta_job *j = &read_job.job;
    const struct mixegorta_strip s =
        mixegorta_option_strip_of_kind(j->steps, j->reversion, discounts, MIXEGORTA_MAX_DISCOUNTS, j->flows, j->steps, j->option.kind,
                                       j->option.expiry, strikes, 16);
    return s.values[0] + s.values[15];
}

static uint64_t job_prices(void)
{
    const struct mixegorta_job_prices p =
        mixegorta_prices_of_job(job, job_size, discounts, MIXEGORTA_MAX_DISCOUNTS, prices, MIXEGORTA_MAX_STATE_PRICES);
    return p.bond.value + p.option.value;
}

static uint64_t whole_sheet(void)
{
    return mixegorta_sheet(job, job_size, sheet, MIXEGORTA_SHEET_ROOM).size;
}

static const struct { const char *name; uint64_t (*call)(void); } works[] = {
    {"fit", fit}, {"bond-and-option", bond_and_option}, {"strip", strip}, {"job", job_prices}, {"sheet", whole_sheet}};

static double now(void)
{
    struct timespec t;
    clock_gettime(CLOCK_PROCESS_CPUTIME_ID, &t);
    return (double)t.tv_sec * 1e9 + (double)t.tv_nsec;
}

static int ready(const char *path)
{
    FILE *file = fopen(path, "rb");
    if (!file)
        return 0;
    job_size = fread(job, 1, sizeof job, file);
    fclose(file);
    read_job = mixegorta_read_job(job, job_size);
    for (size_t k = 0; k < 60; k++)
        rows[k] = k + 1;
    memcpy(figures, read_job.job.figures, sizeof figures);
    for (size_t k = 0; k < 16; k++)
        strikes[k] = read_job.job.option.strike + k * 10000000 - 60000000;
    return read_job.number == 0 && read_job.job.steps == 60;
}

int main(int count, char **words)
{
    char name[32];
    unsigned long times;
    if (count != 2 || !ready(words[1]))
        return 2;
    while (scanf("%31s %lu", name, &times) == 2) {
        for (size_t k = 0; k < sizeof works / sizeof works[0]; k++) {
            if (strcmp(works[k].name, name))
                continue;
            uint64_t sum = 0;
            const double start = now();
            for (unsigned long each = 0; each < times; each++)
                sum += works[k].call();
            printf("%.0f %" PRIu64 "\n", (now() - start) / (double)times, sum);
            fflush(stdout);
        }
    }
    return 0;
}
