/* The stack that a fit, a price, a strip, a commit, a pair, a job's prices, a report and a sheet take on the largest tree, and the reading and the writing of the longest
 * job, in bytes: the most of any call, on a thread whose stack is filled first. */
#define _POSIX_C_SOURCE 200809L
#define _WIN32_WINNT 0x0602
#include "mixegorta.h"

#include <stdio.h>
#include <stdlib.h>
#include <string.h>
#ifdef _WIN32
#include <windows.h>
#else
#include <pthread.h>
#endif

enum { STACK = 1 << 20, STEPS = MIXEGORTA_MAX_STEPS, PAIR_STEPS = MIXEGORTA_MAX_PAIR_STEPS, PAIR_NODES = PAIR_STEPS * PAIR_STEPS, FILL = 0xA5 };

static uint64_t rows[STEPS], flows[STEPS], discounts[MIXEGORTA_MAX_DISCOUNTS], state_prices[MIXEGORTA_MAX_STATE_PRICES];
static const uint64_t payoffs[MIXEGORTA_MAX_NODES];
static uint64_t strikes[MIXEGORTA_MAX_STRIKES], paired[PAIR_NODES];
static uint8_t kinds[STEPS], dates[STEPS], room[MIXEGORTA_SHEET_ROOM], job[MIXEGORTA_MAX_JOB], book[3 + MIXEGORTA_MAX_JOB];
static double figures[STEPS];
static size_t job_size;
static struct mixegorta_job record;
static struct mixegorta_shelf shelf;
static uint64_t shelf_memory[MIXEGORTA_SHELF_ROOM];
static uint64_t refused;

static void *nothing(void *unused) { return unused; }

static void *fit(void *unused) {
    refused = mixegorta_fit(12, STEPS, 0, 1000, rows, STEPS, kinds, STEPS, figures, STEPS, discounts, MIXEGORTA_MAX_DISCOUNTS, state_prices,
                            MIXEGORTA_MAX_STATE_PRICES);
    return unused;
}

/* With reversion 1 no tree is narrower than without any. */
static void *fit_version(void *unused) {
    refused = mixegorta_fit_version(2, 12, STEPS, 1, 1000, rows, STEPS, kinds, STEPS, figures, STEPS, discounts, MIXEGORTA_MAX_DISCOUNTS,
                                    state_prices, MIXEGORTA_MAX_STATE_PRICES);
    return unused;
}

static void *bond(void *unused) {
    refused = mixegorta_bond_price(STEPS, 0, discounts, MIXEGORTA_MAX_DISCOUNTS, flows, STEPS).number;
    return unused;
}

static void *option(void *unused) {
    refused = mixegorta_bond_and_option(STEPS, 0, discounts, MIXEGORTA_MAX_DISCOUNTS, flows, STEPS, MIXEGORTA_AMERICAN_PUT, STEPS - 1,
                                        MIXEGORTA_ONE).option.number;
    return unused;
}

static void *dated_option(void *unused) {
    refused = mixegorta_bond_and_dated_option(STEPS, 0, discounts, MIXEGORTA_MAX_DISCOUNTS, flows, STEPS, MIXEGORTA_PUT, dates, STEPS,
                                              MIXEGORTA_ONE).option.number;
    return unused;
}

static void *valuation(void *unused) {
    refused = mixegorta_value_by_state_prices(payoffs, MIXEGORTA_MAX_NODES, payoffs, MIXEGORTA_MAX_NODES).number;
    return unused;
}

static void *asking(void *unused) {
    const struct mixegorta_shelved asked = mixegorta_shelf_ask(mixegorta_empty_shelf(), shelf_memory, 8, STEPS, 0);
    refused = asked.number;
    shelf = asked.shelf;
    return unused;
}

static void *commit(void *unused) {
    const struct mixegorta_shelved fitted = mixegorta_shelf_commit(shelf, shelf_memory, 8, 12, 1000, rows, STEPS, kinds, STEPS, figures, STEPS);
    refused = fitted.number;
    shelf = fitted.shelf;
    return unused;
}

static void *shelf_option(void *unused) {
    refused = mixegorta_shelf_bond_and_dated_option(shelf, shelf_memory, 8, flows, STEPS, MIXEGORTA_PUT, dates, STEPS, MIXEGORTA_ONE).option.number;
    return unused;
}

/* Sixteen strikes; whether one of them is refused is told by the sum of their numbers. */
static void *all_taken(struct mixegorta_strip strip) {
    refused = strip.number;
    for (size_t k = 0; k < MIXEGORTA_MAX_STRIKES; k++) refused += strip.numbers[k];
    return NULL;
}

static void *strip(void *unused) {
    (void)unused;
    return all_taken(mixegorta_option_strip(STEPS, 0, discounts, MIXEGORTA_MAX_DISCOUNTS, flows, STEPS, MIXEGORTA_PUT, dates, STEPS, strikes,
                                            MIXEGORTA_MAX_STRIKES));
}

static void *strip_of_kind(void *unused) {
    (void)unused;
    return all_taken(mixegorta_option_strip_of_kind(STEPS, 0, discounts, MIXEGORTA_MAX_DISCOUNTS, flows, STEPS, MIXEGORTA_AMERICAN_PUT,
                                                    STEPS - 1, strikes, MIXEGORTA_MAX_STRIKES));
}

static void *shelf_strip(void *unused) {
    (void)unused;
    return all_taken(mixegorta_shelf_option_strip(shelf, shelf_memory, 8, flows, STEPS, MIXEGORTA_PUT, dates, STEPS, strikes,
                                                  MIXEGORTA_MAX_STRIKES));
}

static void *shelf_strip_of_kind(void *unused) {
    (void)unused;
    return all_taken(mixegorta_shelf_option_strip_of_kind(shelf, shelf_memory, 8, flows, STEPS, MIXEGORTA_AMERICAN_PUT, STEPS - 1, strikes,
                                                          MIXEGORTA_MAX_STRIKES));
}

static void *pair_bond(void *unused) {
    refused = mixegorta_pair_bond_price(PAIR_STEPS, 0, paired, PAIR_NODES, PAIR_STEPS, 0, paired, PAIR_NODES, flows, PAIR_STEPS).number;
    return unused;
}

static void *pair_option(void *unused) {
    refused = mixegorta_pair_dated_option_price(PAIR_STEPS, 0, paired, PAIR_NODES, PAIR_STEPS, 0, paired, PAIR_NODES, flows, PAIR_STEPS,
                                                MIXEGORTA_PUT, dates, PAIR_STEPS, MIXEGORTA_ONE).number;
    return unused;
}

static void *sheet(void *unused) {
    refused = mixegorta_sheet(job, job_size, room, sizeof room).number;
    return unused;
}

static void *reading(void *unused) {
    const struct mixegorta_reading found = mixegorta_read_job(job, job_size);
    refused = found.number;
    record = found.job;
    return unused;
}

static void *writing(void *unused) {
    refused = mixegorta_write_job(record, job, sizeof job).number;
    return unused;
}

static void *prices(void *unused) {
    refused = mixegorta_prices_of_job(job, job_size, discounts, MIXEGORTA_MAX_DISCOUNTS, state_prices, MIXEGORTA_MAX_STATE_PRICES).number;
    return unused;
}

/* A book of the job alone, which must be priced. */
static void *report(void *unused) {
    static const char priced[] = "priced 1\n";
    book[0] = 0x10;
    book[1] = (uint8_t)(job_size >> 8);
    book[2] = (uint8_t)job_size;
    memcpy(book + 3, job, job_size);
    const struct mixegorta_book_text text = mixegorta_book_report(book, 3 + job_size, room, MIXEGORTA_BOOK_ROOM);
    refused = text.number != 0 || memcmp(room + MIXEGORTA_BOOK_ROOM - text.size, priced, sizeof priced - 1) != 0;
    return unused;
}

#ifdef _WIN32
/* A thread's own stack is filled from where it stands, but for a few bytes of its own, down to the lowest pages, which
 * the system keeps for itself: in this order, as Windows hands its pages out. */
enum { KEPT = 8 * 4096, OWN = 512 };

static size_t found_written;

static DWORD WINAPI filled_first(void *given) {
    void *(*call)(void *);
    ULONG_PTR low, high;
    volatile unsigned char here = 0, *place;
    memcpy(&call, given, sizeof call);
    GetCurrentThreadStackLimits(&low, &high);
    const uintptr_t top = (uintptr_t)&here - OWN, bottom = low + KEPT;
    for (place = (unsigned char *)top; (uintptr_t)place > bottom; place--) place[-1] = FILL;
    call(NULL);
    for (place = (unsigned char *)bottom; (uintptr_t)place < top && *place == FILL; place++) continue;
    found_written = top + OWN - (uintptr_t)place;
    return 0;
}

/* How many bytes of its stack a thread has written. */
static size_t written(void *(*call)(void *)) {
    HANDLE thread = CreateThread(NULL, STACK, filled_first, &call, STACK_SIZE_PARAM_IS_A_RESERVATION, NULL);
    if (thread == NULL) exit(2);
    WaitForSingleObject(thread, INFINITE);
    CloseHandle(thread);
    return found_written;
}
#else
/* How many bytes of its stack a thread has written. */
static size_t written(void *(*call)(void *)) {
    unsigned char *stack = aligned_alloc(4096, STACK);
    pthread_attr_t attributes;
    pthread_t thread;
    size_t clean = 0;
    if (stack == NULL) exit(2);
    memset(stack, FILL, STACK);
    pthread_attr_init(&attributes);
    if (pthread_attr_setstack(&attributes, stack, STACK) || pthread_create(&thread, &attributes, call, NULL)) exit(2);
    pthread_join(thread, NULL);
    while (clean < STACK && stack[clean] == FILL) clean++;
    free(stack);
    return STACK - clean;
}
#endif

/* What a call that is not refused takes beside the thread itself. */
static size_t taken(void *(*call)(void *)) {
    refused = 0;
    size_t all = written(call);
    if (refused != 0) exit(3);
    return all - written(nothing);
}

/* The job of the largest tree, and then the longest of all, as the library writes them. */
static void write_job(size_t steps, size_t count) {
    memset(&record, 0, sizeof record);
    record.frequency = 12, record.steps = steps, record.reversion = 1, record.volatility = 1000, record.version = 2;
    for (size_t i = 0; i < steps; i++) {
        record.kinds[i] = MIXEGORTA_DISCOUNT_FACTOR;
        memcpy(&record.figures[i], &figures[i % STEPS], sizeof record.figures[i]);
        record.flows[i] = flows[i % STEPS];
    }
    record.option.tag = MIXEGORTA_DATED_OPTION, record.option.kind = MIXEGORTA_PUT, record.option.strike = MIXEGORTA_ONE;
    record.option.count = count;
    for (size_t i = 0; i < count; i++) record.option.dates[i] = (uint8_t)i;
    job_size = mixegorta_write_job(record, job, sizeof job).value;
}

static size_t most(size_t one, size_t other) { return one > other ? one : other; }

int main(void) {
    for (size_t i = 0; i < STEPS; i++) {
        rows[i] = i + 1;
        kinds[i] = MIXEGORTA_DISCOUNT_FACTOR;
        figures[i] = 1 - 0.002 * (double)(i + 1);
        flows[i] = i + 1 < STEPS ? 5000000 : MIXEGORTA_ONE;
        dates[i] = (uint8_t)i;
    }
    for (size_t k = 0; k < MIXEGORTA_MAX_STRIKES; k++) strikes[k] = MIXEGORTA_ONE + k;
    for (size_t k = 0; k < PAIR_NODES; k++) paired[k] = 990000000;
    write_job(STEPS, STEPS);
    printf("fit %zu\n", most(taken(fit_version), taken(fit)));
    const size_t asked = taken(asking);
    const size_t committed = most(asked, taken(commit));
    const size_t plain = most(most(taken(bond), taken(option)), most(taken(dated_option), taken(valuation)));
    printf("price %zu\n", most(plain, taken(shelf_option)));
    printf("strip %zu\n", most(most(taken(strip), taken(strip_of_kind)), most(taken(shelf_strip), taken(shelf_strip_of_kind))));
    printf("commit %zu\n", committed);
    printf("pair %zu\n", most(taken(pair_bond), taken(pair_option)));
    printf("job %zu\n", taken(prices));
    printf("report %zu\n", taken(report));
    printf("sheet %zu\n", taken(sheet));
    write_job(MIXEGORTA_MAX_JOB_STEPS, 78);
    if (job_size != MIXEGORTA_MAX_JOB) return 3;
    printf("reading %zu\n", taken(reading));
    printf("writing %zu\n", taken(writing));
    return 0;
}
