/* Tests of jobs without their sheets and of books of jobs from C: figures worked out by hand, the limits and one past them, and the files of
 * crates/book_cases: books FILES REPORTS. Exit status 1 where anything is not as expected. */
#include "mixegorta.h"

#include <stdio.h>
#include <stdlib.h>
#include <string.h>

enum { FILES = 1 << 18, REPORTS = 1 << 18, JOB = 64, LENT = 8 };

static unsigned checks, failures;
static uint8_t file[FILES], cases[FILES];
static size_t used;

static void expect(int line, int holds) {
    checks++;
    if (holds) return;
    failures++;
    printf("line %d: not so\n", line);
}

#define EXPECT(holds) expect(__LINE__, holds)

static size_t put(uint8_t *to, size_t at, uint8_t tag, uint64_t number, size_t length) {
    to[at] = tag;
    to[at + 1] = (uint8_t)(length >> 8);
    to[at + 2] = (uint8_t)length;
    for (size_t k = 0; k < length; k++) to[at + 3 + k] = (uint8_t)(number >> 8 * (length - 1 - k));
    return at + 3 + length;
}

/* A job of one step at a discount of 0.9, whose bond is 0.9 times the flow; with a strike the right to sell it today. */
static size_t make_job(uint8_t *to, uint64_t flow, uint64_t strike) {
    const double discount = 0.9;
    uint64_t bits;
    memcpy(&bits, &discount, sizeof bits);
    size_t at = put(to, 0, 1, 1, 1);
    at = put(to, at, 2, 1, 1);
    at = put(to, at, 3, 0, 2);
    at = put(to, at, 4, 0, 4);
    at = put(to, at, 5, bits, 8);
    at = put(to, at, 7, flow, 4);
    return strike == 0 ? at : put(to, at, 8, UINT64_C(0x0200) << 32 | strike, 6);
}

static void prices(void) {
    uint8_t job[JOB];
    uint64_t discounts[LENT] = {7, 7}, state_prices[LENT] = {7, 7, 7, 7, 7};
    struct mixegorta_job_prices p = mixegorta_prices_of_job(job, make_job(job, MIXEGORTA_ONE, 0), discounts, 2, state_prices, 5);
    EXPECT(p.number == 0 && p.bond.number == 0 && p.bond.value == 900000000 && p.bond.bound == 2);
    EXPECT(!p.has_option && p.option.number == 0 && p.option.value == 0 && p.option.bound == 0);
    EXPECT(discounts[0] == 900000000 && discounts[1] == 7);
    EXPECT(state_prices[0] == MIXEGORTA_ONE && state_prices[2] == 600000000 && state_prices[3] == 150000000 && state_prices[4] == 7);
    p = mixegorta_prices_of_job(job, make_job(job, MIXEGORTA_ONE, MIXEGORTA_ONE), discounts, LENT, state_prices, LENT);
    EXPECT(p.number == 0 && p.has_option && p.option.number == 0 && p.option.value == 100000000 && p.option.bound == 2);
}

static void refused(int line, size_t size, const uint8_t *job, size_t discounts_len, size_t state_prices_len, uint64_t number) {
    uint64_t discounts[LENT] = {7, 7}, state_prices[LENT] = {7, 7, 7, 7, 7};
    struct mixegorta_job_prices p = mixegorta_prices_of_job(job, size, discounts, discounts_len, state_prices, state_prices_len);
    expect(line, p.number == number && !p.has_option && p.bond.number == 0 && p.bond.value == 0 && p.bond.bound == 0);
    expect(line, p.option.number == 0 && p.option.value == 0 && p.option.bound == 0);
    expect(line, discounts[0] == 7 && discounts[1] == 7 && state_prices[0] == 7 && state_prices[4] == 7);
}

static void refusals(void) {
    static uint8_t job[MIXEGORTA_MAX_JOB + 1];
    refused(__LINE__, 0, NULL, 1, 4, 1);
    refused(__LINE__, sizeof job, job, 1, 4, 1);
    refused(__LINE__, make_job(job, MIXEGORTA_ONE, 0), job, 0, 4, 6);
    refused(__LINE__, make_job(job, MIXEGORTA_ONE, 0), job, 1, 3, 6);
    refused(__LINE__, make_job(job, MIXEGORTA_MAX_FLOW + 1, 0), job, 1, 4, 10);
    refused(__LINE__, make_job(job, MIXEGORTA_ONE, MIXEGORTA_MAX_STRIKE + 1), job, 1, 4, 11);
}

static void add(uint64_t flow, uint64_t strike, size_t times) {
    uint8_t job[JOB];
    const size_t size = make_job(job, flow, strike);
    while (times-- > 0) {
        used = put(file, used, 0x10, 0, 0);
        file[used - 1] = (uint8_t)size;
        memcpy(file + used, job, size);
        used += size;
    }
}

/* Whether a file's report begins and ends with these lines, and has these counts under 1 and 11 and zeros between. */
static void says(int line, const char *first, unsigned ones, unsigned elevens, const char *last) {
    static uint8_t room[MIXEGORTA_BOOK_ROOM + 1];
    static char wanted[MIXEGORTA_BOOK_ROOM];
    size_t end = (size_t)sprintf(wanted, "%s", first);
    for (unsigned k = 1; k <= 13; k++) end += (size_t)sprintf(wanted + end, "refused %u %u\n", k, k == 1 ? ones : k == 11 ? elevens : 0);
    end += (size_t)sprintf(wanted + end, "%s", last);
    memset(room, 7, sizeof room);
    struct mixegorta_book_text t = mixegorta_book_report(file, used, room, sizeof room);
    expect(line, t.number == 0 && t.size == end && memcmp(room + sizeof room - t.size, wanted, end) == 0 && room[sizeof room - t.size - 1] == 7);
}

static void reports(void) {
    const char *nothing = "bonds 0.000000000\noptions 0.000000000\nallowances 0\ndearest 0\n";
    const char *sums = "bonds 1.800000000\noptions 0.100000000\nallowances 4\ndearest 2\n";
    says(__LINE__, "priced 0\n", 0, 0, nothing);
    add(2 * MIXEGORTA_ONE, MIXEGORTA_MAX_STRIKE + 1, 1);
    add(MIXEGORTA_ONE, MIXEGORTA_ONE, 1);
    add(MIXEGORTA_ONE, 0, 1);
    says(__LINE__, "priced 2\n", 0, 1, sums);
    used = put(file, used, 0x10, 0, 0);
    says(__LINE__, "priced 2\n", 1, 1, sums);
    used = put(file, used, 0x0A, 0, 0);
    used = put(file, used, 0x10, 0, 0);
    says(__LINE__, "priced 2\n", 2, 1, sums);
}

static void limits(void) {
    const char *sums = "bonds 900.000000000\noptions 0.000000000\nallowances 1000\ndearest 1\n";
    uint8_t room[MIXEGORTA_BOOK_ROOM];
    used = 0;
    add(2 * MIXEGORTA_ONE, 0, MIXEGORTA_MAX_FIELDS);
    says(__LINE__, "priced 500\n", 0, 0, sums);
    add(2 * MIXEGORTA_ONE, 0, 256);
    says(__LINE__, "priced 500\n", 1, 0, sums);
    memset(room, 7, sizeof room);
    struct mixegorta_book_text t = mixegorta_book_report(file, used, room, sizeof room - 1);
    EXPECT(t.number == 6 && t.size == 0 && room[0] == 7 && room[sizeof room - 2] == 7);
    t = mixegorta_book_report(NULL, 0, NULL, 0);
    EXPECT(t.number == 6 && t.size == 0);
    t = mixegorta_book_report(NULL, 0, room, sizeof room);
    EXPECT(t.number == 0 && t.size > 0 && room[sizeof room - 1] == '\n');
}

/* A field of 65,535 bytes, and a file of more bytes than 16 bits count. */
static void long_field(void) {
    memset(file, 0, sizeof file);
    file[0] = 0x10, file[1] = file[2] = 0xFF;
    used = 3 + 0xFFFF;
    add(0, 0, 1);
    says(__LINE__, "priced 1\n", 1, 0, "bonds 0.000000000\noptions 0.000000000\nallowances 2\ndearest 2\n");
}

static size_t content(const char *path, uint8_t *to) {
    FILE *in = fopen(path, "rb");
    if (in == NULL) exit(2);
    const size_t size = fread(to, 1, FILES, in);
    fclose(in);
    return size;
}

static void every_case(const char *files, const char *wanted) {
    static uint8_t told[REPORTS + MIXEGORTA_BOOK_ROOM], known[FILES], room[MIXEGORTA_BOOK_ROOM];
    const size_t all = content(files, cases), size = content(wanted, known);
    size_t end = 0, count = 0;
    for (size_t at = 0, next; at + 2 <= all && end < REPORTS; at = next, count++) {
        next = at + 2 + (size_t)cases[at] * 256 + cases[at + 1];
        const struct mixegorta_book_text t = mixegorta_book_report(cases + at + 2, next - at - 2, room, sizeof room);
        memcpy(told + end, room + sizeof room - t.size, t.size);
        end += t.size;
    }
    EXPECT(count >= 69 && end == size && memcmp(told, known, end) == 0);
}

/* Every file of the cases joined from the front, and by twos: the same report, which has all fields; the empty report is neutral. */
static void joins(const char *files) {
    const size_t all = content(files, cases);
    struct mixegorta_report whole = mixegorta_empty_report(), pairs = mixegorta_empty_report(), waiting = mixegorta_empty_report();
    size_t count = 0;
    for (size_t at = 0, next; at + 2 <= all; at = next, count++) {
        next = at + 2 + (size_t)cases[at] * 256 + cases[at + 1];
        const struct mixegorta_report one = mixegorta_report_of_file(cases + at + 2, next - at - 2);
        struct mixegorta_joined j = mixegorta_joined_reports(whole, one);
        EXPECT(j.number == 0 && one.books == 1);
        whole = j.report;
        if (count % 2 == 0) {
            waiting = one;
            continue;
        }
        j = mixegorta_joined_reports(pairs, mixegorta_joined_reports(waiting, one).report);
        EXPECT(j.number == 0);
        pairs = j.report;
    }
    if (count % 2 == 1) pairs = mixegorta_joined_reports(pairs, waiting).report;
    EXPECT(memcmp(&whole, &pairs, sizeof whole) == 0 && whole.books == count);
    EXPECT(whole.priced == 81 && whole.fields == 2705 && whole.bonds == UINT64_C(87416503240) && whole.book == 57 && whole.place == 11);
    struct mixegorta_joined j = mixegorta_joined_reports(mixegorta_empty_report(), whole);
    EXPECT(j.number == 0 && memcmp(&j.report, &whole, sizeof whole) == 0);
}

static void join_refusals(void) {
    const struct mixegorta_report none = mixegorta_empty_report();
    struct mixegorta_report one = mixegorta_report_of_file(NULL, 0), other = one;
    EXPECT(one.books == 1 && one.fields == 0 && one.book == 0 && one.place == 0);
    other.fields = UINT64_MAX;
    struct mixegorta_joined j = mixegorta_joined_reports(other, one);
    EXPECT(j.number == 1 && memcmp(&j.report, &none, sizeof none) == 0);
    EXPECT(mixegorta_joined_reports(one, other).number == 1);
    other = none;
    other.books = MIXEGORTA_MAX_REPORT_SIZE - 1;
    j = mixegorta_joined_reports(other, one);
    EXPECT(j.number == 0 && j.report.books == MIXEGORTA_MAX_REPORT_SIZE);
    j = mixegorta_joined_reports(j.report, one);
    EXPECT(j.number == 12 && memcmp(&j.report, &none, sizeof none) == 0);
    other.books = MIXEGORTA_MAX_REPORT_SIZE + 1;
    EXPECT(mixegorta_joined_reports(other, none).number == 1);
}

int main(int count, char **arguments) {
    if (count != 3) return 2;
    prices();
    refusals();
    reports();
    limits();
    long_field();
    every_case(arguments[1], arguments[2]);
    joins(arguments[1]);
    join_refusals();
    printf("C, books: %u checks, %u failed\n", checks, failures);
    return failures != 0;
}
