/* Writing jobs (document 02, request (xii)) through the C header: bytes to a record and back, a record to bytes and back, records that no job is
 * read as, and memory that is just enough or one byte short. Every memory stands between pages that may not be touched. Exit status 1 where a
 * check fails. */
#define _DEFAULT_SOURCE
#include "mixegorta.h"

#include <stdbool.h>
#include <stdio.h>
#include <stdlib.h>
#include <string.h>
#ifdef _WIN32
#include <windows.h>
#else
#include <sys/mman.h>
#endif

enum { PAGE = 4096, ROOM = 4 * PAGE, MOST = MIXEGORTA_MAX_JOB, STEPS = MIXEGORTA_MAX_JOB_STEPS, DATES = MIXEGORTA_MAX_JOB_DATES };
#define TWO_TO_32 (UINT64_C(1) << 32)

typedef struct mixegorta_job record;
typedef struct mixegorta_answer answer;

static unsigned checks, failures;

static void check(bool holds, int line, const char *text) {
    checks++;
    if (!holds) {
        failures++;
        if (failures < 50) printf("jobs.c:%d: not so: %s\n", line, text);
    }
}

#define CHECK(condition) check((condition), __LINE__, #condition)

/* Memory with a page on either side that may not be touched. */
static uint8_t *guarded(void) {
#ifdef _WIN32
    DWORD before;
    uint8_t *all = VirtualAlloc(NULL, ROOM + 2 * PAGE, MEM_RESERVE | MEM_COMMIT, PAGE_NOACCESS);
    if (all == NULL || !VirtualProtect(all + PAGE, ROOM, PAGE_READWRITE, &before)) exit(2);
#else
    uint8_t *all = mmap(NULL, ROOM + 2 * PAGE, PROT_NONE, MAP_PRIVATE | MAP_ANONYMOUS, -1, 0);
    if (all == MAP_FAILED || mprotect(all + PAGE, ROOM, PROT_READ | PROT_WRITE)) exit(2);
#endif
    return all + PAGE;
}

static uint8_t *input, *output;

/* ---- jobs as bytes, and the record of each, both by document 01's list of fields */

static struct {
    uint8_t bytes[2 * MOST];
    size_t size;
    record wanted;
} job;

static void put_number(uint64_t number, int width) {
    while (width-- > 0) job.bytes[job.size++] = (uint8_t)(number >> 8 * width);
}

static void put(uint8_t tag, uint64_t number, int width) {
    job.bytes[job.size++] = tag;
    put_number((uint64_t)width, 2);
    put_number(number, width);
}

static void start(uint64_t frequency, size_t steps, uint64_t reversion, uint64_t volatility, uint64_t version) {
    memset(&job, 0, sizeof job);
    put(0x01, frequency, 1), job.wanted.frequency = frequency;
    put(0x02, steps, 1), job.wanted.steps = steps;
    put(0x03, reversion, 2), job.wanted.reversion = reversion;
    put(0x04, volatility, 4), job.wanted.volatility = volatility;
    if (version != 0) put(0x0B, version, 1), job.wanted.version = version;
}

/* Figures that a change of float would alter: signalling and quiet NaN with a payload, both zeros, infinities, a subnormal, all ones. */
static const uint64_t strange[] = {UINT64_C(0x7FF0000000000001), UINT64_C(0x7FF8000000000123), UINT64_C(0xFFF8000000000000),
                                   UINT64_C(0x8000000000000000), 0, UINT64_C(0x7FF0000000000000), UINT64_C(0xFFF0000000000000), 1,
                                   UINT64_MAX, UINT64_C(0x3FF00A3D70A3D70A), UINT64_C(0x0102030405060708)};
enum { STRANGE = sizeof strange / sizeof strange[0] };

static void put_curve(void) {
    const uint8_t kinds[] = {5, 6, 9};
    const uint64_t flows[] = {0, 1, MIXEGORTA_ONE, UINT32_MAX, 0x01020304};
    for (size_t i = 0; i < job.wanted.steps; i++) {
        job.wanted.kinds[i] = kinds[i % 3], job.wanted.figures[i] = strange[i % STRANGE];
        put(job.wanted.kinds[i], job.wanted.figures[i], 8);
    }
    for (size_t i = 0; i < job.wanted.steps; i++) {
        job.wanted.flows[i] = flows[i % 5];
        put(0x07, job.wanted.flows[i], 4);
    }
}

static void put_kind(uint64_t kind, uint64_t expiry, uint64_t strike) {
    put(0x08, kind << 40 | expiry << 32 | strike, 6);
    job.wanted.option.tag = MIXEGORTA_OPTION_OF_KIND, job.wanted.option.kind = kind;
    job.wanted.option.expiry = expiry, job.wanted.option.strike = strike;
}

/* A list of so many rows, 255 first and not rising: the form is all that counts. */
static void put_dates(uint64_t side, uint64_t strike, size_t count) {
    job.bytes[job.size++] = 0x0A;
    put_number(5 + count, 2), put_number(side, 1), put_number(strike, 4);
    job.wanted.option.tag = MIXEGORTA_DATED_OPTION, job.wanted.option.kind = side;
    job.wanted.option.strike = strike, job.wanted.option.count = count;
    for (size_t i = 0; i < count; i++) {
        job.wanted.option.dates[i] = (uint8_t)(255 - i % 256);
        put_number(job.wanted.option.dates[i], 1);
    }
}

/* ---- calls */

static bool same_option(const struct mixegorta_option_record *a, const struct mixegorta_option_record *b) {
    return a->tag == b->tag && a->kind == b->kind && a->expiry == b->expiry && a->strike == b->strike && a->count == b->count &&
           memcmp(a->dates, b->dates, sizeof a->dates) == 0;
}

static bool same_record(const record *a, const record *b) {
    return a->frequency == b->frequency && a->steps == b->steps && a->reversion == b->reversion && a->volatility == b->volatility &&
           a->version == b->version && memcmp(a->kinds, b->kinds, sizeof a->kinds) == 0 &&
           memcmp(a->figures, b->figures, sizeof a->figures) == 0 && memcmp(a->flows, b->flows, sizeof a->flows) == 0 &&
           same_option(&a->option, &b->option);
}

static const record nothing;

/* Reads bytes that end at the last byte that may be touched, and again bytes that begin at the first. */
static struct mixegorta_reading read_job(const uint8_t *bytes, size_t size) {
    memmove(input, bytes, size);
    const struct mixegorta_reading first = mixegorta_read_job(input, size);
    memmove(input + ROOM - size, bytes, size);
    const struct mixegorta_reading last = mixegorta_read_job(input + ROOM - size, size);
    CHECK(first.number == last.number && same_record(&first.job, &last.job));
    return last;
}

static bool unread(const uint8_t *bytes, size_t size) {
    const struct mixegorta_reading found = read_job(bytes, size);
    return found.number == 1 && same_record(&found.job, &nothing);
}

static uint8_t pattern(size_t i) { return (uint8_t)(0xA5 ^ i % 251); }

static bool kept(size_t from, size_t to) {
    for (size_t i = from; i < to; i++)
        if (output[i] != pattern(i)) return false;
    return true;
}

/* Writes into so much room at the end of what may be touched, or at its front. */
static answer write_job(const record *given, size_t room, bool at_front) {
    for (size_t i = 0; i < ROOM; i++) output[i] = pattern(i);
    return mixegorta_write_job(*given, at_front ? output : output + ROOM - room, room);
}

static bool written_at(const record *given, size_t room, bool at_front) {
    const answer found = write_job(given, room, at_front);
    const size_t from = at_front ? 0 : ROOM - room;
    return found.number == 0 && found.value == job.size && memcmp(output + from, job.bytes, job.size) == 0 && kept(0, from) &&
           kept(from + job.size, ROOM);
}

/* Whether the record is written as the job's bytes, in front of what stood there. */
static bool written(const record *given, size_t room) { return written_at(given, room, false) && written_at(given, room, true); }

static bool refused(const record *given, size_t room, uint64_t number) {
    const answer found = write_job(given, room, false);
    return found.number == number && found.value == 0 && kept(0, ROOM);
}

/* No job is read as the record: 1 whatever the room. */
static bool unwritten(const record *given) { return refused(given, MOST, 1) && refused(given, 0, 1) && refused(given, ROOM, 1); }

/* ---- both round trips */

static void round_trips(void) {
    const struct mixegorta_reading found = read_job(job.bytes, job.size);
    CHECK(found.number == 0 && same_record(&found.job, &job.wanted));
    CHECK(written(&found.job, job.size) && written(&job.wanted, job.size));
    CHECK(written(&found.job, job.size + 1) && written(&found.job, MOST + 1));
    CHECK(refused(&found.job, job.size - 1, 6) && refused(&found.job, 0, 6));
    CHECK(mixegorta_write_job(found.job, NULL, 0).number == 6);
}

/* The job that document 01 prints, its record by hand. */
static void document_job(void) {
    const uint8_t printed[] = {0x01, 0, 1, 1, 0x02, 0, 1, 1, 0x03, 0, 2, 0, 0, 0x04, 0, 4, 0, 0, 0, 0, 0x05, 0, 8, 0x3F, 0xF0, 0x0A, 0x3D, 0x70,
                               0xA3, 0xD7, 0x0A, 0x07, 0, 4, 0x3B, 0x9A, 0xCA, 0x00, 0x08, 0, 6, 4, 1, 0x3C, 0x33, 0x60, 0x80};
    const double factor = 1.0025;
    record by_hand = {.frequency = 1, .steps = 1, .kinds = {MIXEGORTA_DISCOUNT_FACTOR}, .flows = {MIXEGORTA_ONE},
                      .option = {.tag = MIXEGORTA_OPTION_OF_KIND, .kind = MIXEGORTA_AMERICAN_PUT, .expiry = 1, .strike = 1010000000}};
    memcpy(by_hand.figures, &factor, sizeof factor);
    const struct mixegorta_reading found = read_job(printed, sizeof printed);
    CHECK(found.number == 0 && same_record(&found.job, &by_hand));
    memcpy(job.bytes, printed, job.size = sizeof printed);
    CHECK(written(&by_hand, sizeof printed) && refused(&by_hand, sizeof printed - 1, 6));
}

static void put_option(size_t form) {
    const size_t counts[] = {0, 1, 2, 60};
    if (form == 1) put_kind(MIXEGORTA_AMERICAN_CALL, 7, MIXEGORTA_ONE);
    if (form == 2) put_kind(255, 255, UINT32_MAX);
    if (form == 3) put_kind(0, 0, 0);
    if (form >= 4) put_dates(form == 5 ? 255 : MIXEGORTA_PUT, form == 5 ? UINT32_MAX : 0, counts[form - 4]);
}

/* Every form: no step, a few, more than any tree has, all; with and without version; every option. Limits are no matter of the form. */
static void every_form(void) {
    const size_t steps[] = {0, 1, 2, 11, 60, 61, 200, 255};
    for (size_t k = 0; k < sizeof steps / sizeof steps[0]; k++)
        for (uint64_t version = 0; version <= 2; version++)
            for (size_t form = 0; form < 8; form++) {
                start(form == 2 ? 255 : 3, steps[k], form % 2 ? 65535 : 0, form % 3 ? UINT32_MAX : 50001, version);
                put_curve();
                put_option(form);
                round_trips();
            }
}

/* Jobs of 4,700 bytes, and lists with a row more. */
static void longest(void) {
    const struct { size_t steps; uint64_t version; size_t dates; } each[] = {{255, 0, 82}, {255, 1, 78}, {255, 2, 78}, {0, 0, DATES}, {0, 2, DATES - 4},
                                                                            {60, 0, DATES - 18 * 60}};
    for (size_t k = 0; k < sizeof each / sizeof each[0]; k++) {
        start(1, each[k].steps, 0, 0, each[k].version), put_curve(), put_dates(1, 1, each[k].dates);
        CHECK(job.size == MOST);
        round_trips();
        start(1, each[k].steps, 0, 0, each[k].version), put_curve(), put_dates(1, 1, each[k].dates + (each[k].dates < DATES));
        if (each[k].dates == DATES) job.wanted.option.count++;
        CHECK(unwritten(&job.wanted));
        if (job.size > MOST) CHECK(unread(job.bytes, job.size));
    }
}

/* Version 1 by its field and by absence, and one right from field 08 and from 0A: other records, other bytes. */
static void told_otherwise(void) {
    start(1, 5, 100, 1000, 0), put_curve(), put_kind(MIXEGORTA_EUROPEAN_CALL, 2, 7);
    const record plain = job.wanted;
    const size_t size = job.size;
    start(1, 5, 100, 1000, 1), put_curve(), put_kind(MIXEGORTA_EUROPEAN_CALL, 2, 7);
    round_trips();
    CHECK(job.size == size + 4 && !same_record(&plain, &job.wanted));
    start(1, 5, 100, 1000, 0), put_curve(), put_dates(MIXEGORTA_CALL, 7, 1);
    job.bytes[job.size - 1] = job.wanted.option.dates[0] = 2;
    round_trips();
    CHECK(job.size == size && !same_record(&plain, &job.wanted));
}

/* ---- bytes that are no job */

static void malformed(void) {
    start(1, 2, 0, 0, 0), put_curve();
    const size_t bare = job.size;
    put_kind(1, 1, 1);
    uint8_t bytes[MOST + 1] = {0};
    for (size_t size = 0; size < job.size; size++)
        if (size != bare) CHECK(unread(job.bytes, size));
    CHECK(mixegorta_read_job(NULL, 0).number == 1);
    memcpy(bytes, job.bytes, job.size);
    CHECK(unread(bytes, job.size + 1) && unread(bytes, MOST) && unread(bytes, MOST + 1));
    const size_t heads[] = {0, 4, 8, 13, 20, 31, 42, 49, 56};
    for (size_t k = 0; k < sizeof heads / sizeof heads[0]; k++)
        for (int tag = 0; tag < 256; tag++) {
            const bool good = tag == job.bytes[heads[k]] || ((heads[k] == 20 || heads[k] == 31) && (tag == 5 || tag == 6 || tag == 9)) ||
                              (heads[k] == 56 && tag == 0x0A);
            memcpy(bytes, job.bytes, job.size);
            bytes[heads[k]] = (uint8_t)tag;
            if (!good) CHECK(unread(bytes, job.size));
            memcpy(bytes, job.bytes, job.size);
            bytes[heads[k] + 2] = (uint8_t)tag;
            if (tag != job.bytes[heads[k] + 2]) CHECK(unread(bytes, job.size));
        }
    for (int version = 0; version < 256; version++) {
        start(1, 2, 0, 0, 1), put_curve();
        job.bytes[23] = (uint8_t)version;
        if (version != 1 && version != 2) CHECK(unread(job.bytes, job.size));
    }
}

/* ---- records that no job is read as */

static record base;

static void spoiled_number(uint64_t *place, uint64_t width) {
    const uint64_t old = *place, past = width == 64 ? 0 : UINT64_C(1) << width;
    const uint64_t bad[] = {past, past + old, past + 1, TWO_TO_32 + old, (UINT64_C(1) << 63) + old, UINT64_MAX};
    for (size_t i = 0; i < sizeof bad / sizeof bad[0]; i++) {
        *place = bad[i];
        CHECK(unwritten(&base));
    }
    *place = old;
    CHECK(write_job(&base, MOST, true).number == 0);
}

/* Numbers one past their width, and valid numbers with 256, 2^32 or 2^63 added, which a narrower number would lose. */
static void past_a_width(void) {
    spoiled_number(&base.frequency, 8);
    spoiled_number(&base.reversion, 16);
    spoiled_number(&base.volatility, 32);
    spoiled_number(&base.version, 8);
    spoiled_number(&base.option.kind, 8);
    spoiled_number(&base.option.expiry, 8);
    spoiled_number(&base.option.strike, 32);
    spoiled_number(&base.option.tag, 8);
    for (size_t i = 0; i < base.steps; i++) spoiled_number(&base.flows[i], 32);
    const size_t steps = base.steps, count = base.option.count;
    const size_t lengths[] = {256, 256 + steps, (size_t)TWO_TO_32 + steps, SIZE_MAX, steps - 1, steps + 1, 0, 255};
    for (size_t i = 0; i < sizeof lengths / sizeof lengths[0]; i++) {
        base.steps = lengths[i];
        CHECK(unwritten(&base));
    }
    base.steps = steps;
    const size_t counts[] = {DATES + 1, 65536 + count, (size_t)TWO_TO_32 + count, SIZE_MAX};
    for (size_t i = 0; i < sizeof counts / sizeof counts[0]; i++) {
        base.option.count = counts[i];
        CHECK(unwritten(&base));
    }
    base.option.count = count;
}

static void other_kinds(void) {
    for (size_t i = 0; i < base.steps; i++) {
        const uint8_t old = base.kinds[i];
        for (int kind = 0; kind < 256; kind++) {
            base.kinds[i] = (uint8_t)kind;
            const bool good = kind == 5 || kind == 6 || kind == 9;
            CHECK(good ? write_job(&base, MOST, true).number == 0 : unwritten(&base));
        }
        base.kinds[i] = old;
    }
    const uint64_t versions[] = {3, 4, 255, 256, 256 + 1, 256 + 2, TWO_TO_32, TWO_TO_32 + 1, UINT64_MAX};
    const uint64_t version = base.version;
    for (size_t i = 0; i < sizeof versions / sizeof versions[0]; i++) {
        base.version = versions[i];
        CHECK(unwritten(&base));
    }
    base.version = version;
    const uint64_t tag = base.option.tag;
    for (uint64_t other = 0; other < 512; other++) {
        base.option.tag = other;
        if (other != tag && other != MIXEGORTA_DATED_OPTION) CHECK(unwritten(&base));
    }
    base.option.tag = tag;
}

/* One in each place that the record does not use. */
static void junk(void) {
    for (size_t i = base.steps; i < STEPS; i++) {
        base.kinds[i] = 1, CHECK(unwritten(&base)), base.kinds[i] = 5, CHECK(unwritten(&base)), base.kinds[i] = 0;
        base.figures[i] = 1, CHECK(unwritten(&base)), base.figures[i] = UINT64_C(1) << 63, CHECK(unwritten(&base)), base.figures[i] = 0;
        base.flows[i] = 1, CHECK(unwritten(&base)), base.flows[i] = TWO_TO_32, CHECK(unwritten(&base)), base.flows[i] = 0;
    }
    for (size_t i = base.option.count; i < DATES; i++) base.option.dates[i] = 1, CHECK(refused(&base, MOST, 1)), base.option.dates[i] = 0;
    CHECK(write_job(&base, MOST, true).number == 0);
}

/* The option's numbers that its tag does not have. */
static void of_another_tag(void) {
    start(1, 2, 0, 0, 0), put_curve();
    base = job.wanted;
    uint64_t *numbers[] = {&base.option.kind, &base.option.expiry, &base.option.strike};
    for (size_t k = 0; k < 3; k++) *numbers[k] = 1, CHECK(unwritten(&base)), *numbers[k] = 0;
    base.option.count = 1, CHECK(unwritten(&base)), base.option.count = 0;
    for (uint64_t tag = 1; tag < 512; tag++) {
        base.option.tag = tag;
        if (tag != MIXEGORTA_OPTION_OF_KIND && tag != MIXEGORTA_DATED_OPTION) CHECK(unwritten(&base));
    }
    base.option.tag = TWO_TO_32, CHECK(unwritten(&base)), base.option.tag = TWO_TO_32 + 8, CHECK(unwritten(&base)), base.option.tag = 0;
    CHECK(written(&base, job.size));
    put_kind(1, 1, 1), base = job.wanted;
    base.option.count = 1, CHECK(unwritten(&base)), base.option.dates[0] = 1, CHECK(unwritten(&base));
    base.option.count = 0, CHECK(unwritten(&base)), base.option.dates[0] = 0;
    CHECK(written(&base, job.size));
    start(1, 2, 0, 0, 0), put_curve(), put_dates(1, 1, 3), base = job.wanted;
    base.option.expiry = 1, CHECK(unwritten(&base)), base.option.expiry = 0;
    base.option.count = 2, CHECK(unwritten(&base)), base.option.count = 3;
    CHECK(written(&base, job.size));
}

static void spoiled(void) {
    start(1, 2, 77, 1000, 2), put_curve(), put_kind(1, 1, 1);
    base = job.wanted;
    past_a_width();
    other_kinds();
    junk();
    start(1, 3, 77, 1000, 0), put_curve(), put_dates(1, 1, 3), base = job.wanted;
    junk();
    start(1, 0, 77, 1000, 1), base = job.wanted;
    junk();
    of_another_tag();
}

/* What is written is what the sheet takes: the job is built without a byte by hand. */
static void sheet_of_a_record(void) {
    static uint8_t room[MIXEGORTA_SHEET_ROOM];
    static const char wanted[] = "bond 1.002500000 2\noption 0.007500000 2\n";
    const double factor = 1.0025;
    record built = {.frequency = 1, .steps = 1, .kinds = {MIXEGORTA_DISCOUNT_FACTOR}, .flows = {MIXEGORTA_ONE},
                    .option = {.tag = MIXEGORTA_DATED_OPTION, .kind = MIXEGORTA_PUT, .strike = 1010000000, .count = 1}};
    memcpy(built.figures, &factor, sizeof factor);
    const answer found = write_job(&built, MOST, true);
    const struct mixegorta_written sheet = mixegorta_sheet(output, found.value, room, sizeof room);
    CHECK(found.number == 0 && sheet.number == 0);
    CHECK(memcmp(room + sizeof room - (sizeof wanted - 1), wanted, sizeof wanted - 1) == 0);
}

int main(void) {
    input = guarded(), output = guarded();
    document_job();
    every_form();
    longest();
    told_otherwise();
    malformed();
    spoiled();
    sheet_of_a_record();
    printf("%u checks, %u failures\n", checks, failures);
    return failures == 0 ? 0 : 1;
}
