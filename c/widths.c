/* Numbers that would pass for valid ones if they were cut to 8, 16 or 32 bits, for every argument of every export: widths FILE, where FILE is
 * reference/widths.txt, whose form reference/widths.py tells. And every job of crates/sheet_cases: widths FILE JOBS SHEETS. Exit status 1 where an
 * answer is not the expected one. */
#include "mixegorta.h"

#include <stdbool.h>
#include <stdio.h>
#include <stdlib.h>
#include <string.h>

enum { ARGUMENTS = 10, ROOM = 1 << 17, LINE = 1 << 14, SHEETS = 1 << 22 };

/* The arguments of a line: a number, or a list or memory with its count. The one behind the last is the expected answer. */
static struct argument {
    uint64_t number;
    size_t count;
    uint64_t items[ROOM];
} given[ARGUMENTS], wanted, found;

static uint8_t bytes[ROOM];
static double figures[ROOM];
static unsigned lines, failures;

static uint64_t pattern(size_t i) { return 0xA5A5000000000000u + i; }

static void add(struct argument *to, uint64_t number) {
    if (to->count == ROOM) exit(2);
    to->items[to->count++] = number;
}

/* Numbers between commas, v*k being k times v, up to what is none. */
static void read_items(struct argument *to, char *text) {
    while (*text != ']' && *text != '\0') {
        uint64_t number = *text == '-' ? (uint64_t)strtoll(text, &text, 10) : strtoull(text, &text, 10);
        unsigned long times = *text == '*' ? strtoul(text + 1, &text, 10) : 1;
        while (times-- > 0) add(to, number);
        if (*text == ',') text++;
    }
}

static void read_argument(struct argument *to, char *text) {
    to->count = 0;
    if (*text == '[') {
        read_items(to, text + 1);
    } else if (*text == '@') {
        size_t length = strtoul(text + 1, NULL, 10);
        while (to->count < length) add(to, pattern(to->count));
    } else {
        read_items(to, text);
        to->number = to->items[0];
        to->count = 0;
    }
}

static uint64_t number(size_t place) { return given[place].number; }

#define LENT(place) given[place].items, given[place].count

static const uint8_t *as_bytes(size_t place) {
    for (size_t i = 0; i < given[place].count; i++) bytes[i] = (uint8_t)given[place].items[i];
    return bytes;
}

static const double *as_figures(size_t place) {
    memcpy(figures, given[place].items, given[place].count * sizeof figures[0]);
    return figures;
}

/* What a call answers: its number, and its fields where that is 0; a refusal with another field is told by one number more. */
static void answer(uint64_t number, const uint64_t *fields, size_t count) {
    bool zeros = true;
    add(&found, number);
    for (size_t i = 0; i < count; i++) {
        zeros = zeros && fields[i] == 0;
        if (number == 0) add(&found, fields[i]);
    }
    if (number != 0 && !zeros) add(&found, UINT64_MAX);
}

static void answer_value(struct mixegorta_answer a) { answer(a.number, &a.value, 1); }
static void answer_rate(struct mixegorta_rate r) { answer(r.number, (uint64_t[]){(uint64_t)r.value}, 1); }
static void answer_price(struct mixegorta_price p) { answer(p.number, (uint64_t[]){p.value, p.bound}, 2); }

static void answer_both(struct mixegorta_bond_and_option_prices both) {
    const struct mixegorta_price bond = both.bond, option = both.option;
    const uint64_t fields[] = {bond.number, bond.value, bond.bound, option.number, option.value, option.bound};
    for (size_t i = 0; i < 6; i++) add(&found, fields[i]);
}

/* A memory after a call: the first so many elements where the call wrote, and what was there before in all others. */
static void answer_memory(size_t place, size_t written) {
    for (size_t i = 0; i < given[place].count; i++) {
        if (i < written) add(&found, given[place].items[i]);
        if (i >= written && given[place].items[i] != pattern(i)) add(&found, UINT64_MAX);
    }
}

static void half_width(void) { answer_value(mixegorta_half_width(number(0), number(1))); }
static void node_count(void) { answer_value(mixegorta_node_count(number(0), number(1))); }
static void row_start(void) { answer_value(mixegorta_row_start(number(0), number(1))); }
static void discounts_needed(void) { answer_value(mixegorta_discounts_needed(number(0), number(1))); }
static void state_prices_needed(void) { answer_value(mixegorta_state_prices_needed(number(0), number(1))); }

static void working_reversion(void) { answer_value(mixegorta_working_reversion(number(0), number(1))); }

static void branches(void) {
    struct mixegorta_node_branches b = mixegorta_branches(number(0), number(1), (int64_t)number(2));
    answer(b.number, (uint64_t[]){(uint64_t)b.lowest, b.probabilities[0], b.probabilities[1], b.probabilities[2]}, 4);
}

static void quote_discount(void) {
    struct mixegorta_point point = {number(2), 0};
    memcpy(&point.figure, &given[3].number, sizeof point.figure);
    answer_value(mixegorta_quote_discount(number(0), (uint8_t)number(1), point));
}

static void curve_discounts(void) {
    uint64_t refused = mixegorta_curve_discounts(number(0), number(1), LENT(2), as_bytes(3), given[3].count, as_figures(4), given[4].count,
                                                 LENT(5));
    answer(refused, NULL, 0);
    answer_memory(5, refused == 0 ? number(1) : 0);
}

static void fit(void) {
    uint64_t refused = mixegorta_fit(number(0), number(1), number(2), number(3), LENT(4), as_bytes(5), given[5].count, as_figures(6),
                                     given[6].count, LENT(7), LENT(8));
    answer(refused, NULL, 0);
    answer_memory(7, refused == 0 ? mixegorta_discounts_needed(number(1), number(2)).value : 0);
    answer_memory(8, refused == 0 ? mixegorta_state_prices_needed(number(1), number(2)).value : 0);
}

static void fit_version(void) {
    uint64_t refused = mixegorta_fit_version(number(0), number(1), number(2), number(3), number(4), LENT(5), as_bytes(6), given[6].count,
                                             as_figures(7), given[7].count, LENT(8), LENT(9));
    uint64_t working = mixegorta_working_reversion(number(0), number(3)).value;
    answer(refused, NULL, 0);
    answer_memory(8, refused == 0 ? mixegorta_discounts_needed(number(2), working).value : 0);
    answer_memory(9, refused == 0 ? mixegorta_state_prices_needed(number(2), working).value : 0);
}

static void row_range(void) {
    struct mixegorta_row_place r = mixegorta_row_range(LENT(0), LENT(1), number(2), number(3), number(4), number(5));
    add(&found, r.start);
    add(&found, r.count);
}

static void step_rate(void) { answer_rate(mixegorta_step_rate(number(0))); }
static void continuous_rate(void) { answer_rate(mixegorta_continuous_rate(number(0))); }

static void state_price_error_bound(void) { answer_value(mixegorta_state_price_error_bound(number(0), number(1), LENT(2), number(3))); }

static void price_error_bound(void) { answer_value(mixegorta_price_error_bound(number(0), number(1), LENT(2))); }

static void tree_bounds(void) {
    const struct mixegorta_tree_error_bounds b = mixegorta_tree_bounds(number(0), number(1), LENT(2));
    uint64_t fields[1 + MIXEGORTA_MAX_STEPS] = {b.bound};
    memcpy(fields + 1, b.greatest, sizeof b.greatest);
    answer(b.number, fields, 1 + MIXEGORTA_MAX_STEPS);
}

static void bond_price(void) { answer_price(mixegorta_bond_price(number(0), number(1), LENT(2), LENT(3))); }

static void option_price(void) {
    answer_price(mixegorta_option_price(number(0), number(1), LENT(2), LENT(3), number(4), number(5), number(6)));
}

static void bond_and_option(void) {
    answer_both(mixegorta_bond_and_option(number(0), number(1), LENT(2), LENT(3), number(4), number(5), number(6)));
}

static void dated_option_price(void) {
    answer_price(mixegorta_dated_option_price(number(0), number(1), LENT(2), LENT(3), number(4), as_bytes(5), given[5].count, number(6)));
}

static void bond_and_dated_option(void) {
    answer_both(mixegorta_bond_and_dated_option(number(0), number(1), LENT(2), LENT(3), number(4), as_bytes(5), given[5].count, number(6)));
}

/* The columns of a strip behind its own number. */
static void answer_strip(struct mixegorta_strip s) {
    uint64_t fields[3 * MIXEGORTA_MAX_STRIKES];
    memcpy(fields, s.numbers, sizeof s.numbers);
    memcpy(fields + MIXEGORTA_MAX_STRIKES, s.values, sizeof s.values);
    memcpy(fields + 2 * MIXEGORTA_MAX_STRIKES, s.bounds, sizeof s.bounds);
    answer(s.number, fields, 3 * MIXEGORTA_MAX_STRIKES);
}

static void option_strip(void) {
    answer_strip(mixegorta_option_strip(number(0), number(1), LENT(2), LENT(3), number(4), as_bytes(5), given[5].count, LENT(6)));
}

static void option_strip_of_kind(void) {
    answer_strip(mixegorta_option_strip_of_kind(number(0), number(1), LENT(2), LENT(3), number(4), number(5), LENT(6)));
}

static void value_by_state_prices(void) { answer_value(mixegorta_value_by_state_prices(LENT(0), LENT(1))); }

static void valuation_error_bound(void) { answer_value(mixegorta_valuation_error_bound(number(0), number(1), LENT(2), number(3), LENT(4))); }

/* The numbers of a slot: status, steps, reversion, bound and greatest discounts. */
enum { SLOT = 4 + MIXEGORTA_MAX_STEPS };

/* The shelf of a line. */
static struct mixegorta_shelf shelf(void) {
    struct mixegorta_shelf made = mixegorta_empty_shelf();
    for (size_t i = 0; i < MIXEGORTA_MAX_NAME; i++) {
        const uint64_t *slot = given[0].items + SLOT * i;
        made.slots[i] = (struct mixegorta_slot){slot[0], slot[1], slot[2], slot[3], {0}};
        memcpy(made.slots[i].greatest, slot + 4, sizeof made.slots[i].greatest);
    }
    return made;
}

static uint64_t handed[MIXEGORTA_SHELF_ROOM];

/* The memory of a line, as it was handed over and to be changed. */
static uint64_t *shelf_memory(void) { return memcpy(handed, given[1].items, sizeof handed); }

/* A call's number, and where that is 0 the shelf and the memory after it; a refused call that has changed one is told by a number more. */
static void answer_shelved(struct mixegorta_shelved after) {
    bool same = memcmp(handed, given[1].items, sizeof handed) == 0;
    add(&found, after.number);
    for (size_t i = 0; i < MIXEGORTA_MAX_NAME; i++) {
        const struct mixegorta_slot slot = after.shelf.slots[i];
        uint64_t fields[SLOT] = {slot.status, slot.steps, slot.reversion, slot.bound};
        memcpy(fields + 4, slot.greatest, sizeof slot.greatest);
        for (size_t k = 0; k < SLOT; k++) {
            same = same && fields[k] == given[0].items[SLOT * i + k];
            if (after.number == 0) add(&found, fields[k]);
        }
    }
    for (size_t i = 0; i < MIXEGORTA_SHELF_ROOM && after.number == 0; i++) add(&found, handed[i]);
    if (after.number != 0 && !same) add(&found, UINT64_MAX);
}

static void shelf_part(void) {
    struct mixegorta_part part = mixegorta_shelf_part(shelf(), number(1));
    add(&found, part.start);
    add(&found, part.count);
}

static void shelf_ask(void) { answer_shelved(mixegorta_shelf_ask(shelf(), shelf_memory(), number(2), number(3), number(4))); }

static void shelf_commit(void) {
    answer_shelved(mixegorta_shelf_commit(shelf(), shelf_memory(), number(2), number(3), number(4), LENT(5), as_bytes(6), given[6].count,
                                          as_figures(7), given[7].count));
}

static void shelf_release(void) { answer_shelved(mixegorta_shelf_release(shelf(), shelf_memory(), number(2))); }

static void shelf_bond_price(void) { answer_price(mixegorta_shelf_bond_price(shelf(), shelf_memory(), number(2), LENT(3))); }

static void shelf_option_price(void) {
    answer_price(mixegorta_shelf_option_price(shelf(), shelf_memory(), number(2), LENT(3), number(4), number(5), number(6)));
}

static void shelf_bond_and_option(void) {
    answer_both(mixegorta_shelf_bond_and_option(shelf(), shelf_memory(), number(2), LENT(3), number(4), number(5), number(6)));
}

static void shelf_dated_option_price(void) {
    answer_price(mixegorta_shelf_dated_option_price(shelf(), shelf_memory(), number(2), LENT(3), number(4), as_bytes(5), given[5].count,
                                                    number(6)));
}

static void shelf_bond_and_dated_option(void) {
    answer_both(mixegorta_shelf_bond_and_dated_option(shelf(), shelf_memory(), number(2), LENT(3), number(4), as_bytes(5), given[5].count,
                                                      number(6)));
}

static void shelf_option_strip(void) {
    answer_strip(mixegorta_shelf_option_strip(shelf(), shelf_memory(), number(2), LENT(3), number(4), as_bytes(5), given[5].count, LENT(6)));
}

static void shelf_option_strip_of_kind(void) {
    answer_strip(mixegorta_shelf_option_strip_of_kind(shelf(), shelf_memory(), number(2), LENT(3), number(4), number(5), LENT(6)));
}

static void prices_of_job(void) {
    struct mixegorta_job_prices p = mixegorta_prices_of_job(as_bytes(0), given[0].count, LENT(1), LENT(2));
    answer(p.number, (uint64_t[]){p.bond.value, p.bond.bound, p.has_option, p.option.value, p.option.bound}, 5);
    answer_memory(1, p.number == 0 ? 9 : 0);
    answer_memory(2, p.number == 0 ? 16 : 0);
}

/* A report is its 22 numbers. */
static struct mixegorta_report report(size_t place) {
    const uint64_t *n = given[place].items;
    struct mixegorta_report r = {.books = n[0], .fields = n[1], .priced = n[2], .bonds = n[16], .options = n[17], .error_bounds = n[18]};
    memcpy(r.refused, n + 3, sizeof r.refused);
    r.dearest = n[19], r.book = n[20], r.place = n[21];
    return r;
}

static void joined_reports(void) {
    const struct mixegorta_joined j = mixegorta_joined_reports(report(0), report(1));
    uint64_t fields[22] = {j.report.books, j.report.fields, j.report.priced};
    memcpy(fields + 3, j.report.refused, sizeof j.report.refused);
    const uint64_t last[] = {j.report.bonds, j.report.options, j.report.error_bounds, j.report.dearest, j.report.book, j.report.place};
    memcpy(fields + 16, last, sizeof last);
    answer(j.number, fields, 22);
}

/* Verdicts show more than a number where they refuse, so all of their fields are compared. */
static void answer_verdict(struct mixegorta_verdict v) {
    const uint64_t fields[] = {v.number, v.row, v.price, v.place};
    for (size_t i = 0; i < 4; i++) add(&found, fields[i]);
}

static void check_bands(void) { answer_verdict(mixegorta_check_bands(LENT(0), LENT(1), LENT(2), LENT(3), LENT(4))); }

static void lending_worth(void) {
    struct mixegorta_worth w = mixegorta_lending_worth(LENT(0), LENT(1), LENT(2), LENT(3), LENT(4), number(5), number(6));
    add(&found, w.worth);
    answer_verdict(w.verdict);
}

enum { STEPS = MIXEGORTA_MAX_JOB_STEPS, DATES = MIXEGORTA_MAX_JOB_DATES, RECORD = 10 + 3 * STEPS + DATES };

static struct mixegorta_job as_record(size_t place) {
    const uint64_t *items = given[place].items, *figures_at = items + 5 + STEPS, *option = items + 5 + 3 * STEPS;
    struct mixegorta_job job = {items[0], items[1], items[2], items[3], items[4], {0}, {0}, {0}, {option[0], option[1], option[2], option[3], option[4], {0}}};
    for (size_t i = 0; i < STEPS; i++) {
        job.kinds[i] = (uint8_t)items[5 + i];
        job.figures[i] = figures_at[i];
        job.flows[i] = figures_at[STEPS + i];
    }
    for (size_t i = 0; i < DATES; i++) job.option.dates[i] = (uint8_t)option[5 + i];
    return job;
}

static void read_job(void) {
    const struct mixegorta_reading r = mixegorta_read_job(as_bytes(0), given[0].count);
    const struct mixegorta_job *j = &r.job;
    uint64_t fields[RECORD] = {j->frequency, j->steps, j->reversion, j->volatility, j->version}, *option = fields + 5 + 3 * STEPS;
    for (size_t i = 0; i < STEPS; i++) {
        fields[5 + i] = j->kinds[i];
        fields[5 + STEPS + i] = j->figures[i];
        fields[5 + 2 * STEPS + i] = j->flows[i];
    }
    memcpy(option, (uint64_t[]){j->option.tag, j->option.kind, j->option.expiry, j->option.strike, j->option.count}, 5 * sizeof option[0]);
    for (size_t i = 0; i < DATES; i++) option[5 + i] = j->option.dates[i];
    answer(r.number, fields, RECORD);
}

static void write_job(void) {
    as_bytes(1);
    const struct mixegorta_answer a = mixegorta_write_job(as_record(0), bytes, given[1].count);
    answer_value(a);
    for (size_t i = 0; i < given[1].count; i++) {
        if (i < a.value) add(&found, bytes[i]);
        if (i >= a.value && bytes[i] != (uint8_t)pattern(i)) add(&found, UINT64_MAX);
    }
}

#define PAIR number(0), number(1), LENT(2), number(3), number(4), LENT(5), LENT(6)

static void pair_bond_price(void) { answer_price(mixegorta_pair_bond_price(PAIR)); }

static void pair_dated_option_price(void) {
    answer_price(mixegorta_pair_dated_option_price(PAIR, number(7), as_bytes(8), given[8].count, number(9)));
}

#define CALL(name) {#name, name}
static const struct {
    const char *name;
    void (*call)(void);
} calls[] = {CALL(half_width), CALL(node_count), CALL(row_start), CALL(discounts_needed), CALL(state_prices_needed), CALL(branches),
             CALL(working_reversion), CALL(quote_discount), CALL(curve_discounts), CALL(fit), CALL(fit_version), CALL(row_range),
             CALL(step_rate), CALL(continuous_rate),
             CALL(state_price_error_bound), CALL(price_error_bound), CALL(tree_bounds), CALL(bond_price), CALL(option_price),
             CALL(bond_and_option), CALL(dated_option_price), CALL(bond_and_dated_option), CALL(value_by_state_prices),
             CALL(valuation_error_bound), CALL(shelf_part), CALL(shelf_ask), CALL(shelf_commit), CALL(shelf_release), CALL(shelf_bond_price),
             CALL(shelf_option_price), CALL(shelf_bond_and_option), CALL(shelf_dated_option_price), CALL(shelf_bond_and_dated_option),
             CALL(option_strip), CALL(option_strip_of_kind), CALL(shelf_option_strip), CALL(shelf_option_strip_of_kind),
             CALL(check_bands), CALL(lending_worth), CALL(read_job), CALL(write_job), CALL(pair_bond_price),
             CALL(pair_dated_option_price), CALL(prices_of_job), CALL(joined_reports)};

static bool called(const char *name) {
    found.count = 0;
    for (size_t i = 0; i < sizeof calls / sizeof calls[0]; i++)
        if (strcmp(calls[i].name, name) == 0) return calls[i].call(), true;
    return false;
}

/* Whether a line's call answers as the line says. */
static bool holds(char *line) {
    char *name = strtok(line, " \n"), *word;
    size_t place = 0;
    while ((word = strtok(NULL, " \n")) != NULL && strcmp(word, "=") != 0) {
        if (place == ARGUMENTS) return false;
        read_argument(&given[place++], word);
    }
    wanted.count = 0;
    while ((word = strtok(NULL, " \n")) != NULL) read_items(&wanted, *word == '[' ? word + 1 : word);
    return name != NULL && called(name) && found.count == wanted.count && wanted.count > 0 &&
           memcmp(found.items, wanted.items, found.count * sizeof found.items[0]) == 0;
}

static void table(const char *path) {
    static char line[LINE], whole[LINE];
    FILE *file = fopen(path, "r");
    if (file == NULL) exit(2);
    while (fgets(line, sizeof line, file) != NULL) {
        strcpy(whole, line);
        lines++;
        if (holds(line)) continue;
        failures++;
        printf("not so: %s", whole);
    }
    fclose(file);
}

/* The sheet of a job behind those before it, or the line that the program would print of a refusal. */
static size_t put_sheet(const uint8_t *job, size_t size, char *sheets, size_t end) {
    static uint8_t room[MIXEGORTA_SHEET_ROOM];
    struct mixegorta_written w = mixegorta_sheet(job, size, room, sizeof room);
    if (end + sizeof room > SHEETS) exit(2);
    if (w.number != 0) return end + (size_t)sprintf(sheets + end, "refused %llu\n", (unsigned long long)w.number);
    memcpy(sheets + end, room + sizeof room - w.size, w.size);
    return end + w.size;
}

/* Whether zeros behind a well-formed job, so many that a cut size would lose them, make it malformed. */
static bool malformed_when_longer(uint8_t *job, size_t size) {
    static uint8_t room[MIXEGORTA_SHEET_ROOM];
    const bool formed = mixegorta_sheet(job, size, room, sizeof room).number != 1;
    for (size_t more = 1 << 8; more <= 1 << 16; more <<= 8) {
        memset(job + size, 0, more);
        if (!formed || mixegorta_sheet(job, size + more, room, sizeof room).number == 1) continue;
        printf("not so: %zu zeros behind a job make it malformed\n", more);
        return false;
    }
    return true;
}

static void sheet_cases(const char *jobs, const char *expected) {
    static char sheets[SHEETS], read[SHEETS];
    static uint8_t job[ROOM];
    FILE *in = fopen(jobs, "rb"), *out = fopen(expected, "rb");
    size_t end = 0;
    if (in == NULL || out == NULL) exit(2);
    for (int high = fgetc(in); high != EOF; high = fgetc(in)) {
        size_t size = (size_t)high * 256 + (size_t)fgetc(in);
        if (fread(job, 1, size, in) != size) exit(2);
        end = put_sheet(job, size, sheets, end);
        lines++;
        if (!malformed_when_longer(job, size)) failures++;
    }
    if (fread(read, 1, sizeof read, out) != end || memcmp(read, sheets, end) != 0) {
        failures++;
        printf("not so: the sheets of %s\n", jobs);
    }
    fclose(in);
    fclose(out);
}

int main(int count, char **arguments) {
    if (count != 2 && count != 4) return 2;
    table(arguments[1]);
    if (count == 4) sheet_cases(arguments[2], arguments[3]);
    printf("C: %u lines and jobs, %u failed\n", lines, failures);
    return failures != 0 || lines == 0;
}
