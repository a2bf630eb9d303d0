// The header in C++: every struct as a type of its own, and calls of each shape. Prints nothing where all is well.
#include "mixegorta.h"

#include <cstddef>
#include <cstdio>
#include <string>
#include <vector>

static int failures = 0;

#define EXPECT(condition)                                                \
    do {                                                                 \
        if (!(condition)) {                                              \
            std::printf("c/test.cpp:%d: %s\n", __LINE__, #condition);    \
            failures++;                                                  \
        }                                                                \
    } while (0)

static void shapes() {
    const mixegorta_answer nodes = mixegorta_node_count(1000, 1);
    EXPECT(nodes.number == 0 && nodes.value == 3);
    const mixegorta_node_branches branches = mixegorta_branches(1000, 1, 1);
    EXPECT(branches.number == 0 && branches.lowest == 0);
    EXPECT(branches.probabilities[0] + branches.probabilities[1] + branches.probabilities[2] == MIXEGORTA_PROBABILITY_ONE);
    EXPECT(mixegorta_half_width(MIXEGORTA_MAX_REVERSION + 1, 0).number == 4);
    const mixegorta_answer working = mixegorta_working_reversion(2, 1000);
    EXPECT(working.number == 0 && working.value == 952);
}

static void quotes() {
    const mixegorta_point point = {1, 1.0025};
    const mixegorta_answer discount = mixegorta_quote_discount(1, MIXEGORTA_DISCOUNT_FACTOR, point);
    EXPECT(discount.number == 0 && discount.value == 1002500000);
    const mixegorta_rate rate = mixegorta_step_rate(discount.value);
    EXPECT(rate.number == 0 && rate.value == -2493766);
}

static void prices() {
    const std::vector<uint64_t> rows = {1}, flows = {MIXEGORTA_ONE};
    const std::vector<uint8_t> kinds = {MIXEGORTA_DISCOUNT_FACTOR};
    const std::vector<double> figures = {1.0025};
    std::vector<uint64_t> discounts(MIXEGORTA_MAX_DISCOUNTS), state_prices(MIXEGORTA_MAX_STATE_PRICES);
    EXPECT(mixegorta_fit(1, 1, 0, 0, rows.data(), rows.size(), kinds.data(), kinds.size(), figures.data(), figures.size(),
                         discounts.data(), discounts.size(), state_prices.data(), state_prices.size()) == 0);
    const mixegorta_row_place row = mixegorta_row_range(discounts.data(), discounts.size(), state_prices.data(), state_prices.size(),
                                                        MIXEGORTA_STATE_PRICES, 1, 0, 1);
    EXPECT(row.start == 1 && row.count == 3);
    const mixegorta_bond_and_option_prices both = mixegorta_bond_and_option(
        1, 0, discounts.data(), discounts.size(), flows.data(), flows.size(), MIXEGORTA_AMERICAN_PUT, 0, 1010000000);
    const mixegorta_price bond = mixegorta_bond_price(1, 0, discounts.data(), discounts.size(), flows.data(), flows.size());
    EXPECT(bond.number == 0 && bond.value == 1002500000 && bond.bound == 2);
    EXPECT(both.bond.value == bond.value && both.option.number == 0 && both.option.value == 7500000);
    const std::vector<uint64_t> strikes = {1010000000, MIXEGORTA_MAX_STRIKE + 1, 1010000000};
    const mixegorta_strip strip = mixegorta_option_strip_of_kind(1, 0, discounts.data(), discounts.size(), flows.data(), flows.size(),
                                                                 MIXEGORTA_AMERICAN_PUT, 0, strikes.data(), strikes.size());
    EXPECT(strip.number == 0 && strip.numbers[0] == 0 && strip.values[0] == both.option.value && strip.bounds[0] == both.option.bound);
    EXPECT(strip.numbers[1] == 11 && strip.bounds[1] == 0 && strip.values[2] == strip.values[0] && strip.bounds[MIXEGORTA_MAX_STRIKES - 1] == 0);
    const mixegorta_tree_error_bounds known = mixegorta_tree_bounds(1, 0, discounts.data(), discounts.size());
    EXPECT(known.number == 0 && known.bound == bond.bound && known.greatest[0] == 1002500000 && known.greatest[1] == 0);
    const mixegorta_answer bound = mixegorta_price_error_bound(1, 0, discounts.data(), discounts.size());
    EXPECT(bound.number == 0 && bound.value == known.bound);
    EXPECT(mixegorta_fit_version(2, 1, 1, 1000, 0, rows.data(), rows.size(), kinds.data(), kinds.size(), figures.data(), figures.size(),
                                 discounts.data(), discounts.size(), state_prices.data(), state_prices.size()) == 0);
    EXPECT(discounts[0] == 1002500000 && state_prices[2] == 668333333);
}

static void sheet() {
    std::vector<uint8_t> out(MIXEGORTA_SHEET_ROOM);
    const mixegorta_written written = mixegorta_sheet(nullptr, 0, out.data(), out.size());
    EXPECT(written.number == 1 && written.size == 0);
}

static void shelf() {
    const std::vector<uint64_t> rows = {1}, flows = {MIXEGORTA_ONE};
    const std::vector<uint8_t> kinds = {MIXEGORTA_DISCOUNT_FACTOR}, dates = {0};
    const std::vector<double> figures = {1.0025};
    std::vector<uint64_t> memory(MIXEGORTA_SHELF_ROOM, 7);
    mixegorta_shelved after = mixegorta_shelf_ask(mixegorta_empty_shelf(), memory.data(), 8, 1, 0);
    const mixegorta_slot slot = after.shelf.slots[MIXEGORTA_MAX_NAME - 1];
    EXPECT(after.number == 0 && slot.status == MIXEGORTA_AWAITING && slot.steps == 1 && memory[0] == 0 && memory[1] == 7);
    EXPECT(mixegorta_shelf_bond_price(after.shelf, memory.data(), 8, flows.data(), flows.size()).number == 9);
    after = mixegorta_shelf_commit(after.shelf, memory.data(), 8, 1, 0, rows.data(), rows.size(), kinds.data(), kinds.size(),
                                   figures.data(), figures.size());
    const mixegorta_part part = mixegorta_shelf_part(after.shelf, 8);
    EXPECT(after.number == 0 && part.start == 0 && part.count == 1 && memory[0] == 1002500000);
    const mixegorta_slot fitted = after.shelf.slots[MIXEGORTA_MAX_NAME - 1];
    EXPECT(slot.bound == 0 && slot.greatest[0] == 0 && fitted.bound == 2 && fitted.greatest[0] == 1002500000 && fitted.greatest[59] == 0);
    const mixegorta_bond_and_option_prices both = mixegorta_shelf_bond_and_dated_option(
        after.shelf, memory.data(), 8, flows.data(), flows.size(), MIXEGORTA_PUT, dates.data(), dates.size(), 1010000000);
    EXPECT(both.bond.value == 1002500000 && both.option.number == 0 && both.option.value == 7500000 && both.option.bound == fitted.bound);
    const mixegorta_strip strip = mixegorta_shelf_option_strip(after.shelf, memory.data(), 8, flows.data(), flows.size(), MIXEGORTA_PUT,
                                                               dates.data(), dates.size(), flows.data(), flows.size());
    EXPECT(strip.number == 0 && strip.numbers[0] == 0 && strip.values[0] == 0 && strip.bounds[0] == fitted.bound && strip.bounds[1] == 0);
    EXPECT(mixegorta_shelf_option_strip(after.shelf, memory.data(), 7, nullptr, 0, 0, nullptr, 0, nullptr, 0).number == 15);
    EXPECT(mixegorta_shelf_ask(after.shelf, memory.data(), 1, MIXEGORTA_MAX_STEPS, 0).number == 14);
    after = mixegorta_shelf_release(after.shelf, memory.data(), 8);
    EXPECT(after.number == 0 && mixegorta_shelf_release(after.shelf, memory.data(), 8).number == 15);
}

static void bands() {
    const std::vector<uint64_t> first_rows = {1, 21}, last_rows = {20, 60}, lowest(2), highest(2, MIXEGORTA_MAX_VALUE), haircuts = {250, 0};
    const mixegorta_worth lent = mixegorta_lending_worth(first_rows.data(), 2, last_rows.data(), 2, lowest.data(), 2, highest.data(), 2,
                                                         haircuts.data(), 2, 20, MIXEGORTA_ONE);
    EXPECT(lent.verdict.number == 0 && lent.worth == 975000000);
    const mixegorta_verdict gap = mixegorta_check_bands(first_rows.data(), 1, last_rows.data(), 1, lowest.data(), 1, highest.data(), 1,
                                                        haircuts.data(), 1);
    EXPECT(gap.number == 17 && gap.row == 21 && gap.price == 0 && gap.place == 0);
}

static void records() {
    std::vector<uint8_t> out(MIXEGORTA_MAX_JOB);
    mixegorta_job job = mixegorta_job();
    job.frequency = 2;
    job.option.tag = MIXEGORTA_DATED_OPTION;
    const mixegorta_answer written = mixegorta_write_job(job, out.data(), out.size());
    EXPECT(written.number == 0 && written.value == 28);
    const mixegorta_reading read = mixegorta_read_job(out.data(), 28);
    EXPECT(read.number == 0 && read.job.frequency == 2 && read.job.option.tag == MIXEGORTA_DATED_OPTION && read.job.option.count == 0);
    job.version = 3;
    EXPECT(mixegorta_write_job(job, out.data(), 0).number == 1);
}

static void pair() {
    const std::vector<uint64_t> high(1, MIXEGORTA_MAX_NODE_DISCOUNT), flows(1, MIXEGORTA_ONE);
    const std::vector<uint8_t> dates(1, 0);
    const mixegorta_price bond = mixegorta_pair_bond_price(1, 0, high.data(), 1, 1, 6000, high.data(), 1, flows.data(), 1);
    EXPECT(bond.number == 0 && bond.value == 1210000000 && bond.bound == 2);
    const mixegorta_price put = mixegorta_pair_dated_option_price(1, 0, high.data(), 1, 1, 6000, high.data(), 1, flows.data(), 1, 2,
                                                                  dates.data(), 1, 1300000000);
    EXPECT(put.number == 0 && put.value == 90000000 && put.bound == 2);
    EXPECT(mixegorta_pair_bond_price(1, 0, high.data(), 1, 2, 0, high.data(), 1, flows.data(), 1).number == 19);
}

static void books() {
    std::vector<uint8_t> room(MIXEGORTA_BOOK_ROOM);
    const std::vector<uint8_t> file = {0x10, 0, 0, 0x10};
    const mixegorta_book_text text = mixegorta_book_report(file.data(), file.size(), room.data(), room.size());
    const std::string report(room.end() - static_cast<std::ptrdiff_t>(text.size), room.end());
    EXPECT(text.number == 0 && report.find("priced 0\nrefused 1 2\nrefused 2 0\n") == 0);
    std::vector<uint64_t> discounts(MIXEGORTA_MAX_DISCOUNTS), state_prices(MIXEGORTA_MAX_STATE_PRICES);
    const mixegorta_job_prices none = mixegorta_prices_of_job(file.data(), 0, discounts.data(), discounts.size(), state_prices.data(), state_prices.size());
    EXPECT(none.number == 1 && !none.has_option && none.bond.value == 0);
}

int main() {
    EXPECT(mixegorta_version() == MIXEGORTA_VERSION_NUMBER);
    shapes();
    quotes();
    prices();
    sheet();
    shelf();
    bands();
    records();
    pair();
    books();
    return failures == 0 ? 0 : 1;
}
