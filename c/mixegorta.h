/* Mixegorta for C: a Hull-White trinomial rate tree in whole billionths.
 *
 * Link with what `pkg-config --cflags --libs mixegorta` says, once `tools/install PREFIX` has put the library there, or with the
 * archive itself, target/libmixegorta.a. The archive needs memcpy and memset of the C library and nothing else: no function here
 * allocates, keeps a pointer, calls back, prints or reads global state, so any number of threads may call at once. During a call no
 * other thread may write what the call is handed, nor read what the call may write.
 *
 * Numbers. "One" is 1,000,000,000 billionths. Discounts, state prices, flows, strikes, payoffs, values, worths and error bounds are
 * whole billionths; probabilities are whole numbers over 600,000,000.
 *
 * Trees. Row i of a tree of n steps runs from 0 to n. Its nodes are numbered -w to w, w being the row's half width. A memory holds
 * row after row, the lowest node of a row first: discounts for rows 0 to n - 1, state prices for rows 0 to n.
 *
 * Arguments. Any numbers may be passed: a call gives its full answer, or the number of a refusal with every other field 0; a shelf
 * comes back beside the number, refused or not, each answer of a strip has a number of its own, and beside 16, 17 and 18, which haircut bands
 * alone give, a verdict shows what is wrong.
 * Where several refusals apply, the lowest number is given, with these exceptions: 15 is tried before all others, 14 after 4, 19 after 3 and
 * before 4, and 13 before 12; of 17 and 18 the one whose row and price come first is given.
 *
 *   reversion   reversion per step (yearly reversion times step length) in ten-thousandths, 0 to 6,000; of a tree of version 2 its working
 *               reversion, wherever a function takes a tree and not a version
 *   steps       n, 1 to 60
 *   frequency   steps a year: 1, 2, 4 or 12
 *   volatility  yearly volatility in millionths, 0 to 50,000
 *   version     how a fit takes the reversion: 1 or 2
 *
 * Refusals, the field `number` or a returned uint64_t; 0 means that nothing was refused:
 *
 *    1  the job is malformed or longer than 4,700 bytes; of a record, no job is read as it
 *    2  the steps a year are not 1, 2, 4 or 12
 *    3  the steps are outside 1 to 60
 *    4  the reversion is above 6,000
 *    5  the volatility is above 50,000
 *    6  a length, row or node is not in the tree, a memory is too short, or the strikes are none or more than 16
 *    7  a quote's kind, figure or discount is outside its limits, or the version is not 1 or 2: an unknown kind; a figure that is NaN,
 *       infinite or beyond +-10; a rate whose divisor is 0 or less; a yield x row / frequency beyond +-4; a discount outside 100,000,000
 *       to 2,000,000,000
 *    8  the nodes are too far apart: (half width of row n - 1) x spacing is above one
 *    9  a node discount is 0 or above 1,100,000,000
 *   10  a flow is above 2,000,000,000
 *   11  the option's kind, side, expiry or strike is outside its limit
 *   12  a value is above 8,000,000,000, or state prices sum above 2,000,000,100
 *   13  the exercise dates are none, not strictly rising, or reach the last row, row n
 *   14  the asked nodes and those held are more than 3,600
 *   15  the name is outside 1 to 8, already present at asking, not awaiting a commit at commit, or absent at release or pricing; or the
 *       shelf is one that no calls lead to
 *   16  a band has an end before its start, or a haircut, start or end out of range, or there are more than 40 bands
 *   17  a row and a price are in no band
 *   18  a row and a price are in two or more bands
 *   19  the steps of a pair are above 20, or its two trees differ in them
 *
 * Memory. A slice is a pointer followed by its count of elements, never of bytes. The pointer is aligned for its type and points to
 * that many elements; with count 0 it may be NULL. All of them are initialised, those that a call only writes too: any numbers
 * will do, such as 0. Elements behind a pointer to const are only read, and such slices may overlap each other. What a pointer
 * without const reaches must overlap nothing else that the same call is handed. A refused call leaves every memory as it was,
 * except refusal 9 of mixegorta_fit and mixegorta_fit_version. The memory of a shelf has one size and comes without a count. */
#ifndef MIXEGORTA_H
#define MIXEGORTA_H

#include <stdbool.h>
#include <stddef.h>
#include <stdint.h>

/* The words of each refusal: the function mixegorta_cause of C, which is no export. */
#include "mixegorta_causes.h"

#ifdef __cplusplus
extern "C" {
#endif

/* The version of header and library, in three numbers and as a text. The shared object's name for the loader carries the first. */
#define MIXEGORTA_VERSION_MAJOR 0
#define MIXEGORTA_VERSION_MINOR 14
#define MIXEGORTA_VERSION_PATCH 2
#define MIXEGORTA_VERSION "0.14.2"

/* The same as one number, which mixegorta_version() of this header's own library answers. */
#define MIXEGORTA_VERSION_NUMBER \
    (MIXEGORTA_VERSION_MAJOR * UINT64_C(1000000) + MIXEGORTA_VERSION_MINOR * UINT64_C(1000) + MIXEGORTA_VERSION_PATCH)

/* Billionths in one, and the whole of which probabilities are parts. */
#define MIXEGORTA_ONE UINT64_C(1000000000)
#define MIXEGORTA_PROBABILITY_ONE UINT64_C(600000000)

/* The largest sizes: steps, nodes of a row, and numbers in each memory of a tree. A memory of the largest size serves every tree. */
#define MIXEGORTA_MAX_STEPS 60
#define MIXEGORTA_MAX_NODES 121
#define MIXEGORTA_MAX_DISCOUNTS 3600
#define MIXEGORTA_MAX_STATE_PRICES 3721

/* A strip has 1 to so many strikes. */
#define MIXEGORTA_MAX_STRIKES 16

/* The names of a shelf are 1 to this, and its memory has so many numbers, one for each node of its trees. */
#define MIXEGORTA_MAX_NAME 8
#define MIXEGORTA_SHELF_ROOM 3600

/* The most bands of a table, and the largest haircut, all of a price, in ten-thousandths. */
#define MIXEGORTA_MAX_BANDS 40
#define MIXEGORTA_MAX_HAIRCUT 10000

/* The largest number of steps of a rate tree and a spread tree together. */
#define MIXEGORTA_MAX_PAIR_STEPS 20

/* The longest job, and room for the sheet of every job, in bytes. */
#define MIXEGORTA_MAX_JOB 4700
#define MIXEGORTA_SHEET_ROOM 468736

/* The places of a job record: quotes and flows, as many as one byte can tell steps, and listed rows, as many as a job has room for. */
#define MIXEGORTA_MAX_JOB_STEPS 255
#define MIXEGORTA_MAX_JOB_DATES 4672
/* The most fields of a book of jobs, and room for the report of every book, in bytes. */
#define MIXEGORTA_MAX_FIELDS 500
#define MIXEGORTA_BOOK_ROOM 2304

/* The most books and fields of a report together. */
#define MIXEGORTA_MAX_REPORT_SIZE UINT64_C(2305843009)

/* The limits of arguments and values. */
#define MIXEGORTA_MAX_REVERSION 6000
#define MIXEGORTA_MAX_VOLATILITY 50000
#define MIXEGORTA_MIN_QUOTE_DISCOUNT UINT64_C(100000000)
#define MIXEGORTA_MAX_QUOTE_DISCOUNT UINT64_C(2000000000)
#define MIXEGORTA_MAX_NODE_DISCOUNT UINT64_C(1100000000)
#define MIXEGORTA_MAX_FLOW UINT64_C(2000000000)
#define MIXEGORTA_MAX_STRIKE UINT64_C(4000000000)
#define MIXEGORTA_MAX_VALUE UINT64_C(8000000000)
#define MIXEGORTA_MAX_STATE_PRICE_SUM UINT64_C(2000000100)

/* Quote kinds. */
#define MIXEGORTA_DISCOUNT_FACTOR 5
#define MIXEGORTA_YEARLY_RATE 6
#define MIXEGORTA_YEARLY_YIELD 9

/* Row kinds. */
#define MIXEGORTA_DISCOUNTS 1
#define MIXEGORTA_STATE_PRICES 2

/* Option kinds. */
#define MIXEGORTA_EUROPEAN_CALL 1
#define MIXEGORTA_EUROPEAN_PUT 2
#define MIXEGORTA_AMERICAN_CALL 3
#define MIXEGORTA_AMERICAN_PUT 4

/* Sides of an option on listed dates. */
#define MIXEGORTA_CALL 1
#define MIXEGORTA_PUT 2

/* Which field the option of a job record has: none, that of a kind, or that of listed dates. */
#define MIXEGORTA_NO_OPTION 0
#define MIXEGORTA_OPTION_OF_KIND 8
#define MIXEGORTA_DATED_OPTION 10

/* What a name of a shelf has: no tree, a tree that awaits its commit, or a fitted tree. */
#define MIXEGORTA_NO_TREE 0
#define MIXEGORTA_AWAITING 1
#define MIXEGORTA_FITTED 2

/* A number with its value; value is 0 where refused. */
struct mixegorta_answer {
    uint64_t number;
    uint64_t value;
};

/* A signed rate of one step in billionths; value is 0 where refused. */
struct mixegorta_rate {
    uint64_t number;
    int64_t value;
};

/* A price and its error bound, both in billionths: the exact price is at most `bound` above or below. Both are 0 where refused. */
struct mixegorta_price {
    uint64_t number;
    uint64_t value;
    uint64_t bound;
};

/* What is known of a tree from its discounts: the error bound of every bond and option on it, in billionths, and the greatest discount of
 * each row, row i at greatest[i], 0 from row n on. All are 0 where refused. */
struct mixegorta_tree_error_bounds {
    uint64_t number;
    uint64_t bound;
    uint64_t greatest[MIXEGORTA_MAX_STEPS];
};

/* A bond and an option on it, each with its own number. */
struct mixegorta_bond_and_option_prices {
    struct mixegorta_price bond;
    struct mixegorta_price option;
};

/* The answers of a strip of strikes, in the order of the strikes: number, price and error bound of strike k are numbers[k], values[k] and
 * bounds[k], as a struct mixegorta_price has them, each strike priced or refused by itself. Places past the strikes are 0. `number` is the
 * strip's own: where it is not 0 no strike was looked at, and every place is 0. */
struct mixegorta_strip {
    uint64_t number;
    uint64_t numbers[MIXEGORTA_MAX_STRIKES];
    uint64_t values[MIXEGORTA_MAX_STRIKES];
    uint64_t bounds[MIXEGORTA_MAX_STRIKES];
};

/* Where a node leads: to node `lowest` of the next row and the two nodes above it. probabilities[0] is up, to lowest + 2; [1] is
 * middle, to lowest + 1; [2] is down, to lowest. They sum to 600,000,000. All are 0 where refused. */
struct mixegorta_node_branches {
    uint64_t number;
    int64_t lowest;
    uint64_t probabilities[3];
};

/* A quoted point: the row, 1 to 60, and the figure, a discount factor, a simple yearly rate or a yearly yield, from -10 to 10. */
struct mixegorta_point {
    uint64_t row;
    double figure;
};

/* A row's place in the memory of its kind: elements start to start + count - 1. A refusal is start 0 and count 0. */
struct mixegorta_row_place {
    size_t start;
    size_t count;
};

/* A sheet: the last `size` bytes of the memory that was handed over for it. size is 0 where refused. */
struct mixegorta_written {
    uint64_t number;
    size_t size;
};

/* The option of a job record. tag: MIXEGORTA_OPTION_OF_KIND, with kind, expiry and strike, count and dates being 0;
 * MIXEGORTA_DATED_OPTION, with the side as `kind`, the strike and `count` listed rows at the front of dates, the other dates and expiry
 * being 0; or MIXEGORTA_NO_OPTION, all else being 0. */
struct mixegorta_option_record {
    uint64_t tag;
    uint64_t kind;
    uint64_t expiry;
    uint64_t strike;
    size_t count;
    uint8_t dates[MIXEGORTA_MAX_JOB_DATES];
};

/* A job as its fields say it, good or not. Quotes and flows stand in the first `steps` places of kinds, figures and flows, zeros after them;
 * a figure is the 64 bits of its double. version: 1 or 2 where the job says so, 0 where it has no such field. The record has some 9,100
 * bytes; the bytes between kinds and figures mean nothing, so compare records by their fields. */
struct mixegorta_job {
    uint64_t frequency;
    size_t steps;
    uint64_t reversion;
    uint64_t volatility;
    uint64_t version;
    uint8_t kinds[MIXEGORTA_MAX_JOB_STEPS];
    uint64_t figures[MIXEGORTA_MAX_JOB_STEPS];
    uint64_t flows[MIXEGORTA_MAX_JOB_STEPS];
    struct mixegorta_option_record option;
};

/* A job that was read; all of it is 0 where refused. */
struct mixegorta_reading {
    uint64_t number;
    struct mixegorta_job job;
};

/* The prices of a job: its bond and, where has_option is true, its option. All are 0 or false where refused, and the option's are 0 where
 * the job has none; number is the job's alone, those of the two prices are 0. */
struct mixegorta_job_prices {
    uint64_t number;
    struct mixegorta_price bond;
    bool has_option;
    struct mixegorta_price option;
};

/* The report of a book: the last `size` bytes of the memory that was handed over for it. size is 0 where refused. */
struct mixegorta_book_text {
    uint64_t number;
    size_t size;
};

/* The totals over so many books: how many fields they have, how many of these are priced and, at place k - 1, refused with number k, the sums of
 * the bonds, the options and the bonds' error bounds, and the dearest bond, the first one if equal: its price, the number of its book and its
 * place among that book's fields, both from 1. These three are 0 where none is priced. */
struct mixegorta_report {
    uint64_t books;
    uint64_t fields;
    uint64_t priced;
    uint64_t refused[13];
    uint64_t bonds;
    uint64_t options;
    uint64_t error_bounds;
    uint64_t dearest;
    uint64_t book;
    uint64_t place;
};

/* Two reports that were joined; the report is the empty one where refused. */
struct mixegorta_joined {
    uint64_t number;
    struct mixegorta_report report;
};

/* What a shelf keeps of a name: MIXEGORTA_NO_TREE, MIXEGORTA_AWAITING or MIXEGORTA_FITTED, the tree's steps and reversion, and of a fitted
 * tree the error bound of its prices and the greatest discount of each row, as mixegorta_tree_bounds gives them for its discounts. Bound
 * and greatest discounts are 0 while the tree awaits its commit. All are 0 where there is no tree. */
struct mixegorta_slot {
    uint64_t status;
    size_t steps;
    uint64_t reversion;
    uint64_t bound;
    uint64_t greatest[MIXEGORTA_MAX_STEPS];
};

/* A shelf. The slot of name k is slots[k - 1]. */
struct mixegorta_shelf {
    struct mixegorta_slot slots[MIXEGORTA_MAX_NAME];
};

/* A call's number, and the shelf after it: where the call is refused, the shelf that was handed over. */
struct mixegorta_shelved {
    uint64_t number;
    struct mixegorta_shelf shelf;
};

/* A tree's place in the memory of its shelf: elements start to start + count - 1. Both are 0 where the name has no tree. */
struct mixegorta_part {
    size_t start;
    size_t count;
};

/* What is said of a table of haircut bands. 0, where the table is accepted: all are 0. 16: place is that of the first bad band, counted
 * from 1, or MIXEGORTA_MAX_BANDS + 1 where only the number of bands is wrong; row and price are 0. 17 and 18: row and price are the first
 * pair that is in no band, or in several, by row and then price; place is 0. Any other number: the rest is 0. */
struct mixegorta_verdict {
    uint64_t number;
    uint64_t row;
    uint64_t price;
    uint64_t place;
};

/* A lending worth in billionths, and the verdict, whose number tells whether there is one: a worth of 0 is an answer too, and a refusal has
 * worth 0. */
struct mixegorta_worth {
    uint64_t worth;
    struct mixegorta_verdict verdict;
};

/* The version of the library that is linked or loaded: MIXEGORTA_VERSION_NUMBER where it is this header's own. */
uint64_t mixegorta_version(void);

/* ---- The shape of a tree. No memory is touched. */

/* The half width w of a row. row: 0 to 60. Refusals: 4 reversion, 6 row. */
struct mixegorta_answer mixegorta_half_width(uint64_t reversion, size_t row);

/* The number of nodes of a row, 2w + 1, at most 121. row: 0 to 60. Refusals: 4 reversion, 6 row. */
struct mixegorta_answer mixegorta_node_count(uint64_t reversion, size_t row);

/* The element at which a row starts in either memory. row: 0 to 60. Refusals: 4 reversion, 6 row. */
struct mixegorta_answer mixegorta_row_start(uint64_t reversion, size_t row);

/* How many discounts a tree has, at most 3,600. Refusals: 3 steps, 4 reversion. */
struct mixegorta_answer mixegorta_discounts_needed(size_t steps, uint64_t reversion);

/* How many state prices a tree has, at most 3,721. Refusals: 3 steps, 4 reversion. */
struct mixegorta_answer mixegorta_state_prices_needed(size_t steps, uint64_t reversion);

/* Where a node leads and how likely. row: 0 to 59, since no branch leaves row 60; node: -w to w of that row.
 * Refusals: 4 reversion, 6 row or node. */
struct mixegorta_node_branches mixegorta_branches(uint64_t reversion, size_t row, int64_t node);

/* The working reversion of a reversion per step b, in ten-thousandths, by which a tree of that version branches: b itself in version 1; in
 * version 2 ten thousand x (one - F) / one, nearest, F being the discount of a continuous yield of b. It is at most b, 0 for 0 and at
 * least 1 above. Refusals: 4 reversion, then 7 version. */
struct mixegorta_answer mixegorta_working_reversion(uint64_t version, uint64_t reversion);

/* ---- Level one: quotes, the fit, its rows and rates. */

/* The discount of one quoted point. kind: 5, 6 or 9; point.row: 1 to 60. No memory is touched.
 * Refusals: 2 frequency, 6 the point's row, 7 kind, figure or discount. */
struct mixegorta_answer mixegorta_quote_discount(uint64_t frequency, uint8_t kind, struct mixegorta_point point);

/* The discounts of the quotes of rows 1 to n. rows, kinds, figures: n elements each; rows are 1, 2 .. n; kinds are 5, 6 or 9;
 * figures -10 to 10. discounts: at least n elements. Returns the number. 0: the first n elements of discounts are the quoted discounts and
 * the others are as they were. Refusals leave discounts as it was: 2 frequency, 3 steps, 6 a count or a row, 7 a quote. */
uint64_t mixegorta_curve_discounts(uint64_t frequency, size_t steps, const uint64_t *rows, size_t rows_len,
                                   const uint8_t *kinds, size_t kinds_len, const double *figures, size_t figures_len,
                                   uint64_t *discounts, size_t discounts_len);

/* Fits a tree to the quotes of rows 1 to n, handed over as above. discounts and state_prices: at least as many elements as
 * mixegorta_discounts_needed and mixegorta_state_prices_needed say. Returns the number. 0: both memories hold the tree from their
 * start. Elements past those that the tree needs never change.
 * Refusals: 2 frequency, 3 steps, 4 reversion, 5 volatility, 6 a count, a row or a memory too short, 7 a quote and 8 nodes too far
 * apart leave both as they were; 9 a node discount puts zeros into as many elements at the start of both as the tree needs. */
uint64_t mixegorta_fit(uint64_t frequency, size_t steps, uint64_t reversion, uint64_t volatility, const uint64_t *rows,
                       size_t rows_len, const uint8_t *kinds, size_t kinds_len, const double *figures, size_t figures_len,
                       uint64_t *discounts, size_t discounts_len, uint64_t *state_prices, size_t state_prices_len);

/* Fits a tree by version: 1 is mixegorta_fit, with its answer and its memories. 2 has a closer mean and variance of a step, by
 * e^(-reversion) in place of 1 - reversion: its tree has the working reversion in place of the reversion, and a spacing of its own. With
 * reversion 0 both are one tree.
 *
 * Size the memories and price with the working reversion: ask mixegorta_working_reversion first, and hand what it answers to whatever
 * takes a tree, mixegorta_discounts_needed and mixegorta_state_prices_needed, then rows, branches, error bounds and prices. It can be
 * lower than the reversion, so a tree of version 2 can be wider: with reversion 103 and 60 steps it needs 1,960 discounts, and a memory
 * for the 1,878 of version 1 gives 6. The reversion itself goes to this function alone: a price asked for with it is another tree's.
 *
 * Refusals: those of mixegorta_fit, the memories judged by the working reversion. An unknown version gives 7: after 6, where the memories
 * are judged by the reversion itself, and before 8. */
uint64_t mixegorta_fit_version(uint64_t version, uint64_t frequency, size_t steps, uint64_t reversion, uint64_t volatility,
                               const uint64_t *rows, size_t rows_len, const uint8_t *kinds, size_t kinds_len,
                               const double *figures, size_t figures_len, uint64_t *discounts, size_t discounts_len,
                               uint64_t *state_prices, size_t state_prices_len);

/* Where a row stands in the memory of its kind. kind: 1 discounts, row 0 to n - 1; 2 state prices, row 0 to n. Both memories must
 * be long enough for the tree, whichever is asked for; their elements are not read. A refusal, of an unknown kind too, has no
 * number: its count is 0, and an accepted row has at least one node. */
struct mixegorta_row_place mixegorta_row_range(const uint64_t *discounts, size_t discounts_len, const uint64_t *state_prices,
                                               size_t state_prices_len, uint64_t kind, size_t steps, uint64_t reversion,
                                               size_t row);

/* The rate of one step, in billionths, of a discount from 1 to 1,100,000,000. No memory is touched.
 * Refusal: 9 the discount. */
struct mixegorta_rate mixegorta_step_rate(uint64_t discount);

/* The continuously compounded rate over one step, in billionths, of a discount from 1 to 1,100,000,000: of all whole numbers within
 * +-4,000,000,000 whose discount is nearest, the one of least magnitude, and of two such the smaller. No memory is touched.
 * Refusal: 9 the discount. */
struct mixegorta_rate mixegorta_continuous_rate(uint64_t discount);

/* How far below the exact ones the fitted state prices of a row may be in sum, in billionths, from the tree's discounts. discounts:
 * at least as many as needed, each needed one 1 to 1,100,000,000; only read. row: 0 to n.
 * Refusals: 3 steps, 4 reversion, 6 discounts too few or row, 9 a discount. */
struct mixegorta_answer mixegorta_state_price_error_bound(size_t steps, uint64_t reversion, const uint64_t *discounts,
                                                          size_t discounts_len, size_t row);

/* ---- Level two: prices on any discounts, a fit's or the caller's own. Memories are only read. Bonds and options are rolled back with
 * every division to the nearest, halves up; where no discount is above one, their bound is at most 2 a step. */

/* The error bound that every bond and option on a tree has, without pricing any. discounts: as above.
 * Refusals: 3 steps, 4 reversion, 6 discounts too few, 9 a discount. */
struct mixegorta_answer mixegorta_price_error_bound(size_t steps, uint64_t reversion, const uint64_t *discounts,
                                                    size_t discounts_len);

/* The same bound with the greatest discount of each row, from which it follows: 0 on row n, and on an earlier row the row's greatest
 * discount x the later row's bound / one, up, plus 2; the tree's is that of row 0. Refusals: those of mixegorta_price_error_bound. */
struct mixegorta_tree_error_bounds mixegorta_tree_bounds(size_t steps, uint64_t reversion, const uint64_t *discounts,
                                                         size_t discounts_len);

/* The price of a bond at row 0. discounts: as above. flows: n elements, those of rows 1 to n, each 0 to 2,000,000,000.
 * Refusals: 3 steps, 4 reversion, 6 discounts too few or flows not n, 9 a discount, 10 a flow, 12 a value on the way. */
struct mixegorta_price mixegorta_bond_price(size_t steps, uint64_t reversion, const uint64_t *discounts, size_t discounts_len,
                                            const uint64_t *flows, size_t flows_len);

/* The price at row 0 of an option on that bond. kind: 1 to 4; expiry: row 0 to n - 1; strike: 0 to 4,000,000,000. Exercise is on the
 * bond without the flow of its row, which stays with the seller.
 * Refusals: those of mixegorta_bond_price, and 11 kind, expiry or strike, before 12. */
struct mixegorta_price mixegorta_option_price(size_t steps, uint64_t reversion, const uint64_t *discounts,
                                              size_t discounts_len, const uint64_t *flows, size_t flows_len, uint64_t kind,
                                              size_t expiry, uint64_t strike);

/* Bond and option in one roll: `bond` is what mixegorta_bond_price answers and `option` what mixegorta_option_price answers, so
 * where the option alone is refused the bond has its price. Refusals: those of mixegorta_option_price. */
struct mixegorta_bond_and_option_prices mixegorta_bond_and_option(size_t steps, uint64_t reversion, const uint64_t *discounts,
                                                                  size_t discounts_len, const uint64_t *flows,
                                                                  size_t flows_len, uint64_t kind, size_t expiry,
                                                                  uint64_t strike);

/* The price at row 0 of an option on that bond which may be exercised on listed rows. side: 1 call, 2 put; dates: the rows, one to n of
 * them, strictly rising, each 0 to n - 1; strike: 0 to 4,000,000,000. On the last listed row the option is worth its exercise value, on
 * earlier ones the larger of that and of what holding it is worth, on every other row what holding it is worth. Exercise is on the bond
 * without the flow of its row. A European kind is the list of its expiry alone, an American kind that of every row from 0 to its expiry.
 * Refusals: those of mixegorta_bond_price, 11 side or strike, and 13 dates, after 11 and before 12. */
struct mixegorta_price mixegorta_dated_option_price(size_t steps, uint64_t reversion, const uint64_t *discounts,
                                                    size_t discounts_len, const uint64_t *flows, size_t flows_len,
                                                    uint64_t side, const uint8_t *dates, size_t dates_len, uint64_t strike);

/* Bond and dated option in one roll: `bond` is what mixegorta_bond_price answers and `option` what mixegorta_dated_option_price
 * answers. Refusals: those of mixegorta_dated_option_price. */
struct mixegorta_bond_and_option_prices mixegorta_bond_and_dated_option(size_t steps, uint64_t reversion,
                                                                        const uint64_t *discounts, size_t discounts_len,
                                                                        const uint64_t *flows, size_t flows_len, uint64_t side,
                                                                        const uint8_t *dates, size_t dates_len,
                                                                        uint64_t strike);

/* Up to 16 strikes of one side and one list of dates, with the bond rolled once for all of them: place k of the answer is what
 * mixegorta_dated_option_price answers for strikes[k], number, price and bound, whatever its neighbours are. strikes: 1 to 16 elements, in
 * any order, equal ones too. The strip itself is refused, in this order, for steps or reversion outside their limits and for no strike or
 * more than 16. With any of these every place is 0; every other refusal, of discounts and flows too, stands in the places, so look
 * at number first and then at numbers[k]:
 *
 *     if (s.number == 0 && s.numbers[k] == 0) use(s.values[k], s.bounds[k]);
 *
 * Refusals of the strip itself: 3 steps, 4 reversion, 6 count of the strikes; of its places: those of mixegorta_dated_option_price, of which 11
 * by a strike above its limit and 12 by one option's value are that place's alone. */
struct mixegorta_strip mixegorta_option_strip(size_t steps, uint64_t reversion, const uint64_t *discounts, size_t discounts_len,
                                              const uint64_t *flows, size_t flows_len, uint64_t side, const uint8_t *dates,
                                              size_t dates_len, const uint64_t *strikes, size_t strikes_len);

/* The same for one of the four kinds: place k is what mixegorta_option_price answers for strikes[k]. Refusals of the strip itself: 3 steps, 4
 * reversion, 6 count of the strikes; of its places: those of mixegorta_option_price. */
struct mixegorta_strip mixegorta_option_strip_of_kind(size_t steps, uint64_t reversion, const uint64_t *discounts,
                                                      size_t discounts_len, const uint64_t *flows, size_t flows_len,
                                                      uint64_t kind, size_t expiry, const uint64_t *strikes,
                                                      size_t strikes_len);

/* What payoffs on a row are worth by the row's state prices. Both counts are equal, odd and at most 121. payoffs: each 0 to
 * 8,000,000,000; state prices: their sum at most 2,000,000,100. Refusals: 6 the counts, 12 payoffs, sum or value. */
struct mixegorta_answer mixegorta_value_by_state_prices(const uint64_t *state_prices, size_t state_prices_len,
                                                        const uint64_t *payoffs, size_t payoffs_len);

/* How far below the exact price that value may be, in billionths, for the fitted state prices of a row. discounts: as above, the
 * tree's. row: 0 to n. payoffs: as many as the row has nodes, each 0 to 8,000,000,000.
 * Refusals: 3 steps, 4 reversion, 6 discounts too few, row or payoffs' count, 9 a discount, 12 a payoff. */
struct mixegorta_answer mixegorta_valuation_error_bound(size_t steps, uint64_t reversion, const uint64_t *discounts,
                                                        size_t discounts_len, size_t row, const uint64_t *payoffs,
                                                        size_t payoffs_len);

/* ---- A whole job: its bytes in, its sheet out. */

/* The sheet of a job: its tree, of version 1 or that of field 0B, its bond and its option, of a kind (field 08) or on listed dates (field
 * 0A in its place), as lines of ASCII, each ended by a newline; docs/MANUAL.md gives both formats. out: at least 468,736 bytes, whatever
 * the job. 0: the sheet is the last `size` bytes of out, from out + out_len - size on, without a zero byte behind it; the bytes before it
 * are as they were. Refusals leave out as it was: 1 the job's form, 2 to 5 and 7 to 9 its fit, 6 out too short, 10 a flow, 11 kind, side,
 * expiry or strike, 13 dates, before 12 a value on the way. */
struct mixegorta_written mixegorta_sheet(const uint8_t *job, size_t job_len, uint8_t *out, size_t out_len);

/* The prices of a job without its sheet, and its tree: 0 leaves the discounts and the state prices of its tree at the start of both
 * memories, sized by its steps and its working reversion; MIXEGORTA_MAX_DISCOUNTS and MIXEGORTA_MAX_STATE_PRICES numbers serve every
 * job. Nothing past those parts ever changes. Refusals leave both as they were: 1 the job's form, 2 to 5 and 7 to 9 its fit, 6 a memory
 * too short, 10 a flow, 11 kind, side, expiry or strike, 13 dates, before 12 a value on the way. */
struct mixegorta_job_prices mixegorta_prices_of_job(const uint8_t *job, size_t job_len, uint64_t *discounts, size_t discounts_len,
                                                    uint64_t *state_prices, size_t state_prices_len);

/* ---- A job as a record: bytes to its fields, and its fields to bytes. Only the form of a job counts here: steps a year of 3, 200 steps, a
 * NaN, a list of no rows or one that does not rise are read and written, and refused where the job is priced. The bits of a figure are kept,
 * of -0.0 and NaN too.
 *
 * A job that is read and written again is its own bytes, and a record that is written and read again is the same record. So version 1 and
 * no version are two records, and so are an option of a kind and one with the list of the same rows. */

/* Reads a job. 0: its record, with zeros in every place that it does not use. Refusal: 1 the job's form or length. */
struct mixegorta_reading mixegorta_read_job(const uint8_t *bytes, size_t bytes_len);

/* Writes a record at the front of out, which needs as many bytes as the job has, at most 4,700. 0: value is their count, and the bytes of
 * out behind them are as they were. A record to start from is all zeros: set the fields of the job alone. No job is read as a record with
 * more than 255 steps, a number beyond its field (frequency, kind and expiry have one byte, reversion two, volatility, flows and strike
 * four), a quote's kind that is not 5, 6 or 9, a version that is not 0, 1 or 2, an option whose numbers are not those of its tag, anything
 * but 0 in a place that is not used, or more than 4,700 bytes.
 * Refusals leave out as it was: 1 a record that no job is read as, then 6 out too short. */
struct mixegorta_answer mixegorta_write_job(struct mixegorta_job job, uint8_t *out, size_t out_len);

/* ---- A book of jobs: a whole file in, its report out. */

/* The report of a file of jobs, each in a field of one byte of tag, 10 (hex), two of length, high byte first, and its bytes; at most 500
 * fields. Eighteen lines of ASCII: how many jobs are priced, how many refused with each number from 1 to 13, the sums of the bonds, the
 * options and the bonds' error bounds, and the place of the dearest bond; docs/MANUAL.md gives the format. What is no whole field, and
 * anything after 500, ends the file and counts once under 1. out: at least 2,304 bytes, whatever the file. 0: the report is the last
 * `size` bytes of out, without a zero byte behind it; the bytes before it are as they were. A job that is refused is counted, and no
 * refusal of the call. Refusal, which leaves out as it was: 6 out too short. */
struct mixegorta_book_text mixegorta_book_report(const uint8_t *file, size_t file_len, uint8_t *out, size_t out_len);

/* ---- Reports that add up: the totals of any number of books, valued anywhere, joined in any grouping as long as the order of the books stays. */

/* The report of no book, which is neutral when joined. */
struct mixegorta_report mixegorta_empty_report(void);

/* The totals of a file of jobs, whose lines mixegorta_book_report writes, as a report of one book. Nothing is refused. */
struct mixegorta_report mixegorta_report_of_file(const uint8_t *file, size_t file_len);

/* The report of the books of both, the second's numbered after the first's. Of three the same comes out whichever two are joined first. A
 * report is one that files can give if its figures fit so many books and fields; that files did give it is not told by its figures.
 * Refusals: 1 a report that no files give, 12 more than 2,305,843,009 books and fields together, whose sums could wrap. */
struct mixegorta_joined mixegorta_joined_reports(struct mixegorta_report first, struct mixegorta_report second);

/* ---- A shelf: up to eight trees in one memory of 3,600 discounts.
 *
 * A desk keeps a struct mixegorta_shelf, at first mixegorta_empty_shelf(), and beside it a memory of MIXEGORTA_SHELF_ROOM numbers, at
 * first any. Both go together through every call, and nobody writes either in between. A shelf is handed over by value; a call that
 * may change it returns the shelf to go on with, refused or not:
 *
 *     struct mixegorta_shelved asked = mixegorta_shelf_ask(shelf, memory, 1, 20, 500);
 *     shelf = asked.shelf;
 *
 * A tree is asked for by a name from 1 to 8, which sets the nodes aside that its discounts need, all 0. It is committed, which fits it
 * as version 1, and may then be priced by its name until it is released. Where a commit is refused the tree still awaits one. The nodes
 * held are those of all trees asked for and not released; an asking finds its nodes wherever they and those held are 3,600 at most. Work
 * on one name changes no discount of another.
 *
 * A commit that is accepted works the tree's error bound and its rows' greatest discounts out once, from the discounts that it stored;
 * its slot carries them until the release, and work on other names leaves them. A price reads the bound there and does not work it out.
 *
 * Trees stand in the memory in the order of their names, without gaps. So a tree moves when others are asked for or released: a place
 * that mixegorta_shelf_part told is good until the next asking or release. Under its name a tree keeps its discounts.
 *
 * A shelf or a memory that was altered between calls still gets an answer, or a refusal: 15 for every name and nothing changed, where
 * the slots hold more nodes than the memory has, a status above 2, or a tree whose steps or reversion are outside their limits. A price's
 * bound is what the slot says, whatever the discounts are. Nothing but the memory that is handed over is ever written. What is promised
 * of a shelf's trees and prices is promised where nobody altered shelf or memory. */

/* The empty shelf: no name has a tree, and no node is held. */
struct mixegorta_shelf mixegorta_empty_shelf(void);

/* Where the discounts of a name's tree stand in the memory, row after row, the lowest node of a row first; start and count are 0 where
 * the name has no tree. */
struct mixegorta_part mixegorta_shelf_part(struct mixegorta_shelf shelf, size_t name);

/* Asks for a tree under a name that has none. 0: the name has a tree that awaits its commit, its discounts, bound and greatest discounts
 * all 0, and the trees of greater names have moved up. Refusals leave shelf and memory as they were, in this order: 15 the name, 3
 * steps, 4 reversion, 14 the nodes, which with those held are more than 3,600. */
struct mixegorta_shelved mixegorta_shelf_ask(struct mixegorta_shelf shelf, uint64_t memory[MIXEGORTA_SHELF_ROOM], size_t name,
                                             size_t steps, uint64_t reversion);

/* Fits the tree of a name that awaits its commit to the quotes of rows 1 to n, handed over as to mixegorta_fit. 0: the name has a fitted
 * tree, with the discounts that mixegorta_fit gives, and its slot what mixegorta_tree_bounds gives for these. A fitted tree is not
 * committed again: release it first. A refused commit may be tried again. No tree moves. Where somebody has altered the zeros of a tree
 * that awaits its commit, refusal 9 puts them back.
 * Refusals leave shelf and memory as they were, in this order: 15 the name, 2 frequency, 5 volatility, 6 a count or a row, 7 a quote,
 * 8 nodes too far apart, 9 a node discount. The asking has accepted steps, reversion and memory already. */
struct mixegorta_shelved mixegorta_shelf_commit(struct mixegorta_shelf shelf, uint64_t memory[MIXEGORTA_SHELF_ROOM], size_t name,
                                                uint64_t frequency, uint64_t volatility, const uint64_t *rows, size_t rows_len,
                                                const uint8_t *kinds, size_t kinds_len, const double *figures,
                                                size_t figures_len);

/* Releases the tree of a name, fitted or not: its slot is all 0, its nodes are free for any later asking, the trees of greater names have
 * moved down, and as many zeros stand at the end of the memory. Refusal, which leaves shelf and memory as they were: 15 the name. */
struct mixegorta_shelved mixegorta_shelf_release(struct mixegorta_shelf shelf, uint64_t memory[MIXEGORTA_SHELF_ROOM], size_t name);

/* The price of a bond on the tree of a name, as mixegorta_bond_price gives it for the tree's steps, reversion and discounts; the bound is
 * read from the slot. Shelf and memory are only read, here and below. Refusals, in this order: 15 the name, 6 flows not n, on a tree that
 * awaits its commit too, 9 a tree that awaits its commit, 10 a flow, 12 a value on the way. */
struct mixegorta_price mixegorta_shelf_bond_price(struct mixegorta_shelf shelf, const uint64_t memory[MIXEGORTA_SHELF_ROOM],
                                                  size_t name, const uint64_t *flows, size_t flows_len);

/* The price of an option on that bond, as mixegorta_option_price gives it. Refusals: those of mixegorta_shelf_bond_price, and 11 kind,
 * expiry or strike, before 12. */
struct mixegorta_price mixegorta_shelf_option_price(struct mixegorta_shelf shelf, const uint64_t memory[MIXEGORTA_SHELF_ROOM],
                                                    size_t name, const uint64_t *flows, size_t flows_len, uint64_t kind,
                                                    size_t expiry, uint64_t strike);

/* Bond and option in one roll, each as its own function answers. Refusals: those of mixegorta_shelf_option_price. */
struct mixegorta_bond_and_option_prices mixegorta_shelf_bond_and_option(struct mixegorta_shelf shelf,
                                                                        const uint64_t memory[MIXEGORTA_SHELF_ROOM],
                                                                        size_t name, const uint64_t *flows, size_t flows_len,
                                                                        uint64_t kind, size_t expiry, uint64_t strike);

/* The price of an option on that bond which may be exercised on listed rows, as mixegorta_dated_option_price gives it. Refusals: those
 * of mixegorta_shelf_bond_price, 11 side or strike, and 13 dates, after 11 and before 12. */
struct mixegorta_price mixegorta_shelf_dated_option_price(struct mixegorta_shelf shelf, const uint64_t memory[MIXEGORTA_SHELF_ROOM],
                                                          size_t name, const uint64_t *flows, size_t flows_len, uint64_t side,
                                                          const uint8_t *dates, size_t dates_len, uint64_t strike);

/* Bond and dated option in one roll, each as its own function answers. Refusals: those of mixegorta_shelf_dated_option_price. */
struct mixegorta_bond_and_option_prices mixegorta_shelf_bond_and_dated_option(struct mixegorta_shelf shelf,
                                                                              const uint64_t memory[MIXEGORTA_SHELF_ROOM],
                                                                              size_t name, const uint64_t *flows,
                                                                              size_t flows_len, uint64_t side,
                                                                              const uint8_t *dates, size_t dates_len,
                                                                              uint64_t strike);

/* Up to 16 strikes on the tree of a name, on listed rows, as mixegorta_option_strip has them: place k is what
 * mixegorta_shelf_dated_option_price answers for strikes[k], its bound read from the slot. Refusals of the strip itself, in this order: 15 the
 * name, 6 count of the strikes; of its places: those of mixegorta_shelf_dated_option_price, among them 6 of the flows and 9 of a tree
 * that awaits its commit. */
struct mixegorta_strip mixegorta_shelf_option_strip(struct mixegorta_shelf shelf, const uint64_t memory[MIXEGORTA_SHELF_ROOM],
                                                    size_t name, const uint64_t *flows, size_t flows_len, uint64_t side,
                                                    const uint8_t *dates, size_t dates_len, const uint64_t *strikes,
                                                    size_t strikes_len);

/* The same for one of the four kinds: place k is what mixegorta_shelf_option_price answers for strikes[k]. Refusals of the strip itself, in
 * this order: 15 the name, 6 count of the strikes; of its places: those of mixegorta_shelf_option_price. */
struct mixegorta_strip mixegorta_shelf_option_strip_of_kind(struct mixegorta_shelf shelf,
                                                            const uint64_t memory[MIXEGORTA_SHELF_ROOM], size_t name,
                                                            const uint64_t *flows, size_t flows_len, uint64_t kind,
                                                            size_t expiry, const uint64_t *strikes, size_t strikes_len);

/* ---- Haircut bands: what is lent on a bond, by its last row n and its price. Memories are only read.
 *
 * A table is five lists of one length, at most 40, the k-th numbers of which are the k-th band: its first and last row, 1 to 60, its lowest
 * and highest price, 0 to 8,000,000,000, and its haircut, 0 to 10,000 ten-thousandths. Both ends belong to the band: bands to 99 and from
 * 100 meet, bands to 100 and from 100 overlap. The table is accepted where each row 1 to 60 with each price 0 to 8,000,000,000 is in
 * precisely one band. A row is here the bond's last row n, not the row of its price. */

/* What is wrong with a table, or zeros where nothing is. All bands are looked at before any pair: a bad band behind the fortieth shows its
 * own place. Without any bands 17 shows row 1 and price 0.
 * Refusals: 6 lengths that differ, so that there is no table; 16 a bad band or too many; then whichever comes at the earlier pair, 17 a
 * pair in no band or 18 a pair in two or more. */
struct mixegorta_verdict mixegorta_check_bands(const uint64_t *first_rows, size_t first_rows_len, const uint64_t *last_rows,
                                               size_t last_rows_len, const uint64_t *lowest_prices, size_t lowest_prices_len,
                                               const uint64_t *highest_prices, size_t highest_prices_len,
                                               const uint64_t *haircuts, size_t haircuts_len);

/* What is lent on a bond of last row `row` and this price: price x (10,000 - haircut) / 10,000, down, by the haircut of the one band that
 * has both, and never more than the price. The whole table is judged with each call.
 * Refusals, in this order: 6 the row or lengths that differ, 12 a price above 8,000,000,000, then those of mixegorta_check_bands, shown
 * as there. */
struct mixegorta_worth mixegorta_lending_worth(const uint64_t *first_rows, size_t first_rows_len, const uint64_t *last_rows,
                                               size_t last_rows_len, const uint64_t *lowest_prices, size_t lowest_prices_len,
                                               const uint64_t *highest_prices, size_t highest_prices_len,
                                               const uint64_t *haircuts, size_t haircuts_len, uint64_t row, uint64_t price);

/* ---- A rate tree and a spread tree together, as corporate notes need them. Memories are only read.
 *
 * Both trees have the same number of steps, 1 to 20, and each its own reversion and discounts, which stand as those of any tree and may be a
 * fit's. Their moves are independent. A node is a pair of nodes of one row, a rate's and a spread's, and its discount is the product of
 * the two divided by one, down. The limit 1,100,000,000 is that of each tree alone: a pair may have up to 1,210,000,000. Where every needed
 * discount of one tree is one, whatever its reversion, the answer is what the function for a single tree gives for the other. */

/* The price at row 0 of the bond with these flows of rows 1 to n, and its error bound. rate_discounts and spread_discounts: at least
 * mixegorta_discounts_needed of the own steps and reversion; flows: n elements.
 * Refusals, in this order: 3 either number of steps, 19 too many steps or steps that differ, 4 either reversion, 6 counts of discounts or flows, 9 a
 * discount of either tree, then a pair of one row whose discount is 0, 10 a flow, 12 a value of some pair. */
struct mixegorta_price mixegorta_pair_bond_price(size_t rate_steps, uint64_t rate_reversion, const uint64_t *rate_discounts,
                                                 size_t rate_discounts_len, size_t spread_steps, uint64_t spread_reversion,
                                                 const uint64_t *spread_discounts, size_t spread_discounts_len,
                                                 const uint64_t *flows, size_t flows_len);

/* The price at row 0 of an option on that bond which may be exercised on listed rows; side, dates and strike as in
 * mixegorta_dated_option_price. Refusals: those of mixegorta_pair_bond_price, 11 side or strike, and 13 dates, after 11 and before 12. */
struct mixegorta_price mixegorta_pair_dated_option_price(size_t rate_steps, uint64_t rate_reversion,
                                                         const uint64_t *rate_discounts, size_t rate_discounts_len,
                                                         size_t spread_steps, uint64_t spread_reversion,
                                                         const uint64_t *spread_discounts, size_t spread_discounts_len,
                                                         const uint64_t *flows, size_t flows_len, uint64_t side,
                                                         const uint8_t *dates, size_t dates_len, uint64_t strike);

#ifdef __cplusplus
}
#endif

#endif
