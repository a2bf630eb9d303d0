/* Document 02's haircut bands in plain C. */
#ifndef PLAIN_BANDS_H
#define PLAIN_BANDS_H
#include <stddef.h>
#include <stdint.h>

struct plain_verdict {
    uint64_t number, row, price, place;
};

struct plain_worth {
    uint64_t worth;
    struct plain_verdict verdict;
};

/* Five lists of one length. */
struct plain_bands {
    const uint64_t *first_rows, *last_rows, *lowest, *highest, *haircuts;
    size_t count;
};

struct plain_verdict plain_check_bands(const struct plain_bands *t);
struct plain_worth plain_lending_worth(const struct plain_bands *t, uint64_t row, uint64_t price);

#endif
