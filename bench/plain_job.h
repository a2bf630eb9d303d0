/* Document 01's job and document 02's writing of it in plain C: bytes to a record, and a record to bytes. */
#ifndef PLAIN_JOB_H
#define PLAIN_JOB_H
#include <stddef.h>
#include <stdint.h>

enum { PLAIN_STEPS = 255, PLAIN_DATES = 4672 };

struct plain_job {
    uint64_t frequency, steps, reversion, volatility, version;
    uint8_t kinds[PLAIN_STEPS];
    uint64_t figures[PLAIN_STEPS], flows[PLAIN_STEPS];
    uint64_t tag, kind, expiry, strike, count;
    uint8_t dates[PLAIN_DATES];
};

/* 0 and the record, or 1 and zeros. */
int plain_read_job(const uint8_t *bytes, size_t size, struct plain_job *job);

/* The count of bytes, or minus a refusal's number: 1 a record that no job is read as, 6 out too short. */
int plain_write_job(const struct plain_job *job, uint8_t *out, size_t room);

#endif
