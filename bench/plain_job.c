#include "plain_job.h"

#include <string.h>

enum { LONGEST = 4700, OF_KIND = 8, DATED = 10, VERSION = 11 };

struct reader {
    const uint8_t *at, *end;
    int bad;
};

static uint64_t number(const uint8_t *at, size_t width)
{
    uint64_t value = 0;
    for (size_t i = 0; i < width; i++)
        value = value << 8 | at[i];
    return value;
}

/* The data of the next field, whose length is told by the field itself; NULL and `bad` where it is cut short. */
static const uint8_t *field(struct reader *r, size_t *size)
{
    if (r->bad || r->end - r->at < 3 || (size_t)(r->end - r->at) - 3 < (*size = (size_t)number(r->at + 1, 2))) {
        r->bad = 1;
        return NULL;
    }
    const uint8_t *data = r->at + 3;
    r->at = data + *size;
    return data;
}

/* The number of the next field, which has this tag and width. */
static uint64_t take(struct reader *r, uint8_t tag, size_t width)
{
    size_t size;
    const uint8_t *start = r->at, *data = field(r, &size);
    if (data == NULL || *start != tag || size != width) {
        r->bad = 1;
        return 0;
    }
    return number(data, width);
}

static int is_quote(uint8_t tag) { return tag == 5 || tag == 6 || tag == 9; }

static void read_option(struct reader *r, struct plain_job *job)
{
    size_t size;
    const uint8_t tag = *r->at, *data = field(r, &size);
    if (data == NULL || !((tag == OF_KIND && size == 6) || (tag == DATED && size >= 5))) {
        r->bad = 1;
        return;
    }
    job->tag = tag;
    job->kind = data[0];
    if (tag == OF_KIND) {
        job->expiry = data[1];
        job->strike = number(data + 2, 4);
    } else {
        job->strike = number(data + 1, 4);
        job->count = size - 5;
        memcpy(job->dates, data + 5, size - 5);
    }
}

int plain_read_job(const uint8_t *bytes, size_t size, struct plain_job *job)
{
    struct reader r = {bytes, bytes + size, size > LONGEST};
    memset(job, 0, sizeof *job);
    job->frequency = take(&r, 1, 1);
    job->steps = take(&r, 2, 1);
    job->reversion = take(&r, 3, 2);
    job->volatility = take(&r, 4, 4);
    if (r.at < r.end && *r.at == VERSION) {
        job->version = take(&r, VERSION, 1);
        r.bad |= job->version != 1 && job->version != 2;
    }
    for (size_t i = 0; i < job->steps && !r.bad; i++) {
        r.bad = r.at == r.end || !is_quote(job->kinds[i] = *r.at);
        job->figures[i] = take(&r, job->kinds[i], 8);
    }
    for (size_t i = 0; i < job->steps && !r.bad; i++)
        job->flows[i] = take(&r, 7, 4);
    if (!r.bad && r.at < r.end)
        read_option(&r, job);
    if (r.bad || r.at != r.end) {
        memset(job, 0, sizeof *job);
        return 1;
    }
    return 0;
}

static int all_zero(const uint8_t *bytes, size_t count)
{
    uint8_t any = 0;
    for (size_t i = 0; i < count; i++)
        any |= bytes[i];
    return any == 0;
}

static int is_sound_option(const struct plain_job *job)
{
    if (job->kind > UINT8_MAX || job->expiry > UINT8_MAX || job->strike > UINT32_MAX || job->count > PLAIN_DATES)
        return 0;
    if (!all_zero(job->dates + job->count, PLAIN_DATES - job->count))
        return 0;
    if (job->tag == OF_KIND)
        return job->count == 0;
    if (job->tag == DATED)
        return job->expiry == 0;
    return job->tag == 0 && job->kind == 0 && job->expiry == 0 && job->strike == 0 && job->count == 0;
}

static int is_sound(const struct plain_job *job)
{
    const size_t n = job->steps;
    if (job->frequency > UINT8_MAX || n > PLAIN_STEPS || job->reversion > UINT16_MAX || job->volatility > UINT32_MAX || job->version > 2)
        return 0;
    for (size_t i = 0; i < n; i++)
        if (!is_quote(job->kinds[i]) || job->flows[i] > UINT32_MAX)
            return 0;
    const size_t rest = PLAIN_STEPS - n;
    return all_zero(job->kinds + n, rest) && all_zero((const uint8_t *)(job->figures + n), 8 * rest) &&
           all_zero((const uint8_t *)(job->flows + n), 8 * rest) && is_sound_option(job);
}

static uint8_t *put_number(uint8_t *at, uint64_t value, size_t width)
{
    for (size_t i = width; i-- > 0; value >>= 8)
        at[i] = (uint8_t)value;
    return at + width;
}

static uint8_t *put(uint8_t *at, uint8_t tag, uint64_t value, size_t width)
{
    *at = tag;
    return put_number(put_number(at + 1, width, 2), value, width);
}

static size_t option_size(const struct plain_job *job)
{
    return job->tag == OF_KIND ? 9 : job->tag == DATED ? 8 + job->count : 0;
}

int plain_write_job(const struct plain_job *job, uint8_t *out, size_t room)
{
    if (!is_sound(job))
        return -1;
    const size_t size = 20 + (job->version ? 4 : 0) + 18 * job->steps + option_size(job);
    if (size > LONGEST)
        return -1;
    if (room < size)
        return -6;
    uint8_t *at = put(put(put(put(out, 1, job->frequency, 1), 2, job->steps, 1), 3, job->reversion, 2), 4, job->volatility, 4);
    if (job->version)
        at = put(at, VERSION, job->version, 1);
    for (size_t i = 0; i < job->steps; i++)
        at = put(at, job->kinds[i], job->figures[i], 8);
    for (size_t i = 0; i < job->steps; i++)
        at = put(at, 7, job->flows[i], 4);
    if (job->tag == OF_KIND)
        put(at, OF_KIND, job->kind << 40 | job->expiry << 32 | job->strike, 6);
    if (job->tag == DATED) {
        *at = DATED;
        at = put_number(put_number(put_number(at + 1, 5 + job->count, 2), job->kind, 1), job->strike, 4);
        memcpy(at, job->dates, job->count);
    }
    return (int)size;
}
