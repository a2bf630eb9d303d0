/* The library as a program loads it that was compiled without it: loaded LIBRARY JOB NAME.. finds each named function,
 * asks for the version and prints sheet and prices of a job with an option. On Windows a struct that is returned goes
 * by an address before the arguments, and one that is handed over by its address: so Visual Basic calls them, and so
 * they are called here. */
#ifndef _WIN32
#define _POSIX_C_SOURCE 200809L
#endif
#include "mixegorta.h"

#include <stdio.h>
#include <string.h>

#ifdef _WIN32
#include <windows.h>
typedef FARPROC found;
typedef void *sheet_function(struct mixegorta_written *, const uint8_t *, size_t, uint8_t *, size_t);
typedef void *shelf_function(struct mixegorta_part *, const struct mixegorta_shelf *, size_t);
typedef void *prices_function(struct mixegorta_job_prices *, const uint8_t *, size_t, uint64_t *, size_t, uint64_t *,
                              size_t);
#else
#include <dlfcn.h>
typedef void *found;
typedef struct mixegorta_written sheet_function(const uint8_t *, size_t, uint8_t *, size_t);
typedef struct mixegorta_part shelf_function(struct mixegorta_shelf, size_t);
typedef struct mixegorta_job_prices prices_function(const uint8_t *, size_t, uint64_t *, size_t, uint64_t *, size_t);
#endif

static uint8_t job[MIXEGORTA_MAX_JOB + 1], room[MIXEGORTA_SHEET_ROOM];
static uint64_t discounts[MIXEGORTA_MAX_DISCOUNTS], state_prices[MIXEGORTA_MAX_STATE_PRICES];

static found function(const char *library, const char *name) {
#ifdef _WIN32
    HMODULE loaded = LoadLibraryA(library);
    return loaded == NULL ? NULL : GetProcAddress(loaded, name);
#else
    void *loaded = dlopen(library, RTLD_NOW);
    return loaded == NULL ? NULL : dlsym(loaded, name);
#endif
}

static struct mixegorta_written sheet(const char *library, size_t size) {
    struct mixegorta_written written = {1, 0};
    const found address = function(library, "mixegorta_sheet");
    sheet_function *call;
    memcpy(&call, &address, sizeof call);
#ifdef _WIN32
    if (call(&written, job, size, room, sizeof room) != &written) written.number = 1;
#else
    written = call(job, size, room, sizeof room);
#endif
    return written;
}

static struct mixegorta_job_prices prices(const char *library, size_t size) {
    struct mixegorta_job_prices priced;
    const found address = function(library, "mixegorta_prices_of_job");
    prices_function *call;
    memcpy(&call, &address, sizeof call);
    memset(&priced, 1, sizeof priced);
#ifdef _WIN32
    call(&priced, job, size, discounts, MIXEGORTA_MAX_DISCOUNTS, state_prices, MIXEGORTA_MAX_STATE_PRICES);
#else
    priced = call(job, size, discounts, MIXEGORTA_MAX_DISCOUNTS, state_prices, MIXEGORTA_MAX_STATE_PRICES);
#endif
    return priced;
}

static void show(const char *name, struct mixegorta_price price) {
    const unsigned long long value = price.value, bound = price.bound;
    printf("%s %llu.%09llu %llu\n", name, value / MIXEGORTA_ONE, value % MIXEGORTA_ONE, bound);
}

/* Where the third tree of a shelf stands, which only the slots of the two before it tell. */
static struct mixegorta_part part(const char *library) {
    static struct mixegorta_shelf shelf;
    struct mixegorta_part place = {0, 0};
    const found address = function(library, "mixegorta_shelf_part");
    shelf_function *call;
    for (size_t k = 0; k < 3; k++) shelf.slots[k].status = MIXEGORTA_AWAITING, shelf.slots[k].steps = k + 2;
    memcpy(&call, &address, sizeof call);
#ifdef _WIN32
    if (call(&place, &shelf, 3) != &place) place.count = 0;
#else
    place = call(shelf, 3);
#endif
    return place;
}

static int finds(const char *library, int count, char **names) {
    for (int k = 0; k < count; k++)
        if (!function(library, names[k])) return printf("%s has no %s\n", library, names[k]), 0;
    return 1;
}

int main(int count, char **arguments) {
    uint64_t (*version)(void);
    FILE *file = count > 2 ? fopen(arguments[2], "rb") : NULL;
    if (file == NULL || !finds(arguments[1], count - 3, arguments + 3)) return 2;
    const size_t size = fread(job, 1, sizeof job, file);
    const found address = function(arguments[1], "mixegorta_version");
    memcpy(&version, &address, sizeof version);
    const struct mixegorta_part third = part(arguments[1]);
    if (version() != MIXEGORTA_VERSION_NUMBER || third.start != 4 + 9 || third.count != 16) return 3;
    const struct mixegorta_written written = sheet(arguments[1], size);
    const struct mixegorta_job_prices priced = prices(arguments[1], size);
    if (written.number != 0 || priced.number != 0 || !priced.has_option) return 1;
    printf("%.*s", (int)written.size, (char *)room + sizeof room - written.size);
    show("bond", priced.bond);
    show("option", priced.option);
    return 0;
}
