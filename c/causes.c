/* Prints what mixegorta_cause says of 0, of each refusal and of the first number that is none; in C and in C++. */
#include "mixegorta.h"
#include <inttypes.h>
#include <stdio.h>
#include <string.h>

int main(void) {
    const char *beyond = mixegorta_cause(UINT64_MAX);
    if (mixegorta_version() != MIXEGORTA_VERSION_NUMBER || strcmp(beyond, mixegorta_cause((UINT64_C(1) << 32) + 1)) != 0)
        return 1;
    puts(mixegorta_cause(0));
    for (uint64_t number = 1; strcmp(mixegorta_cause(number), beyond) != 0; number++)
        printf("refused %" PRIu64 ": %s\n", number, mixegorta_cause(number));
    puts(beyond);
    return 0;
}
