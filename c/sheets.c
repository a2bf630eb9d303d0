/* The sheets of a file of jobs, each job behind its size in two bytes: sheets JOBS OUT writes, for each job, a line
 * with the size of its sheet and the sheet, or the line that the program sheet prints of a refusal. */
#include "mixegorta.h"

#include <stdio.h>

static uint8_t job[1 << 16], room[MIXEGORTA_SHEET_ROOM];

static int put(const uint8_t *text, size_t size, FILE *out) {
    return fprintf(out, "%zu\n", size) < 0 || fwrite(text, 1, size, out) != size;
}

static int put_sheet(size_t size, FILE *out) {
    char refusal[32];
    const struct mixegorta_written written = mixegorta_sheet(job, size, room, sizeof room);
    if (written.number == 0) return put(room + sizeof room - written.size, written.size, out);
    return put((uint8_t *)refusal, (size_t)sprintf(refusal, "refused %u\n", (unsigned)written.number), out);
}

int main(int count, char **arguments) {
    FILE *jobs = count == 3 ? fopen(arguments[1], "rb") : NULL, *out = count == 3 ? fopen(arguments[2], "wb") : NULL;
    if (jobs == NULL || out == NULL) return 2;
    for (int high = fgetc(jobs); high != EOF; high = fgetc(jobs)) {
        const size_t size = (size_t)high * 256 + (size_t)fgetc(jobs);
        if (fread(job, 1, size, jobs) != size || put_sheet(size, out)) return 1;
    }
    return fclose(out) != 0;
}
