/* Document 01's sheet of an accepted job in plain C. */
#ifndef PLAIN_SHEET_H
#define PLAIN_SHEET_H
#include <stddef.h>
#include <stdint.h>

/* The bytes of the sheet, written from the start of out; 0 for a job that is refused. */
size_t plain_sheet(const uint8_t *job, size_t size, uint8_t *out);

#endif
