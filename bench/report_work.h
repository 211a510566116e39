/* What a worker does of which the size is looked at. */
#ifndef REPORT_WORK_H
#define REPORT_WORK_H

#include <stddef.h>
#include <stdint.h>

enum { MOST_ELEMENTS = 8 };

/* Reads a report and writes it into the room; says how many bytes that takes, or 0. */
size_t report_again(const uint8_t *bytes, size_t len, uint8_t *room, size_t room_len);

#endif
