/* Work on the messages of readings.proto. Each worker has a table of the messages that it works on:
 * `read` reads bytes and sums up all that they show, `write` writes what was read last and says how
 * many bytes that took. 0 where it is refused. */
#ifndef READINGS_WORK_H
#define READINGS_WORK_H

#include <stddef.h>
#include <stdint.h>
#include <string.h>

/* So many bytes of a text, or elements of a list, have room in nanopb's structs. */
enum { MOST_BYTES = 32, MOST_ELEMENTS = 8 };

typedef struct message_work {
    const char *message;
    uint64_t (*read)(const uint8_t *bytes, size_t len);
    size_t (*write)(uint8_t *room, size_t room_len);
} message_work;

#ifdef __cplusplus
extern "C" {
#endif

/* Behind the last message is one without a name. */
extern const message_work here_work[];
extern const message_work cpp_work[];
extern const message_work nanopb_work[];

#ifdef __cplusplus
}
#endif

/* A sum, that no two fields that change places leave as it was, with one value more. */
static inline uint64_t with_number(uint64_t sum, uint64_t value) {
    return 31 * sum + value;
}

static inline uint64_t with_double(uint64_t sum, double value) {
    uint64_t bits;
    memcpy(&bits, &value, sizeof bits);
    return with_number(sum, bits);
}

static inline uint64_t with_float(uint64_t sum, float value) {
    uint32_t bits;
    memcpy(&bits, &value, sizeof bits);
    return with_number(sum, bits);
}

/* The length and the first byte. */
static inline uint64_t with_text(uint64_t sum, const void *data, size_t len) {
    return with_number(with_number(sum, len), len > 0 ? *(const uint8_t *)data : 0);
}

#endif
