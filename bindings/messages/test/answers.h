/* What programs have in common that tell what the structs of a schema show: for each line
 * `MESSAGE HEX` a line with the status, and where that is GTV_OK each field, the shortest encoding,
 * that with the unknown fields, these as they came, and the least limits; else the byte at which
 * the first record begins that is not taken. `astray` stands in it where the library breaks what
 * the header says. What is of the schema is written by program_of: functions `show_..` and
 * `is_no_..` for each struct, of which the second tells whether it is zero, and the table
 * `answers`. */
#include <inttypes.h>
#include <stdio.h>
#include <stdlib.h>
#include <string.h>

typedef struct answer {
    const char *message;
    void (*put)(size_t count);
} answer;

/* Behind the last is one without a name. */
extern const answer answers[];

enum { MOST = 1 << 16, MOST_ELEMENTS = 64, MOST_NUMBERS = 1 << 12 };

static uint8_t bytes[MOST];
static uint8_t room[4 * MOST];

static inline void put_hex(const char *name, const uint8_t *data, size_t len) {
    printf(" %s=", name);
    for (size_t i = 0; i < len; i++) {
        printf("%02x", data[i]);
    }
}

static inline void put_double(const char *name, double value) {
    uint64_t bits;
    memcpy(&bits, &value, sizeof bits);
    printf(" %s=%016" PRIx64, name, bits);
}

static inline void put_float(const char *name, float value) {
    uint32_t bits;
    memcpy(&bits, &value, sizeof bits);
    printf(" %s=%08" PRIx32, name, bits);
}

static inline void put_signed(const char *name, int64_t value) {
    printf(" %s=%" PRId64, name, value);
}

static inline void put_unsigned(const char *name, uint64_t value) {
    printf(" %s=%" PRIu64, name, value);
}

#define PUT_SIGNED(name) put_signed(#name, it->name)
#define PUT_UNSIGNED(name) put_unsigned(#name, it->name)
#define PUT_BYTES(name) put_hex(#name, it->name.data, it->name.len)
#define PUT_DOUBLE(name) put_double(#name, it->name)
#define PUT_FLOAT(name) put_float(#name, it->name)
/* A field that may lack, which is zero then. */
#define PUT_OPTIONAL(put, is_zero, name)                                                           \
    do {                                                                                           \
        if (it->has_##name) {                                                                      \
            put(name);                                                                             \
        } else {                                                                                   \
            printf((is_zero) ? " %s=-" : " %s=astray", #name);                                     \
        }                                                                                          \
    } while (0)
/* The same of a message. */
#define PUT_INSIDE(put, is_zero, name)                                                             \
    do {                                                                                           \
        if (it->has_##name) {                                                                      \
            printf(" %s={", #name);                                                                \
            put(&it->name);                                                                        \
            printf(" }");                                                                          \
        } else {                                                                                   \
            printf((is_zero) ? " %s=-" : " %s=astray", #name);                                     \
        }                                                                                          \
    } while (0)

/* A field of a oneof; one that does not stand is zero. */
#define PUT_ONE(number, put, is_zero, name)                                                        \
    do {                                                                                           \
        if (it->which == (number)) {                                                               \
            put(name);                                                                             \
        } else {                                                                                   \
            printf((is_zero) ? " %s=-" : " %s=astray", #name);                                     \
        }                                                                                          \
    } while (0)
/* The same of a message. */
#define PUT_ONE_INSIDE(number, put, is_zero, name)                                                 \
    do {                                                                                           \
        if (it->which == (number)) {                                                               \
            printf(" %s={", #name);                                                                \
            put(&it->name);                                                                        \
            printf(" }");                                                                          \
        } else {                                                                                   \
            printf((is_zero) ? " %s=-" : " %s=astray", #name);                                     \
        }                                                                                          \
    } while (0)

/* The elements of a list of strings or bytes, which are put into `list`; as many as `wanted`. */
#define PUT_TEXTS(next, name)                                                                      \
    do {                                                                                           \
        gtv_bytes walk = whole;                                                                    \
        size_t found = 0;                                                                          \
        printf(" %s=[", #name);                                                                    \
        while (next(&walk, &element) == GTV_OK && found < MOST_ELEMENTS) {                         \
            name[found++] = element;                                                               \
            put_hex("", element.data, element.len);                                                \
        }                                                                                          \
        printf(found == it->name##_count ? " ]" : " ] astray");                                    \
        lists.name = name;                                                                         \
        lists.name##_len = found;                                                                  \
    } while (0)

/* The same of messages. */
#define PUT_MESSAGES(next, show, read, name)                                                       \
    do {                                                                                           \
        gtv_bytes walk = whole;                                                                    \
        size_t found = 0;                                                                          \
        printf(" %s=[", #name);                                                                    \
        while (next(&walk, &element) == GTV_OK && found < MOST_ELEMENTS) {                         \
            if (read(element.data, element.len, &name[found]) != GTV_OK) {                         \
                printf(" astray");                                                                 \
            }                                                                                      \
            printf(" {");                                                                          \
            show(&name[found++]);                                                                  \
            printf(" }");                                                                          \
        }                                                                                          \
        printf(found == it->name##_count ? " ]" : " ] astray");                                    \
        lists.name = name;                                                                         \
        lists.name##_len = found;                                                                  \
    } while (0)

/* The same of numbers, each of which is put as one of a field without a name. */
#define PUT_NUMBERS(next, put, name)                                                               \
    do {                                                                                           \
        gtv_numbers walk = {whole, {NULL, 0}};                                                     \
        size_t found = 0;                                                                          \
        printf(" %s=[", #name);                                                                    \
        while (found < MOST_NUMBERS && next(&walk, &name[found]) == GTV_OK) {                      \
            put("", name[found++]);                                                                \
        }                                                                                          \
        printf(found == it->name##_count ? " ]" : " ] astray");                                    \
        lists.name = name;                                                                         \
        lists.name##_len = found;                                                                  \
    } while (0)

/* Writes a message that was read: into room that has just its bytes, into one that lacks one, and
 * with its unknown fields. */
#define PUT_WRITTEN(message, ...)                                                                  \
    do {                                                                                           \
        size_t wanted = message##_size(__VA_ARGS__);                                               \
        size_t len = 0;                                                                            \
        memset(room, 0xAA, wanted + 1);                                                            \
        if (message##_write(__VA_ARGS__, room, wanted, &len) != GTV_OK || len != wanted ||         \
            room[wanted] != 0xAA) {                                                                \
            printf(" astray");                                                                     \
        }                                                                                          \
        put_hex("written", room, wanted);                                                          \
        memset(room, 0xAA, wanted + count + 1);                                                    \
        if (wanted > 0 &&                                                                          \
            (message##_write(__VA_ARGS__, room, wanted - 1, &len) != GTV_NO_ROOM ||                \
             len != wanted || room[0] != 0xAA)) {                                                  \
            printf(" astray");                                                                     \
        }                                                                                          \
        if (message##_size_keeping(__VA_ARGS__, bytes, count, &wanted) != GTV_OK ||                \
            message##_write_keeping(__VA_ARGS__, bytes, count, room, wanted, &len) != GTV_OK ||    \
            len != wanted || room[wanted] != 0xAA) {                                               \
            printf(" astray");                                                                     \
        }                                                                                          \
        put_hex("kept", room, wanted);                                                             \
    } while (0)

/* The same answer within limits that are no narrower than the default ones. */
static const gtv_limits wide = {SIZE_MAX, SIZE_MAX, 100};

#define PUT_WITHIN(message)                                                                        \
    do {                                                                                           \
        message within;                                                                            \
        memset(&within, 0xAA, sizeof within);                                                      \
        if (message##_read_within(bytes, count, &wide, &within) != status) {                       \
            printf(" astray");                                                                     \
        }                                                                                          \
    } while (0)

/* The records that the message lacks, one after another, as they came. */
#define PUT_UNKNOWN(message)                                                                       \
    do {                                                                                           \
        gtv_bytes walk = {bytes, count}, record;                                                   \
        printf(" unknown=[");                                                                      \
        while (message##_unknown_record(&walk, &record) == GTV_OK) {                               \
            put_hex("", record.data, record.len);                                                  \
        }                                                                                          \
        printf(record.len == 0 ? " ]" : " ] astray");                                              \
    } while (0)

/* The least of a limit within which the message is read, which it is with `most` of it. */
#define LEAST(message, limit, most)                                                                \
    do {                                                                                           \
        size_t low = 0, high = (most);                                                             \
        while (low < high) {                                                                       \
            message within;                                                                        \
            limit = (low + high) / 2;                                                              \
            if (message##_read_within(bytes, count, &least, &within) == GTV_OK) {                  \
                high = limit;                                                                      \
            } else {                                                                               \
                low = limit + 1;                                                                   \
            }                                                                                      \
        }                                                                                          \
        limit = low;                                                                               \
    } while (0)

/* The least limits: unknown fields, bytes of their payloads, and levels. As they take many reads,
 * they are told of messages of every eighth length. */
#define PUT_LIMITS(message)                                                                        \
    do {                                                                                           \
        if (count % 8 == 0) {                                                                      \
            gtv_limits least = {SIZE_MAX, SIZE_MAX, 100};                                          \
            LEAST(message, least.records, count);                                                  \
            LEAST(message, least.payload_bytes, count);                                            \
            LEAST(message, least.depth, 100);                                                      \
            printf(" limits=%zu,%zu,%" PRIu32, least.records, least.payload_bytes, least.depth);   \
        }                                                                                          \
    } while (0)

/* Where the bytes are refused, or their length, by both calls that tell it. */
#define PUT_PLACE(message)                                                                         \
    do {                                                                                           \
        size_t place = SIZE_MAX, within = SIZE_MAX;                                                \
        if (message##_fault(bytes, count, &place) != status ||                                     \
            message##_fault_within(bytes, count, &wide, &within) != status || place != within) {   \
            printf(" astray");                                                                     \
        }                                                                                          \
        if (status == GTV_OK ? place != count : place >= count) {                                  \
            printf(" astray");                                                                     \
        }                                                                                          \
        if (status != GTV_OK) {                                                                    \
            printf(" at %zu", place);                                                              \
        }                                                                                          \
        /* (the front before the place is the longest that is read) */                             \
        for (size_t more = 0; status != GTV_OK && more < 32 && place + more <= count; more++) {    \
            message front;                                                                         \
            if ((message##_read(bytes, place + more, &front) == GTV_OK) != (more == 0)) {          \
                printf(" astray");                                                                 \
            }                                                                                      \
        }                                                                                          \
    } while (0)

#define ANSWER(prefix, name)                                                                       \
    static void put_##name(size_t count) {                                                         \
        prefix##_##name it;                                                                        \
        uint32_t status = prefix##_##name##_read(bytes, count, &it);                               \
        printf("%" PRIu32, status);                                                                \
        PUT_WITHIN(prefix##_##name);                                                               \
        PUT_PLACE(prefix##_##name);                                                                \
        if (status == GTV_OK) {                                                                    \
            show_##name(&it);                                                                      \
            PUT_WRITTEN(prefix##_##name, &it);                                                     \
            PUT_UNKNOWN(prefix##_##name);                                                          \
            PUT_LIMITS(prefix##_##name);                                                           \
        } else if (!is_no_##name(&it)) {                                                           \
            printf(" astray");                                                                     \
        }                                                                                          \
        putchar('\n');                                                                             \
    }

/* The same of a message with lists. */
#define ANSWER_LISTS(prefix, name)                                                                 \
    static void put_##name(size_t count) {                                                         \
        prefix##_##name it;                                                                        \
        uint32_t status = prefix##_##name##_read(bytes, count, &it);                               \
        printf("%" PRIu32, status);                                                                \
        PUT_WITHIN(prefix##_##name);                                                               \
        PUT_PLACE(prefix##_##name);                                                                \
        if (status == GTV_OK) {                                                                    \
            show_##name(&it, count);                                                               \
            PUT_WRITTEN(prefix##_##name, &it, &name##_lists);                                      \
            PUT_UNKNOWN(prefix##_##name);                                                          \
            PUT_LIMITS(prefix##_##name);                                                           \
        } else if (!is_no_##name(&it)) {                                                           \
            printf(" astray");                                                                     \
        }                                                                                          \
        putchar('\n');                                                                             \
    }

static int digit(char sign) {
    return sign <= '9' ? sign - '0' : sign - 'a' + 10;
}

int main(void) {
    static char line[2 * MOST + 64];
    while (fgets(line, sizeof line, stdin) != NULL) {
        char *hex = strchr(line, ' ');
        size_t count = 0;
        if (hex == NULL) {
            return 1;
        }
        *hex = '\0';
        for (hex++; hex[0] >= '0' && hex[1] >= '0'; hex += 2) {
            bytes[count++] = (uint8_t)(16 * digit(hex[0]) + digit(hex[1]));
        }
        const answer *it = answers;
        while (it->message != NULL && strcmp(it->message, line) != 0) {
            it++;
        }
        if (it->message == NULL) {
            return 1;
        }
        it->put(count);
    }
    return 0;
}
