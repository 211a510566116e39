/* Structs of a program's own that are written, and bytes of which nothing is kept. */
#ifndef MADE_H
#define MADE_H

#include "writes.h"

static const uint8_t no_text[] = {0xFF};
static const gtv_bytes one_byte = {no_text, 1};

static void hide_all(station *it, station_lists *lists) {
    (void)lists;
    it->height = 1;
    it->note = one_byte;
    it->last.name = one_byte;
    it->last.has_count = true;
    it->power.which = 7;
    it->power.volts = 1;
    it->power.grid = one_byte;
    it->power.backup.count = 1;
    it->tags_count = 1;
    it->samples_count = 1;
}

static void show_none(station *it, station_lists *lists) {
    static const gtv_bytes tag = {NULL, 0};
    static const report_sample sample = {{NULL, 0}, 0, false, 0};
    it->has_height = true;
    it->has_note = true;
    it->has_last = true;
    it->power.which = STATION_POWER_GRID;
    lists->tags = &tag;
    lists->tags_len = 1;
    lists->samples = &sample;
    lists->samples_len = 1;
}

static void show_volts(station *it, station_lists *lists) {
    hide_all(it, lists);
    it->power.which = STATION_POWER_VOLTS;
}

static void show_no_text(station *it, station_lists *lists) {
    (void)lists;
    it->name = one_byte;
    it->has_last = true;
    it->last.name = one_byte;
}

static void show_zero(station *it, station_lists *lists) {
    (void)it;
    (void)lists;
}

/* What is set of a station that is zero, and what is written of it. */
static const struct {
    const char *name;
    void (*set)(station *, station_lists *);
    const char *encoding;
} made[] = {
    {"all is zero, and NULL", show_zero, "-"},
    {"no flag is set, and no field of a oneof stands", hide_all, "-"},
    {"fields that are there, and empty", show_none, "180022002A004A005A006200"},
    {"one field of a oneof stands", show_volts, "450000803F"},
    {"text that is no UTF-8", show_no_text, "0A01FF2A030A01FF"},
};

/* Bytes with a name, an unknown field, and a tag, and what is kept of them. */
static const uint8_t beside[] = {0x0A, 1, 'A', 0x68, 0x81, 0, 0x5A, 1, 'B'};
static const char *const unknown_beside = "6801";

static int try_made(void) {
    int tried = (int)(sizeof made / sizeof made[0]);
    bytes = memcpy(at_end(input, sizeof beside), beside, sizeof beside);
    bytes_len = sizeof beside;
    for (int i = 0; i < tried; i++) {
        station it;
        station_lists lists;
        memset(&it, 0, sizeof it);
        memset(&lists, 0, sizeof lists);
        made[i].set(&it, &lists);
        write_with(NULL, &it, &lists);
        size_t len = strcmp(made[i].encoding, "-") == 0 ? 0 : strlen(made[i].encoding);
        if (strcmp(written, made[i].encoding) != 0 || strncmp(kept, written, len) != 0 ||
            strcmp(kept + len, unknown_beside) != 0) {
            printf("%s: wanted %s, found %s and %s\n", made[i].name, made[i].encoding, written,
                   kept);
            fails++;
        }
    }
    return tried;
}

static size_t bytes_of(const char *digits, uint8_t *message) {
    size_t len = 0;
    for (unsigned byte; sscanf(digits, "%2x", &byte) == 1; digits += 2) {
        message[len++] = (uint8_t)byte;
    }
    return len;
}

/* Bytes that are no records, of which nothing is kept, and the status. */
static const struct {
    const char *name;
    const char *digits;
    const char *status;
} refused[] = {
    {"an unknown field cut short", "68016A0241", "UnexpectedEof"},
    {"a known field cut short", "0A0241", "UnexpectedEof"},
    {"a tag alone", "6801E8", "UnexpectedEof"},
    {"an unknown varint of eleven bytes", "68FFFFFFFFFFFFFFFFFFFF01", "VarintTooLong"},
    {"a length that goes on", "6AFFFFFFFFFFFFFFFFFFFF01", "VarintTooLong"},
    {"field number 0", "680100", "InvalidFieldNumber"},
    {"field number 0 in a group", "6B00006C", "InvalidFieldNumber"},
    {"wire type 6", "6E", "InvalidWireType"},
    {"an end tag alone", "68016C", "InvalidWireType"},
    {"a group that does not end", "6B6801", "UnexpectedEof"},
    {"a group that ends as another", "6B74", "InvalidEndGroup"},
    {"a known number that begins a group, which does not end", "0B6801", "UnexpectedEof"},
};

/* Groups of field number 13, one inside the other. */
static void nest(size_t levels) {
    uint8_t *all = at_end(input, 2 * levels);
    memset(all, 0x6B, levels);
    memset(all + levels, 0x6C, levels);
    bytes = all;
    bytes_len = 2 * levels;
}

/* Whether nothing is measured and nothing written, and both for this cause. */
static int is_refused(const char *status) {
    static const report_sample sample = {{NULL, 0}, 0, true, 7};
    static const station it = {.level = 1};
    static const station_lists lists = {NULL, 0, NULL, 0};
    Written both[] = {{&sample, NULL, NULL, true}, {NULL, &it, &lists, true}};
    int right = 1;
    for (int i = 0; i < 2; i++) {
        for (size_t size = 0; size <= 64; size += 64) {
            size_t len = 1;
            size_t measured = 1;
            uint8_t *room = at_end(output, size);
            memset(room, 0xA5, size);
            uint32_t found = write_into(both[i], room, size, &len);
            right &= strcmp(gtv_status_name(found), status) == 0 && len == 0 &&
                     measure(both[i], &measured) == found && measured == 0 &&
                     all_are(room, size, 0xA5);
        }
    }
    return right;
}

static int try_refused(void) {
    int tried = (int)(sizeof refused / sizeof refused[0]);
    for (int i = 0; i < tried; i++) {
        uint8_t message[MOST_BYTES];
        bytes_len = bytes_of(refused[i].digits, message);
        bytes = memcpy(at_end(input, bytes_len), message, bytes_len);
        if (!is_refused(refused[i].status)) {
            printf("%s: no %s\n", refused[i].name, refused[i].status);
            fails++;
        }
    }
    nest(101);
    if (!is_refused("RecursionLimitExceeded")) {
        printf("101 groups are kept\n");
        fails++;
    }
    return tried + 1;
}

#endif
